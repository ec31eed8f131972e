//! A sheet as text, line by line in the order in which it is read: of a sheet that was read, the very bytes that it was
//! read from.

use super::Sheet;
use std::fmt::Write;

/// A sheet as text.
pub fn text(sheet: &Sheet) -> Vec<u8> {
    let mut text = String::new();
    let mut print = || {
        writeln!(text, "n={}\nsteps={}", sheet.starts.len(), sheet.steps)?;
        writeln!(text, "step={}\ntail={}", sheet.step, sheet.tail)?;
        writeln!(text, "tol={}", sheet.tol)?;
        for start in &sheet.starts {
            match start.value {
                Some(value) => writeln!(text, "start={value}")?,
                None => writeln!(text, "start=none")?,
            }
            writeln!(text, "radius={}", start.radius)?;
        }
        writeln!(text, "terms={}", sheet.terms.len())?;
        for term in &sheet.terms {
            writeln!(text, "to={}\ncoef={}", term.to, term.coef)?;
            writeln!(text, "first={}\nsecond={}", term.first, term.second)?;
        }
        Ok::<(), std::fmt::Error>(())
    };
    print().expect("writing to a string does not fail");
    text.into_bytes()
}
