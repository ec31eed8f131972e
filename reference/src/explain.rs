//! Why a sheet or its passage is refused, as lines `key=value`: the two that end its answer, then what the refusal was
//! decided by.

use crate::answer::ending;
use crate::passage::{self, Refused};
use crate::sheet::{
    self, Fault, Group, LIMIT, LineFault, MOST_BYTES, MOST_PLACES, Refusal, Sheet, Why,
};
use crate::step::{MOST_RATIO, State, Steps, is_too_large};
use std::fmt::{self, Write};

/// The most characters of a line that are shown.
const MOST_SHOWN: usize = 60;

/// Reads a sheet, runs its passage, and explains what came of it.
pub fn explanation(sheet: &[u8]) -> String {
    let mut text = String::new();
    let printed = match sheet::examine(sheet) {
        Ok(sheet) => print_passage(&mut text, &sheet),
        Err(fault) => print_fault(&mut text, fault),
    };
    printed.expect("writing to a string does not fail");
    text
}

fn print_passage(text: &mut String, sheet: &Sheet) -> fmt::Result {
    let mut rows = vec![0; MOST_PLACES];
    match passage::run(sheet, &mut rows) {
        Ok(()) => write!(text, "{}", ending(0, 0)),
        Err(Refused { refusal, at }) => {
            write!(text, "{}", ending(refusal as u64, at as u64))?;
            let before = passage::before(sheet, &rows, at);
            print_step(text, &Steps::of(sheet), &before, refusal)
        }
    }
}

/// What a step is refused for. No other refusal is met by a sheet that is read, whose rows all have places.
fn print_step(text: &mut String, steps: &Steps, before: &State, refusal: Refusal) -> fmt::Result {
    match refusal {
        Refusal::ValueTooLarge => print_large_quantities(text, steps, before),
        Refusal::StepTooLong => print_ratio(text, steps, before),
        Refusal::RadiusTooLarge => print_wide_radii(text, steps, before),
        _ => unreachable!("the refusal {refusal:?} of a step"),
    }
}

fn print_large_quantities(text: &mut String, steps: &Steps, before: &State) -> fmt::Result {
    for (i, size) in steps.sizes(before).enumerate() {
        if is_too_large(size) {
            let (value, radius) = (before.values[i], before.radii[i]);
            writeln!(text, "quantity={}\nvalue={value}\nradius={radius}", i + 1)?;
            writeln!(text, "size={size}\nmost={LIMIT}")?;
        }
    }
    Ok(())
}

fn print_ratio(text: &mut String, steps: &Steps, before: &State) -> fmt::Result {
    let scale = steps.scale(before);
    let ratio = steps.ratio(scale);
    let (i, _) = steps.largest_rate(scale);
    writeln!(text, "ratio={ratio}\nmost={MOST_RATIO}\nscale={scale}")?;
    writeln!(text, "quantity={}\nlongest={}", i + 1, steps.longest(scale))
}

fn print_wide_radii(text: &mut String, steps: &Steps, before: &State) -> fmt::Result {
    let tol = steps.sheet.tol;
    for (i, radius) in steps.next_radii(before).enumerate() {
        if steps.is_too_wide(radius) {
            let earlier = before.radii[i];
            writeln!(text, "quantity={}\nradius={radius}", i + 1)?;
            writeln!(text, "before={earlier}\nmost={tol}")?;
        }
    }
    Ok(())
}

fn print_fault(text: &mut String, fault: Fault) -> fmt::Result {
    let refusal = Refusal::from(fault);
    write!(text, "{}", ending(refusal as u64, 0))?;
    match fault {
        Fault::TooLong => writeln!(text, "most={MOST_BYTES}"),
        Fault::InLine(fault) => print_line_fault(text, fault),
    }
}

fn print_line_fault(text: &mut String, fault: LineFault) -> fmt::Result {
    writeln!(text, "line={}\nkey={}", fault.line, fault.key)?;
    writeln!(text, "found={}", shown(fault.found))?;
    writeln!(text, "why={}", word(fault.why))?;
    if let Why::Range {
        least,
        most,
        not_zero,
    } = fault.why
    {
        writeln!(text, "least={least}\nmost={most}")?;
        if not_zero {
            writeln!(text, "not=0")?;
        }
    }
    match fault.group {
        Group::Once => Ok(()),
        Group::Quantity(number) => writeln!(text, "quantity={number}"),
        Group::Term(number) => writeln!(text, "term={number}"),
    }
}

fn word(why: Why) -> &'static str {
    match why {
        Why::Missing => "missing",
        Why::Key => "key",
        Why::Unended => "unended",
        Why::Sign => "sign",
        Why::Number => "number",
        Why::Range { .. } => "range",
        Why::Reading => "reading",
        Why::After => "after",
    }
}

/// A line's bytes as characters that can be printed. Where they are too many, only the first ones, and then `...`;
/// a byte that takes several characters is not cut in two.
fn shown(line: &[u8]) -> String {
    let mut text = String::new();
    for &byte in line {
        let character = shown_byte(byte);
        if text.len() + character.len() > MOST_SHOWN {
            return text + "...";
        }
        text += &character;
    }
    text
}

/// A byte that ASCII can print, as it is; any other, and the backslash, by its two hexadecimal digits.
fn shown_byte(byte: u8) -> String {
    match byte {
        b'\\' => r"\x5c".to_string(),
        b' '..=b'~' => char::from(byte).to_string(),
        _ => format!(r"\x{byte:02x}"),
    }
}

#[cfg(test)]
mod tests {
    use super::*;

    #[test]
    fn bytes_that_cannot_be_printed_are_shown_in_hexadecimal() {
        assert_eq!(shown(b""), "");
        assert_eq!(shown(b" n=1 ~"), " n=1 ~");
        assert_eq!(
            shown(b"\x00\t\r\x1f\x7f\x80\xff"),
            r"\x00\x09\x0d\x1f\x7f\x80\xff"
        );
        assert_eq!(shown(br"a\x00"), r"a\x5cx00");
        assert_eq!(shown("ä".as_bytes()), r"\xc3\xa4");
    }

    #[test]
    fn a_long_line_is_cut() {
        let line = |length: usize| "x".repeat(length);
        assert_eq!(shown(line(60).as_bytes()), line(60));
        assert_eq!(shown(line(61).as_bytes()), line(60) + "...");
        assert_eq!(shown(line(4096).as_bytes()), line(60) + "...");
    }

    /// Four characters stand for one byte: all of them are shown or none.
    #[test]
    fn a_long_line_is_not_cut_within_a_byte() {
        let after = |length: usize, rest: &[u8]| shown(&[&vec![b'x'; length], rest].concat());
        assert_eq!(after(56, b"\r"), "x".repeat(56) + r"\x0d");
        assert_eq!(after(56, b"\r\r"), "x".repeat(56) + r"\x0d...");
        for length in 57..=60 {
            assert_eq!(after(length, b"\r"), "x".repeat(length) + "...");
        }
        assert_eq!(after(59, b"\rx"), "x".repeat(59) + "...");
    }
}
