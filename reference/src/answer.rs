//! The answer's text: the rows, then `result` and `at`.

use crate::passage::{self, Refused};
use crate::rows;
use crate::sheet;
use std::fmt::Write;

/// What came of a sheet.
#[derive(Clone, Copy, Debug, PartialEq, Eq)]
pub struct Summary {
    /// 0, or the refusal's number.
    pub result: u64,
    /// The refused step, or 0.
    pub at: u64,
    /// The sheet's quantities, or 0 where it was not read.
    pub quantities: u64,
    /// The rows written.
    pub rows: u64,
}

/// Reads a sheet and runs its passage into `rows`.
pub fn run(sheet: &[u8], rows: &mut [i64]) -> Summary {
    let refused = |Refused { refusal, at }| Summary {
        result: refusal as u64,
        at: at as u64,
        quantities: 0,
        rows: at.saturating_sub(1) as u64,
    };
    let sheet = match sheet::read(sheet) {
        Ok(sheet) => sheet,
        Err(refusal) => return refused(Refused { refusal, at: 0 }),
    };
    let accepted = Summary {
        result: 0,
        at: 0,
        quantities: 0,
        rows: sheet.steps as u64,
    };
    Summary {
        quantities: sheet.starts.len() as u64,
        ..passage::run(&sheet, rows).map_or_else(refused, |()| accepted)
    }
}

/// Reads a sheet, runs its passage into `rows` and prints the answer.
pub fn answer(sheet: &[u8], rows: &mut [i64]) -> String {
    let summary = run(sheet, rows);
    text(&summary, rows)
}

/// The text of the rows written and of what became of the passage.
pub fn text(summary: &Summary, rows: &[i64]) -> String {
    let width = rows::width(summary.quantities as usize);
    let rows = &rows[..summary.rows as usize * width];
    let mut text = String::with_capacity(32 + 18 * rows.len());
    let mut print = || {
        for (row, number) in rows.chunks_exact(width).zip(1..) {
            let parts = rows::parts(row);
            writeln!(text, "row={number}\ndegree={}", parts.degree)?;
            for i in 0..parts.values.len() {
                writeln!(text, "value={}\nradius={}", parts.values[i], parts.radii[i])?;
                writeln!(text, "low={}\nhigh={}", parts.lows[i], parts.highs[i])?;
            }
        }
        write!(text, "{}", ending(summary.result, summary.at))
    };
    print().expect("writing to a string does not fail");
    text
}

/// The two lines that end an answer, and that a refused conversion is.
pub fn ending(result: u64, at: u64) -> String {
    format!("result={result}\nat={at}\n")
}
