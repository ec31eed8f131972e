//! The conversion of a stored sheet, from bytes to bytes (document 02, CR 5): one of more steps than a sheet may have
//! now becomes two sheets, whose rows together are its own.

use crate::answer::ending;
use crate::passage::{self, Refused};
use crate::rows::{self, Parts};
use crate::sheet::{Refusal, STEPS, Sheet, Start, read_stored, text};
use crate::step::is_too_large;

/// The steps of a long sheet's first part.
pub const FIRST_STEPS: i64 = *STEPS.end();

/// What becomes of a stored sheet.
#[derive(Clone, Debug, PartialEq, Eq)]
pub enum Conversion {
    /// As a sheet, or as a passage in its first part or right after it.
    Refused(Refused),
    /// The sheet has no more steps than a sheet may have, whatever its passage does.
    Unaltered,
    /// The first part's sheet, and the sheet of the steps that are left.
    Split(Box<[Sheet; 2]>),
}

/// What becomes of a stored sheet. The rows of a long one's first part go into `rows`; places beyond them keep what
/// they held.
pub fn convert(stored: &[u8], rows: &mut [i64]) -> Conversion {
    let parts = match read_stored(stored) {
        Err(refusal) => Err(Refused { refusal, at: 0 }),
        Ok(sheet) if sheet.steps <= FIRST_STEPS => return Conversion::Unaltered,
        Ok(sheet) => split(&sheet, rows),
    };
    match parts {
        Err(refused) => Conversion::Refused(refused),
        Ok(parts) => Conversion::Split(Box::new(parts)),
    }
}

/// Reads a stored sheet and prints its conversion.
pub fn converted(stored: &[u8], rows: &mut [i64]) -> Vec<u8> {
    printed(stored, &convert(stored, rows))
}

/// The text of what becomes of a stored sheet: two sheets have an empty line between them.
pub fn printed(stored: &[u8], conversion: &Conversion) -> Vec<u8> {
    match conversion {
        Conversion::Refused(Refused { refusal, at }) => {
            ending(*refusal as u64, *at as u64).into_bytes()
        }
        Conversion::Unaltered => stored.to_vec(),
        Conversion::Split(parts) => {
            let [first, second] = &**parts;
            [text(first), text(second)].join(&b'\n')
        }
    }
}

/// The two parts of a long sheet. The second starts from the first one's last row, which is asked as before any step.
fn split(sheet: &Sheet, rows: &mut [i64]) -> Result<[Sheet; 2], Refused> {
    let first = Sheet {
        steps: FIRST_STEPS,
        ..sheet.clone()
    };
    passage::run(&first, rows)?;
    let starts = last_row(&first, rows);
    if starts.iter().any(ends_here) {
        return Err(Refused {
            refusal: Refusal::ValueTooLarge,
            at: FIRST_STEPS as usize + 1,
        });
    }
    let second = Sheet {
        steps: sheet.steps - FIRST_STEPS,
        starts,
        ..sheet.clone()
    };
    Ok([first, second])
}

/// The last row's values and radii, to start from.
fn last_row(sheet: &Sheet, rows: &[i64]) -> Vec<Start> {
    let rows = &rows[..sheet.places()];
    let row = &rows[rows.len() - sheet.row_places()..];
    let Parts { values, radii, .. } = rows::parts(row);
    let starts = values.iter().zip(radii).map(|(&value, &radius)| Start {
        value: Some(value),
        radius,
    });
    starts.collect()
}

/// Whether question 4 refuses a step from a start.
fn ends_here(start: &Start) -> bool {
    let size = |value: i64| value.unsigned_abs() + start.radius as u64;
    start.value.map_or(false, |value| is_too_large(size(value)))
}
