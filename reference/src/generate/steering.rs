//! What a sheet is steered with: the scale of its first step and the longest step that fits, and the rows that its passage
//! writes.

use crate::passage;
use crate::rounding::SCALE_SIZE;
use crate::sheet::{STEP_LENGTH, Sheet};
use crate::step::ratio;

/// The largest |value| + radius of the start, at least 1 whole: G of the first step.
pub fn scale(sheet: &Sheet) -> u64 {
    let sizes = sheet.starts.iter().map(|start| {
        let value = start.value.unwrap_or(0);
        value.unsigned_abs() + start.radius.unsigned_abs()
    });
    sizes.fold(SCALE_SIZE, u64::max)
}

/// The longest step whose ratio at the scale is at most `wanted`, in the direction of the sheet's own;
/// one of length 1 where there is none.
pub fn longest_step(sheet: &Sheet, scale: u64, wanted: u64) -> i64 {
    longest_step_that(sheet, |trial| ratio(trial, scale) <= wanted)
}

/// The longest step that the sheet fits with, as with every shorter one, in the direction of its own;
/// one of length 1 where there is none.
pub fn longest_step_that(sheet: &Sheet, fits: impl Fn(&Sheet) -> bool) -> i64 {
    let direction = sheet.step.signum();
    let (mut low, mut high) = STEP_LENGTH.into_inner();
    while low < high {
        let middle = (low + high + 1) / 2;
        let step = direction * middle;
        let trial = Sheet {
            step,
            ..sheet.clone()
        };
        if fits(&trial) {
            low = middle;
        } else {
            high = middle - 1;
        }
    }
    direction * low
}

/// The rows that a sheet's passage writes, however many steps it has.
pub fn written(sheet: &Sheet) -> Vec<Vec<i64>> {
    let mut rows = vec![0; sheet.places()];
    let count = match passage::carry(sheet, &mut rows) {
        Ok(()) => sheet.steps as usize,
        Err(refused) => refused.at.saturating_sub(1),
    };
    let rows = rows.chunks(sheet.row_places()).take(count);
    rows.map(<[i64]>::to_vec).collect()
}
