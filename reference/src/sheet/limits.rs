//! The range of each field of a sheet, and whether a number is in it; the most bytes and quantities that a sheet may have,
//! and the places that its rows need at most.

use super::faults::Why;
use crate::rows;
use std::ops::RangeInclusive;

/// The most bytes a sheet may have.
pub const MOST_BYTES: usize = 4096;

/// The most quantities of a sheet.
pub const MOST_QUANTITIES: usize = 8;

/// What |value| + radius must not pass, and the end of several ranges: 32 wholes.
pub const LIMIT: i64 = 1 << 29;

pub const QUANTITIES: RangeInclusive<i64> = 1..=MOST_QUANTITIES as i64;
pub const STEPS: RangeInclusive<i64> = 1..=240;
/// The steps of a stored sheet, which the conversion still reads.
pub const STORED_STEPS: RangeInclusive<i64> = 1..=400;
/// A step's length, |H|: it goes forward, or with a minus back.
pub const STEP_LENGTH: RangeInclusive<i64> = 1..=1 << 24;
pub const TAIL: RangeInclusive<i64> = 2..=1 << 24;
pub const TOL: RangeInclusive<i64> = 1..=LIMIT;
pub const START: RangeInclusive<i64> = -LIMIT..=LIMIT;
pub const RADIUS: RangeInclusive<i64> = 0..=LIMIT;
pub const TERMS: RangeInclusive<i64> = 0..=32;
pub const COEF: RangeInclusive<i64> = -(1 << 28)..=1 << 28;

/// The places that suffice for every sheet's rows.
pub const MOST_PLACES: usize = *STEPS.end() as usize * rows::width(MOST_QUANTITIES);

/// Where `first` is 0, any `second` but 0 is out of range.
pub(super) fn second_range(first: i64, n: i64) -> RangeInclusive<i64> {
    if first == 0 { 0..=0 } else { 0..=n }
}

/// A step is in its range where its length is, forward or back; 0 is not.
pub(super) fn step_within(step: i64) -> Result<i64, Why> {
    if STEP_LENGTH.contains(&step.saturating_abs()) {
        return Ok(step);
    }
    let longest = *STEP_LENGTH.end();
    Err(Why::Range {
        least: -longest,
        most: longest,
        not_zero: true,
    })
}

pub(super) fn within(number: i64, range: RangeInclusive<i64>) -> Result<i64, Why> {
    if range.contains(&number) {
        return Ok(number);
    }
    let (least, most) = range.into_inner();
    Err(Why::Range {
        least,
        most,
        not_zero: false,
    })
}
