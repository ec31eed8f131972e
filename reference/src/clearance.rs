//! The first clear run: in rows as they stand in a lent buffer, the first row that opens a run of so many rows in
//! a row, each of which is certain to clear a need all through its step.

use crate::rounding::SCALE;
use crate::rows::{self, Parts};
use crate::sheet::{LIMIT, MOST_QUANTITIES, Refusal, STEPS};
use std::ops::RangeInclusive;

/// How many rows may be looked through.
pub const COUNT: RangeInclusive<usize> = 0..=*STEPS.end() as usize;
pub const WEIGHT: RangeInclusive<i64> = -(1 << 26)..=1 << 26;
pub const BASE: RangeInclusive<i64> = -LIMIT..=LIMIT;
pub const NEED: RangeInclusive<i64> = -LIMIT..=LIMIT;
pub const RUN: RangeInclusive<usize> = 1..=*STEPS.end() as usize;
/// A value, a low or a high, and a radius of a row that is looked through, whoever wrote it.
pub const ROW_VALUE: RangeInclusive<i64> = -(1 << 31)..=1 << 31;
pub const ROW_RADIUS: RangeInclusive<i64> = 0..=1 << 31;

/// What is asked of the rows.
#[derive(Clone, Debug, PartialEq, Eq)]
pub struct Query {
    /// One for each quantity; those past the rows' quantities are never looked at.
    pub weights: [i64; MOST_QUANTITIES],
    pub base: i64,
    pub need: i64,
    /// How many rows in a row.
    pub run: usize,
}

/// What came of a query.
#[derive(Clone, Copy, Debug, PartialEq, Eq)]
pub enum FirstClear {
    /// The row that opens the run, numbered from 1.
    Row(usize),
    /// No row opens such a run.
    NoRow,
    Refused(Refusal),
}

impl FirstClear {
    /// The answer as one number: the row, 0 for none, minus the refusal's number.
    pub fn number(self) -> i64 {
        match self {
            FirstClear::Row(row) => row as i64,
            FirstClear::NoRow => 0,
            FirstClear::Refused(refusal) => -(refusal as i64),
        }
    }
}

/// The first clear run in the first `count` rows of `n` quantities of a buffer.
pub fn first_clear(n: usize, count: usize, rows: &[i64], query: &Query) -> FirstClear {
    if let Err(refusal) = check(n, count, rows, query) {
        return FirstClear::Refused(refusal);
    }
    let rows = rows.chunks_exact(rows::width(n)).take(count);
    let certain: Vec<bool> = rows.map(|row| is_certain(query, row)).collect();
    let mut runs = certain.windows(query.run);
    match runs.position(|run| run.iter().all(|&certain| certain)) {
        Some(place) => FirstClear::Row(place + 1),
        None => FirstClear::NoRow,
    }
}

/// The questions before any row is looked for, in their order.
fn check(n: usize, count: usize, rows: &[i64], query: &Query) -> Result<(), Refusal> {
    if !(1..=MOST_QUANTITIES).contains(&n) || !COUNT.contains(&count) {
        return Err(Refusal::OutOfRange);
    }
    let places = count * rows::width(n);
    if rows.len() < places {
        return Err(Refusal::BufferTooShort);
    }
    if !is_in_range(n, query) {
        return Err(Refusal::QueryOutOfRange);
    }
    let mut rows = rows[..places].chunks_exact(rows::width(n));
    if !rows.all(row_is_in_range) {
        return Err(Refusal::RowOutOfRange);
    }
    Ok(())
}

/// Whether the weights of n quantities, the base, the need and the run are in their ranges.
fn is_in_range(n: usize, query: &Query) -> bool {
    query.weights[..n].iter().all(|w| WEIGHT.contains(w))
        && BASE.contains(&query.base)
        && NEED.contains(&query.need)
        && RUN.contains(&query.run)
}

/// Whether the values, radii, lows and highs of a row are in their ranges, whatever their weights; its degree may be
/// any number, and a low may lie above its high.
fn row_is_in_range(row: &[i64]) -> bool {
    let parts = rows::parts(row);
    let mut like_values = [parts.values, parts.lows, parts.highs]
        .into_iter()
        .flatten();
    like_values.all(|number| ROW_VALUE.contains(number))
        && parts.radii.iter().all(|radius| ROW_RADIUS.contains(radius))
}

/// Whether a row is certain to clear the need: at the need itself it is.
pub fn is_certain(query: &Query, row: &[i64]) -> bool {
    least_clearance(query, row) >= i128::from(query.need) * i128::from(SCALE)
}

/// base × s + the sum of weight × low over the positive weights, and of weight × high over the negative ones.
pub fn least_clearance(query: &Query, row: &[i64]) -> i128 {
    let Parts { lows, highs, .. } = rows::parts(row);
    let mut clearance = i128::from(query.base) * i128::from(SCALE);
    for ((&weight, &low), &high) in query.weights.iter().zip(lows).zip(highs) {
        let end = if weight > 0 { low } else { high };
        clearance += i128::from(weight) * i128::from(end);
    }
    clearance
}

/// base × s + the sum of weight × value - the sum of |weight| × radius: what a row assures at its own time, the end
/// of its step. No row is certain by it.
pub fn least_clearance_at_end(query: &Query, row: &[i64]) -> i128 {
    let Parts { values, radii, .. } = rows::parts(row);
    let mut clearance = i128::from(query.base) * i128::from(SCALE);
    for ((&weight, &value), &radius) in query.weights.iter().zip(values).zip(radii) {
        let weight = i128::from(weight);
        clearance += weight * i128::from(value) - weight.abs() * i128::from(radius);
    }
    clearance
}
