//! What is asked of some rows: weights in their range, a base and a need about what a row clears, and a run about as long
//! as the longest that there is.

use super::QueryTrial;
use crate::clearance::{
    NEED, Query, RUN, WEIGHT, is_certain, least_clearance, least_clearance_at_end,
};
use crate::random::Random;
use crate::rounding::SCALE;
use crate::rows;
use crate::sheet::{LIMIT, MOST_QUANTITIES};
use std::ops::RangeInclusive;

/// Any number of 64 bits, the ends and numbers around 0 more often.
pub(super) fn any_number(random: &mut Random) -> i64 {
    let bits = random.bits() as i64;
    random.of(&[i64::MIN, i64::MAX, -5, -1, 0, 1, bits, bits])
}

/// Weights in range of n quantities; any numbers past them.
pub(super) fn random_weights(random: &mut Random, n: usize) -> [i64; MOST_QUANTITIES] {
    let mut weights = [0; MOST_QUANTITIES];
    let one = random.below(n);
    let kind = random.below(4);
    for (place, weight) in weights.iter_mut().enumerate() {
        *weight = match kind {
            _ if place >= n => any_number(random),
            // One quantity as it is, in its units.
            0 if place == one => SCALE,
            0 => 0,
            // Sums of whole quantities, which meet a need to the unit.
            1 => SCALE * random.even(-4..=4),
            2 => random.even(-9..=9),
            _ => random.spread(WEIGHT),
        };
    }
    weights
}

/// Turns the signs of the weights to where the values have gone from the first row to the last, so that the sum has
/// risen and a later row may be the first certain one.
pub(super) fn turn_to_rise(weights: &mut [i64], rows: &[Vec<i64>]) {
    if let (Some(first), Some(last)) = (rows.first(), rows.last()) {
        let (values, ended) = (rows::parts(first).values, rows::parts(last).values);
        for ((weight, value), end) in weights.iter_mut().zip(values).zip(ended) {
            *weight = weight.abs() * (end - value).signum();
        }
    }
}

/// A query of rows in a buffer just long enough: the need is about what some row clears, all through its step or now
/// and then at its end, and the run about as long as the longest that there is.
pub(super) fn asked(
    random: &mut Random,
    n: usize,
    rows: Vec<Vec<i64>>,
    weights: [i64; MOST_QUANTITIES],
) -> QueryTrial {
    let mut query = Query {
        weights,
        base: 0,
        need: random.spread(NEED),
        run: 1,
    };
    if !rows.is_empty() {
        let row = &rows[random.below(rows.len())];
        let (through, at_end) = (
            least_clearance(&query, row),
            least_clearance_at_end(&query, row),
        );
        let clearance = random.of(&[through, through, through, at_end]);
        let units = clearance.div_euclid(i128::from(SCALE)) as i64;
        let units = units + random.of(&[0, 0, 0, 1, 1, -1]);
        (query.base, query.need) = apart(random, units);
    }
    let certain: Vec<bool> = rows.iter().map(|row| is_certain(&query, row)).collect();
    query.run = about_as_long(random, longest_stretch(&certain), rows.len());
    QueryTrial {
        n,
        count: rows.len(),
        rows: rows.concat(),
        query,
    }
}

/// A base and a need in their ranges, the need so many units above the base, or as near to that as they can be.
pub(super) fn apart(random: &mut Random, units: i64) -> (i64, i64) {
    let units = units.clamp(-2 * LIMIT, 2 * LIMIT);
    let (low, high) = (-LIMIT - units.min(0), LIMIT - units.max(0));
    let any = random.even(low..=high);
    let base = random.of(&[0.clamp(low, high), any]);
    (base, base + units)
}

/// The most certain rows in a row.
fn longest_stretch(certain: &[bool]) -> usize {
    let stretches = certain.split(|&certain| !certain);
    stretches.map(<[bool]>::len).max().unwrap_or(0)
}

/// A run of a few rows, of the longest stretch or all rows, of one more or less, or of any length.
fn about_as_long(random: &mut Random, longest: usize, all: usize) -> usize {
    let few = random.even(1..=5) as usize;
    let any = spread_size(random, RUN);
    let less = longest.saturating_sub(1);
    let run = random.of(&[
        1,
        few,
        few,
        longest,
        longest,
        longest + 1,
        less,
        all,
        all + 1,
        any,
    ]);
    run.clamp(*RUN.start(), *RUN.end())
}

pub(super) fn spread_size(random: &mut Random, range: RangeInclusive<usize>) -> usize {
    let (low, high) = range.into_inner();
    random.spread(low as i64..=high as i64) as usize
}
