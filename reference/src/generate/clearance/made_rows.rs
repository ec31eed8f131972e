//! Rows that no passage wrote, with their queries: certain or not by as much as is wanted, over the whole range of
//! every number, or at the ends of the ranges.

use super::asked::{any_number, apart, asked, random_weights, spread_size};
use super::{HIGH, LOW, PART_RANGES, QueryTrial, place_of};
use crate::clearance::{BASE, COUNT, NEED, Query, ROW_RADIUS, ROW_VALUE, WEIGHT, least_clearance};
use crate::random::Random;
use crate::rounding::SCALE;
use crate::sheet::{QUANTITIES, STEPS};
use std::ops::RangeInclusive;

/// Rows that are certain, or not, by as much as is wanted: in stretches about as long as the run, by nothing or by
/// one part in s of a unit. One quantity makes up for what the others bring: by its low where it has the weight 1, by its
/// high where it has the weight -1.
pub(super) fn to_measure(random: &mut Random) -> QueryTrial {
    let n = random.even(QUANTITIES) as usize;
    let one = random.below(n);
    let mut weights = random_weights(random, n);
    for weight in &mut weights[..n] {
        *weight = random.even(-256..=256);
    }
    weights[one] = random.of(&[-1, 1]);
    let units = random.even(-32..=32);
    let (base, need) = apart(random, units);
    let long = random.of(&[10, 100, *STEPS.end()]);
    let run = random.even(1..=long) as usize;
    let run = random.of(&[1, 2, 3, 4, run]);
    let query = Query {
        weights,
        base,
        need,
        run,
    };
    let margins = margins(random, run);
    let part = if weights[one] > 0 { LOW } else { HIGH };
    let rows = margins.iter().map(|margin| {
        let mut row = small_row(random, n);
        let end = place_of(n, part, one);
        row[end] = 0;
        let missing = margin + need * SCALE - least_clearance(&query, &row) as i64;
        row[end] = weights[one] * missing;
        row
    });
    let rows: Vec<Vec<i64>> = rows.collect();
    QueryTrial {
        n,
        count: rows.len(),
        rows: rows.concat(),
        query,
    }
}

/// By how much each row is certain, or below 0 is not: in up to seven stretches, in turn certain and not.
fn margins(random: &mut Random, run: usize) -> Vec<i64> {
    let mut margins = Vec::new();
    let mut certain = random.once_in(2);
    for _ in 0..random.even(1..=7) {
        let some = random.even(1..=2 * run as i64) as usize;
        let length = if certain {
            random.of(&[run, run, run - 1, run + 1, some])
        } else {
            random.of(&[1, 1, some])
        };
        margins.extend((0..length).map(|_| {
            let much = random.even(1..=SCALE);
            if certain {
                random.of(&[0, 0, 1, much])
            } else {
                random.of(&[-1, -1, -SCALE, -much])
            }
        }));
        certain = !certain;
    }
    margins.truncate(*COUNT.end());
    margins
}

/// A row whose lows and highs are small enough for one of the weight 1 to make up for the others, and have nothing to do
/// with each other or with the values and radii.
fn small_row(random: &mut Random, n: usize) -> Vec<i64> {
    const MOST: i64 = 1 << 18;
    let mut row = vec![random.even(0..=28)];
    row.extend((0..n).map(|_| random.spread(ROW_VALUE)));
    row.extend((0..n).map(|_| random.spread(ROW_RADIUS)));
    row.extend((0..2 * n).map(|_| random.even(-MOST..=MOST)));
    row
}

/// Every number over its whole range.
pub(super) fn anywhere(random: &mut Random) -> QueryTrial {
    let n = random.even(QUANTITIES) as usize;
    let rows = some_rows(random, n, |random, range| random.spread(range));
    let weights = random_weights(random, n);
    let mut trial = asked(random, n, rows, weights);
    if random.once_in(2) {
        trial.query.base = random.spread(BASE);
        trial.query.need = random.spread(NEED);
    }
    trial
}

/// Every number at an end of its range, or 0.
pub(super) fn at_the_ends(random: &mut Random) -> QueryTrial {
    fn end(random: &mut Random, range: RangeInclusive<i64>) -> i64 {
        random.of(&[*range.start(), *range.end(), 0])
    }
    let n = random.even(QUANTITIES) as usize;
    let rows = some_rows(random, n, end);
    let mut weights = random_weights(random, n);
    for weight in &mut weights[..n] {
        *weight = end(random, WEIGHT);
    }
    let mut trial = asked(random, n, rows, weights);
    trial.query.base = end(random, BASE);
    trial.query.need = end(random, NEED);
    trial
}

/// Some rows, now and then as many as there may be, of any degree; every other number is chosen from its range, so
/// that a low has nothing to do with its high, nor with a value and a radius.
fn some_rows(
    random: &mut Random,
    n: usize,
    choose: impl Fn(&mut Random, RangeInclusive<i64>) -> i64,
) -> Vec<Vec<i64>> {
    let few = random.even(0..=9) as usize;
    let some = spread_size(random, COUNT);
    let count = random.of(&[few, few, few, some]);
    let row = |_| {
        let mut row = vec![any_number(random)];
        for range in PART_RANGES {
            row.extend((0..n).map(|_| choose(random, range.clone())));
        }
        row
    };
    (0..count).map(row).collect()
}
