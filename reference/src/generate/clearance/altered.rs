//! One part of a query or its rows altered: to an end of its range, one beyond, or far beyond; a buffer cut short, and rows
//! past the count spoilt.

use super::asked::any_number;
use super::{HIGH, LOW, PART_RANGES, QueryTrial, place_of};
use crate::clearance::{BASE, COUNT, NEED, RUN, WEIGHT};
use crate::random::Random;
use crate::rows;
use crate::sheet::MOST_QUANTITIES;
use std::ops::RangeInclusive;

/// Alters one part of a trial: to an end of its range, one beyond, or far beyond; or where nothing is to be read.
pub(super) fn alter(random: &mut Random, trial: &mut QueryTrial) {
    let place = random.below(MOST_QUANTITIES);
    let QueryTrial {
        n, count, query, ..
    } = trial;
    match random.below(20) {
        0 => {
            let beyond = MOST_QUANTITIES + 1;
            let far = [usize::MAX, 1 << 63, (1 << 32) + 1];
            *n = random.of(&[&[0, beyond, beyond, beyond + 1][..], &far].concat());
        }
        1 => {
            let beyond = COUNT.end() + 1;
            let wraps = usize::MAX / rows::width(MOST_QUANTITIES) + 1;
            let far = [(1 << 32) + 1, usize::MAX, wraps];
            *count = random.of(&[&[beyond, beyond, beyond + 1][..], &far].concat());
        }
        2 | 3 => shorten(random, trial),
        4 => query.weights[place] = about_an_end(random, WEIGHT),
        5 => query.weights[0] = about_an_end(random, WEIGHT),
        6 => query.base = about_an_end(random, BASE),
        7 => query.need = about_an_end(random, NEED),
        8 => {
            let (most, far) = (*RUN.end(), (1 << 32) + 1);
            query.run = random.of(&[0, 0, most, most + 1, most + 1, far, usize::MAX]);
        }
        9..=15 => alter_part(random, trial),
        16 => alter_row(random, trial, |random, _, row| row[0] = any_number(random)),
        17 => alter_row(random, trial, |random, n, row| {
            let quantity = random.below(n);
            row.swap(place_of(n, LOW, quantity), place_of(n, HIGH, quantity));
        }),
        18 => spoil_past_the_count(random, trial),
        _ => *count = 0,
    }
}

fn about_an_end(random: &mut Random, range: RangeInclusive<i64>) -> i64 {
    let (low, high) = range.into_inner();
    random.of(&[
        low,
        high,
        low - 1,
        low - 1,
        high + 1,
        high + 1,
        i64::MIN,
        i64::MAX,
    ])
}

/// The places that the rows need, where n and count are in their ranges.
fn places(trial: &QueryTrial) -> Option<usize> {
    let in_range = (1..=MOST_QUANTITIES).contains(&trial.n) && COUNT.contains(&trial.count);
    in_range.then(|| trial.count * rows::width(trial.n))
}

/// Cuts the buffer to just what the rows need, to one place less, or to any length.
fn shorten(random: &mut Random, trial: &mut QueryTrial) {
    let needed = places(trial).unwrap_or(trial.rows.len());
    let any = random.below(trial.rows.len() + 1);
    let less = needed.saturating_sub(1);
    trial.rows.truncate(random.of(&[needed, less, less, any]));
}

/// Puts a value, a radius, a low or a high about an end of its range into some row; every third time of a quantity that
/// has the weight 0.
fn alter_part(random: &mut Random, trial: &mut QueryTrial) {
    let quantity = random.below(MOST_QUANTITIES);
    if random.once_in(3) {
        trial.query.weights[quantity % trial.n.clamp(1, MOST_QUANTITIES)] = 0;
    }
    alter_row(random, trial, |random, n, row| {
        let part = random.below(PART_RANGES.len());
        let number = about_an_end(random, PART_RANGES[part].clone());
        row[place_of(n, part, quantity % n)] = number;
    });
}

/// Alters some row, often the last or the first one, if it is there.
fn alter_row(
    random: &mut Random,
    trial: &mut QueryTrial,
    alter: impl Fn(&mut Random, usize, &mut [i64]),
) {
    match places(trial) {
        Some(1..) => {}
        _ => return,
    }
    let any = random.below(trial.count);
    let row = random.of(&[trial.count - 1, trial.count - 1, 0, any, any]);
    let mut rows = trial.rows.chunks_exact_mut(rows::width(trial.n));
    if let Some(row) = rows.nth(row) {
        alter(random, trial.n, row);
    }
}

/// Lowers the count and fills the rows past it with any numbers.
fn spoil_past_the_count(random: &mut Random, trial: &mut QueryTrial) {
    if places(trial).is_none() {
        return;
    }
    trial.count = random.below(trial.count + 1);
    let past = trial.count * rows::width(trial.n);
    for place in trial.rows.iter_mut().skip(past) {
        *place = any_number(random);
    }
}
