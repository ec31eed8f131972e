//! Random stored sheets from a seed, for the conversion: long ones that are split, long ones steered to each question on
//! either side of the first part's end, short ones, and damaged ones. Half of the steps go back.

use super::{
    anywhere, at_the_limit_from_the_start, at_the_ratio as at_the_first_ratio, calm, calm_of,
    damage, direction, lengthen, longest_step, scale, written,
};
use crate::conversion::FIRST_STEPS;
use crate::random::Random;
use crate::rounding::SCALE;
use crate::rows;
use crate::sheet::{
    LIMIT, QUANTITIES, STEPS, STORED_STEPS, Sheet, TAIL, read_stored, start, term, text,
};
use crate::step::{MOST_RATIO, ratio};

/// A stored sheet, the places lent for the rows of its first part, and what decides on the bytes lent for its
/// conversion.
#[derive(Clone, Debug, PartialEq, Eq)]
pub struct StoredTrial {
    pub sheet: Vec<u8>,
    pub places: usize,
    pub chance: usize,
}

impl StoredTrial {
    /// The bytes to lend for a conversion of such a length: just enough, one less, none, or any up to a few more.
    pub fn bytes(&self, length: usize) -> usize {
        match self.chance % 8 {
            0 => length,
            1 => length.saturating_sub(1),
            2 => 0,
            _ => self.chance / 8 % (length + 32),
        }
    }
}

/// The trials of a seed, without end.
pub struct StoredTrials {
    random: Random,
}

impl StoredTrials {
    pub fn from_seed(seed: u64) -> Self {
        let random = Random::from_seed(seed);
        StoredTrials { random }
    }
}

impl Iterator for StoredTrials {
    type Item = StoredTrial;

    fn next(&mut self) -> Option<StoredTrial> {
        let random = &mut self.random;
        let sheet = match random.below(26) {
            0 | 1 => text(&gentle(random)),
            2..=4 => {
                let sheet = gentle(random);
                text(&at_the_tolerance(random, sheet))
            }
            5..=8 => text(&at_the_limit(random)),
            9..=11 => text(&at_the_ratio(random)),
            12..=14 => text(&refused_early(random)),
            15..=17 => text(&short(random)),
            18 | 19 => with_edge_steps(random),
            20 => missing_reading(random),
            21 => over_long(random),
            _ => damaged(random),
        };
        let places = lent_places(random, &sheet);
        let chance = random.below(1 << 32);
        Some(StoredTrial {
            sheet,
            places,
            chance,
        })
    }
}

/// The places that a stored sheet's conversion needs: those of its first part, where it is long.
pub fn places_needed(sheet: &[u8]) -> usize {
    match read_stored(sheet) {
        Ok(sheet) if sheet.steps > FIRST_STEPS => FIRST_STEPS as usize * sheet.row_places(),
        _ => 0,
    }
}

fn lent_places(random: &mut Random, sheet: &[u8]) -> usize {
    let needed = places_needed(sheet);
    match random.below(16) {
        0 => needed.saturating_sub(1),
        1 => random.below(needed + 1),
        2..=8 => needed,
        _ => needed + random.below(20),
    }
}

/// Steps beyond what a sheet may have now.
fn long(random: &mut Random) -> i64 {
    let (least, most) = (STEPS.end() + 1, *STORED_STEPS.end());
    let any = random.even(least..=most);
    random.of(&[least, most, any, any, any, any])
}

/// A long sheet that goes a long way: the ratio of its first step is small.
fn gentle(random: &mut Random) -> Sheet {
    let n = random.even(QUANTITIES);
    let reach = random.of(&[1 << 10, 1 << 20, SCALE, 4 * SCALE]);
    gentle_of(random, n, n, reach)
}

/// The same, whose terms have the first `factors` quantities as factors.
fn gentle_of(random: &mut Random, n: i64, factors: i64, reach: i64) -> Sheet {
    let mut sheet = calm_of(random, n, factors, reach);
    let any_tail = random.spread(TAIL);
    sheet.steps = long(random);
    sheet.tail = random.of(&[2, 10, 100, 1000, any_tail]);
    let wanted = gentle_ratio(random);
    sheet.step = longest_step(&sheet, scale(&sheet), wanted);
    sheet
}

/// From one unit to a 16th.
fn gentle_ratio(random: &mut Random) -> u64 {
    let halvings = random.even(3..=14);
    random.even(1..=MOST_RATIO as i64 >> halvings) as u64
}

/// The row at which something is to happen: about the first part's last, or any.
fn turning_row(random: &mut Random, steps: i64) -> usize {
    let any = random.even(1..=steps);
    let (before, last, after) = (FIRST_STEPS - 1, FIRST_STEPS, FIRST_STEPS + 1);
    let row = random.of(&[before, before, before, last, last, after, after, any]);
    row.min(steps) as usize
}

/// A tolerance that is the widest radius up to some row, or one unit less.
fn at_the_tolerance(random: &mut Random, mut sheet: Sheet) -> Sheet {
    let rows = written(&sheet);
    let upto = turning_row(random, sheet.steps).min(rows.len());
    let radii = rows[..upto].iter().flat_map(|row| rows::parts(row).radii);
    let widest = radii.copied().fold(0, i64::max);
    sheet.tol = (widest - random.even(0..=1)).clamp(1, LIMIT);
    sheet
}

/// The |value| + radius of a quantity, counted from 0, in a row.
fn size(row: &[i64], quantity: usize) -> i64 {
    let parts = rows::parts(row);
    parts.values[quantity].abs() + parts.radii[quantity]
}

/// A sheet whose last quantity, which is no term's factor, is moved until its |value| + radius is at the limit after a
/// row, or one unit beyond it.
fn at_the_limit(random: &mut Random) -> Sheet {
    let n = random.even(2..=*QUANTITIES.end());
    let last = n as usize - 1;
    let mut sheet = gentle_of(random, n, n - 1, 1 << 20);
    let sign = random.of(&[-1, 1]);
    let excess = random.even(0..=1);
    sheet.tail = random.even(2..=100);
    sheet.starts[last].value = Some(sign * (LIMIT - (1 << 22)));
    let wanted = gentle_ratio(random) >> 2;
    sheet.step = longest_step(&sheet, LIMIT as u64, wanted);
    let row_number = turning_row(random, sheet.steps - 1);
    for _ in 0..6 {
        let rows = written(&sheet);
        let row = match rows.get(row_number - 1) {
            Some(row) => row,
            None => break,
        };
        let missing = LIMIT + excess - size(row, last);
        if missing == 0 {
            break;
        }
        let value = sheet.starts[last].value.unwrap_or(0) + sign * missing;
        sheet.starts[last].value = Some(value.clamp(-LIMIT, LIMIT));
    }
    sheet
}

/// A sheet whose first quantity, the largest, moves away from 0 at each step, until the ratio passes one half after some
/// row: the square of the last quantity, which is 0 or close to it, has as large a coefficient as passes before that row.
fn at_the_ratio(random: &mut Random) -> Sheet {
    let n = random.even(2..=*QUANTITIES.end());
    let direction = direction(random);
    let sign = random.of(&[-1, 1]);
    let largest = random.even(SCALE..=8 * SCALE);
    let rise = random.even(1 << 8..=1 << 16);
    let coef = random.even(SCALE..=8 * SCALE);
    // About where the ratio is one half, when the first part's steps have been taken.
    let length = SCALE * (SCALE / 2) / coef * SCALE / (largest + FIRST_STEPS * rise);
    let mut starts = vec![start(0, random.even(0..=3)); n as usize];
    starts[0] = start(sign * largest, random.even(0..=1000));
    let mut sheet = Sheet {
        steps: long(random),
        step: direction * length,
        tail: random.even(2..=100),
        tol: LIMIT,
        starts,
        terms: vec![
            term(1, direction * sign * (rise * SCALE / length), 0, 0),
            term(n, random.of(&[-1, 1]) * coef, n, n),
        ],
    };
    let row_number = turning_row(random, sheet.steps - 1);
    for _ in 0..3 {
        let rows = written(&sheet);
        let row = match row_number.checked_sub(2).and_then(|place| rows.get(place)) {
            Some(row) => row,
            None => break,
        };
        let before = size(row, 0) as u64;
        let strongest = strongest_that_passes(&sheet, before);
        if strongest == sheet.terms[1].coef {
            break;
        }
        sheet.terms[1].coef = strongest;
    }
    sheet
}

/// The largest coefficient of the second term, of its own sign, whose ratio at the scale is at most one half.
fn strongest_that_passes(sheet: &Sheet, scale: u64) -> i64 {
    let sign = sheet.terms[1].coef.signum();
    let mut trial = sheet.clone();
    let (mut low, mut high) = (0, 16 * SCALE);
    while low < high {
        let middle = (low + high + 1) / 2;
        trial.terms[1].coef = sign * middle;
        if ratio(&trial, scale) <= MOST_RATIO {
            low = middle;
        } else {
            high = middle - 1;
        }
    }
    sign * low
}

/// A long sheet that is not made to go a long way.
fn refused_early(random: &mut Random) -> Sheet {
    let sheet = match random.below(4) {
        0 => anywhere(random),
        1 => at_the_limit_from_the_start(random),
        _ => calm(random),
    };
    Sheet {
        steps: long(random),
        ..sheet
    }
}

/// A sheet of as many steps as one may have now, whose passage may be refused in every way.
fn short(random: &mut Random) -> Sheet {
    let mut sheet = match random.below(5) {
        0 | 1 => gentle(random),
        2 => at_the_first_ratio(random),
        3 => anywhere(random),
        _ => refused_early(random),
    };
    sheet.steps = random.spread(STEPS);
    if random.once_in(3) {
        sheet = at_the_tolerance(random, sheet);
    }
    sheet
}

/// A sheet with a number of steps at an end of its range, old or new, or one beyond.
fn with_edge_steps(random: &mut Random) -> Vec<u8> {
    let (most, stored) = (*STEPS.end(), *STORED_STEPS.end());
    let about = [most - 1, most, most + 1, stored - 1, stored];
    let beyond = [stored + 1, stored + 1, stored + 1, stored + 2];
    let steps = random.of(&[&[0, 1][..], &about, &beyond].concat());
    let sheet = gentle(random);
    text(&Sheet { steps, ..sheet })
}

/// A long sheet, or every fourth time a short one.
fn any_sheet(random: &mut Random) -> Sheet {
    match random.below(4) {
        0 => short(random),
        1 => refused_early(random),
        _ => gentle(random),
    }
}

fn missing_reading(random: &mut Random) -> Vec<u8> {
    let mut sheet = any_sheet(random);
    let which = random.below(sheet.starts.len());
    sheet.starts[which].value = None;
    text(&sheet)
}

fn over_long(random: &mut Random) -> Vec<u8> {
    let mut text = text(&any_sheet(random));
    lengthen(random, &mut text);
    text
}

fn damaged(random: &mut Random) -> Vec<u8> {
    let text = text(&any_sheet(random));
    damage(random, text)
}
