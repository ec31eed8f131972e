//! Sheets steered to the edge of a question: the ratio at one half, a radius at the tolerance, a quantity at the limit;
//! and to the highest degree and the longest numbers.

use super::calm::{calm, calm_of, direction};
use super::steering::{longest_step, scale, written};
use crate::random::Random;
use crate::rows;
use crate::sheet::{LIMIT, QUANTITIES, RADIUS, STEP_LENGTH, Sheet, Start, Term};
use crate::step::MOST_RATIO;

/// The longest step that question 5 lets pass, or one unit longer.
pub fn at_the_ratio(random: &mut Random) -> Sheet {
    let mut sheet = calm(random);
    if random.once_in(2) {
        // Powers of two bring the ratio to exactly one half, and one whole to one unit over it.
        for term in &mut sheet.terms {
            let power = random.even(18..=26);
            term.coef = term.coef.signum() << random.of(&[24, power]);
        }
        sheet.terms.truncate(1);
    }
    let longest = longest_step(&sheet, scale(&sheet), MOST_RATIO);
    let length = longest.abs() + random.even(0..=1);
    sheet.step = longest.signum() * length.min(*STEP_LENGTH.end());
    sheet
}

/// A tolerance that is the widest radius up to some row, or one unit less.
pub(super) fn at_the_tolerance(random: &mut Random) -> Sheet {
    let mut sheet = calm(random);
    let rows = written(&sheet);
    if !rows.is_empty() {
        let upto = 1 + random.below(rows.len());
        let radii = rows[..upto].iter().flat_map(|row| rows::parts(row).radii);
        let widest = radii.copied().fold(0, i64::max);
        sheet.tol = (widest - random.even(0..=1)).clamp(1, LIMIT);
    }
    sheet
}

/// A quantity whose |value| + radius is at the limit, or one unit beyond it, before step 1.
pub fn at_the_limit_from_the_start(random: &mut Random) -> Sheet {
    let mut sheet = calm(random);
    let which = random.below(sheet.starts.len());
    let radius = random.spread(RADIUS);
    let value = random.of(&[-1, 1]) * (LIMIT - radius);
    let radius = (radius + random.even(0..=1)).min(LIMIT);
    sheet.starts[which] = Start {
        value: Some(value),
        radius,
    };
    sheet.step = longest_step(&sheet, LIMIT as u64, MOST_RATIO);
    sheet
}

/// The same before a later step: the last quantity, which is no term's factor, is moved until it
/// meets the limit after a row.
pub(super) fn at_the_limit_later(random: &mut Random) -> Sheet {
    let n = random.even(2..=*QUANTITIES.end());
    let mut sheet = calm_of(random, n, n - 1, 1 << 22);
    let last = n as usize - 1;
    let sign = random.of(&[-1, 1]);
    let excess = random.even(0..=1);
    sheet.tail = random.even(2..=1000);
    sheet.steps = random.even(2..=12);
    sheet.starts[last].value = Some(sign * (LIMIT - (1 << 22)));
    let wanted = random.even(1..=MOST_RATIO as i64) as u64;
    sheet.step = longest_step(&sheet, LIMIT as u64, wanted);
    let row_number = random.even(1..=sheet.steps - 1) as usize;
    for _ in 0..8 {
        let rows = written(&sheet);
        let row = match rows.get(row_number - 1) {
            Some(row) => row,
            None => break,
        };
        let size = row[1 + last].abs() + row[1 + n as usize + last];
        let missing = LIMIT + excess - size;
        let value = sheet.starts[last].value.unwrap_or(0) + sign * missing;
        sheet.starts[last].value = Some(value.clamp(-LIMIT, LIMIT));
    }
    sheet
}

/// A sheet whose first steps have degree 28 or a little less.
pub(super) fn of_high_degree(random: &mut Random) -> Sheet {
    let mut sheet = calm(random);
    let which = random.below(sheet.starts.len());
    let slack = random.of(&[0, 0, 1, 1 << 20]);
    sheet.starts[which] = Start {
        value: Some(random.of(&[-1, 1]) * (LIMIT - slack)),
        radius: random.even(0..=slack),
    };
    sheet.tail = random.even(2..=4);
    sheet.step = longest_step(&sheet, scale(&sheet), MOST_RATIO);
    sheet
}

/// A sheet whose first row has values of nine and ten digits. By x' = x² ÷ 64 a start of x wholes is x ÷ (1 - x ÷ 64)
/// after one whole: 517,779,895 units become 10^9.
pub fn of_long_numbers(random: &mut Random) -> Sheet {
    const LEAST_OF_TEN_DIGITS: i64 = 517_779_895;
    let n = random.even(QUANTITIES);
    let direction = direction(random);
    let mut starts = Vec::new();
    let mut terms = Vec::new();
    for to in 1..=n {
        let near = random.even(-4..=4);
        let far = random.even(-1_000_000..=LIMIT - LEAST_OF_TEN_DIGITS);
        let size = LEAST_OF_TEN_DIGITS + random.of(&[near, far]);
        let sign = random.of(&[-1, 1]);
        starts.push(Start {
            value: Some(sign * size),
            radius: random.spread(RADIUS).min(LIMIT - size),
        });
        terms.push(Term {
            to,
            coef: sign * direction * (1 << 18),
            first: to,
            second: to,
        });
    }
    Sheet {
        steps: random.even(1..=2),
        step: direction << 24,
        tail: random.even(2..=1000),
        tol: LIMIT,
        starts,
        terms,
    }
}
