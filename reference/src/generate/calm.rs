//! Sheets over the whole range of every field, and calm ones, whose first step's ratio is at most one half, so that they
//! go some way.

use super::steering::{longest_step, scale};
use crate::random::Random;
use crate::sheet::{
    COEF, LIMIT, QUANTITIES, RADIUS, START, STEP_LENGTH, STEPS, Sheet, Start, TAIL, TERMS, TOL,
    Term,
};
use crate::step::MOST_RATIO;

/// Every field over its whole range.
pub fn anywhere(random: &mut Random) -> Sheet {
    let n = random.spread(QUANTITIES);
    let starts = (0..n).map(|_| Start {
        value: Some(random.spread(START)),
        radius: random.spread(RADIUS),
    });
    let starts = starts.collect();
    let count = random.spread(TERMS);
    let terms = (0..count).map(|_| {
        let coef = random.spread(COEF);
        term(random, n, n, coef)
    });
    let terms = terms.collect();
    Sheet {
        steps: random.spread(STEPS),
        step: direction(random) * random.spread(STEP_LENGTH),
        tail: random.spread(TAIL),
        tol: random.spread(TOL),
        starts,
        terms,
    }
}

/// Forward or back, one as often as the other: a step of length 1.
pub fn direction(random: &mut Random) -> i64 {
    random.of(&[-1, 1])
}

/// A term of a random shape to one of `n` quantities, its factors among the first `factors`.
pub(super) fn term(random: &mut Random, n: i64, factors: i64, coef: i64) -> Term {
    let first = random.even(0..=factors);
    let second = if first == 0 {
        0
    } else {
        random.even(0..=factors)
    };
    Term {
        to: random.even(1..=n),
        coef,
        first,
        second,
    }
}

/// A sheet that goes some way: the ratio of its first step is at most one half.
pub fn calm(random: &mut Random) -> Sheet {
    let n = random.even(QUANTITIES);
    let reach = random.of(&[1 << 10, 1 << 24, 1 << 26, LIMIT / 2]);
    calm_of(random, n, n, reach)
}

/// A calm sheet whose starts reach to ±`reach` and whose terms have the first `factors` quantities as
/// factors.
pub fn calm_of(random: &mut Random, n: i64, factors: i64, reach: i64) -> Sheet {
    let widest = random.of(&[0, 1, 1 << 8, 1 << 16, reach / 8]);
    let starts = (0..n).map(|_| Start {
        value: Some(random.even(-reach..=reach)),
        radius: random.even(0..=widest),
    });
    let starts = starts.collect();
    let count = random.even(0..=3 * n);
    let strongest = random.of(&[1 << 16, 1 << 24, 1 << 28]);
    let terms = (0..count).map(|_| {
        let coef = random.even(-strongest..=strongest);
        term(random, n, factors, coef)
    });
    let terms = terms.collect();
    let most_steps = random.of(&[2, 6, 6, 6, 40, *STEPS.end()]);
    let mut sheet = Sheet {
        steps: random.even(1..=most_steps),
        step: direction(random),
        tail: random.spread(TAIL),
        tol: LIMIT,
        starts,
        terms,
    };
    let wanted = random.even(1..=MOST_RATIO as i64) as u64;
    sheet.step = longest_step(&sheet, scale(&sheet), wanted);
    sheet
}
