//! Sheets whose terms repeat, swap their factors, cancel wholly or nearly, or come to more than a coefficient may be. Their
//! steps are about as long as the gathered terms allow.

use super::calm::{calm, term};
use super::steering::{longest_step, scale};
use crate::random::Random;
use crate::sheet::{COEF, STEP_LENGTH, Sheet, TERMS, Term};
use crate::step::MOST_RATIO;

/// A sheet whose terms repeat: a few products, each with one or more terms anywhere among the others', their factors in
/// either order. Its step is as long as the gathered terms let it be, or one unit longer, or shorter.
pub fn of_like_terms(random: &mut Random) -> Sheet {
    let mut sheet = calm(random);
    let n = sheet.starts.len() as i64;
    let products = random.even(1..=8);
    let most = *TERMS.end() / products;
    let all_cancel = random.once_in(8);
    sheet.terms.clear();
    for _ in 0..products {
        let product = term(random, n, n, 0);
        let coefs = if all_cancel {
            cancelling(random, most)
        } else {
            like_coefs(random, most)
        };
        for coef in coefs {
            let place = random.below(sheet.terms.len() + 1);
            let term = in_either_order(random, Term { coef, ..product });
            sheet.terms.insert(place, term);
        }
    }
    let calmer = random.even(1..=MOST_RATIO as i64) as u64;
    let wanted = random.of(&[MOST_RATIO, MOST_RATIO, calmer]);
    let longest = longest_step(&sheet, scale(&sheet), wanted);
    let length = longest.abs() + random.even(0..=1);
    sheet.step = longest.signum() * length.min(*STEP_LENGTH.end());
    sheet
}

/// The coefficients of one product's terms, from 1 to `most` of them: they cancel wholly or but for a little, are a
/// single 0, come to the end of a coefficient's range or pass it, or are any.
fn like_coefs(random: &mut Random, most: i64) -> Vec<i64> {
    match random.below(8) {
        0 => cancelling(random, most),
        1..=3 => {
            let mut coefs = cancelling(random, most - 1);
            let little = random.of(&[1, 1 << 12, 1 << 20]);
            let place = random.below(coefs.len() + 1);
            coefs.insert(place, random.even(-little..=little));
            coefs
        }
        4 => vec![0],
        5 => {
            let end = random.of(&[*COEF.start(), *COEF.end()]);
            vec![end; random.even(1..=most) as usize]
        }
        _ => {
            let count = random.even(1..=most);
            (0..count).map(|_| random.spread(COEF)).collect()
        }
    }
}

/// From 1 to `most` coefficients whose sum is 0, in any order.
fn cancelling(random: &mut Random, most: i64) -> Vec<i64> {
    let strongest = random.of(&[1 << 10, 1 << 24, *COEF.end()]);
    let mut coefs = Vec::new();
    for _ in 0..random.even(0..=most / 2) {
        let coef = random.even(-strongest..=strongest);
        for part in [coef, -coef] {
            coefs.insert(random.below(coefs.len() + 1), part);
        }
    }
    if coefs.is_empty() {
        coefs.push(0);
    }
    coefs
}

/// The term, or every second time the one with its two factors the other way round.
fn in_either_order(random: &mut Random, term: Term) -> Term {
    if term.second != 0 && random.once_in(2) {
        Term {
            first: term.second,
            second: term.first,
            ..term
        }
    } else {
        term
    }
}
