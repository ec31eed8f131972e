//! What a passage costs against its steps, its terms and its degree: sheets that vary one of the
//! three and keep the other two, and the products that a passage forms.

use crate::generate::longest_step_that;
use crate::like_terms::gathered;
use crate::passage::start;
use crate::sheet::{Sheet, Term};
use crate::step::advance;

/// A sheet that differs from another in one thing; `varied` is its line of that.
#[derive(Clone, Debug, PartialEq, Eq)]
pub struct Variant {
    pub varied: String,
    pub sheet: Sheet,
}

/// The sheet with an eighth, a quarter, a half and all of its steps; then of its terms; then with
/// each quarter of its first step's degree.
pub fn variants(sheet: &Sheet) -> Vec<Variant> {
    let steps = eighths([1, 2, 4, 8], sheet.steps as usize);
    let terms = eighths([1, 2, 4, 8], sheet.terms.len());
    let degrees = eighths([2, 4, 6, 8], first_degree(sheet).unwrap_or(0));
    steps
        .map(|steps| with_steps(sheet, steps))
        .chain(terms.map(|count| with_terms(sheet, count)))
        .chain(degrees.map(|degree| with_degree(sheet, degree)))
        .collect()
}

/// So many eighths of a whole number, but none that come to 0.
fn eighths(numbers: [usize; 4], whole: usize) -> impl Iterator<Item = usize> {
    let parts = numbers.into_iter().map(move |number| number * whole / 8);
    parts.filter(|&part| part > 0)
}

fn with_steps(sheet: &Sheet, steps: usize) -> Variant {
    Variant {
        varied: format!("steps={steps}"),
        sheet: Sheet {
            steps: steps as i64,
            ..sheet.clone()
        },
    }
}

/// The first `count` terms. Their coefficients make up for the others': where all have one size, no two
/// are alike and the targets take turns, the ratio is what it was, and the degree with it.
fn with_terms(sheet: &Sheet, count: usize) -> Variant {
    let share = (sheet.terms.len() / count) as i64;
    let enlarged = |term: &Term| Term {
        coef: share * term.coef,
        ..*term
    };
    Variant {
        varied: format!("terms={count}"),
        sheet: Sheet {
            terms: sheet.terms[..count].iter().map(enlarged).collect(),
            ..sheet.clone()
        },
    }
}

/// The length of step that gives the degree. A larger `tail` would lower the degree too, but every
/// step adds it to every radius, and the radii of a long passage would pass the limit. The length is
/// midway between the longest of this degree and the longest of the one below, so that the degree
/// stays while the radii grow.
fn with_degree(sheet: &Sheet, degree: usize) -> Variant {
    let longest = |wanted: usize| {
        longest_step_that(sheet, |trial| {
            first_degree(trial).map_or(false, |degree| degree <= wanted)
        })
    };
    let step = (longest(degree - 1) + longest(degree)) / 2;
    Variant {
        varied: format!("step={step}"),
        sheet: Sheet {
            step,
            ..sheet.clone()
        },
    }
}

/// The degree of step 1, where that is not refused.
fn first_degree(sheet: &Sheet) -> Option<usize> {
    let row = advance(sheet, &start(sheet)).ok()?;
    Some(row.degree)
}

/// The degree of each of a sheet's rows.
pub fn degrees(sheet: &Sheet, rows: &[i64]) -> Vec<usize> {
    let rows = rows.chunks_exact(sheet.row_places());
    rows.map(|row| row[0] as usize).collect()
}

/// How many products c_l × c'_(k-l) steps of these degrees form: at every order k below the degree,
/// a gathered term of two factors takes k + 1.
pub fn products(sheet: &Sheet, degrees: &[usize]) -> usize {
    let terms = gathered(&sheet.terms);
    let terms = terms.iter().filter(|term| term.second != 0).count();
    let each = degrees.iter().map(|degree| degree * (degree + 1) / 2);
    terms * each.sum::<usize>()
}
