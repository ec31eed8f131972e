//! The sheets of the cost table are accepted, and each differs from the largest sheet in one thing.

use reference::compare::reference;
use reference::cost::{Variant, degrees, products, variants};
use reference::generate::Trial;
use reference::like_terms::gathered;
use reference::sheet::{Sheet, read, text};

fn largest() -> Sheet {
    read(include_bytes!("../benches/largest.sheet")).unwrap()
}

/// The steps and terms of a variant and the one degree of its rows.
fn measures(variant: &Variant) -> [usize; 3] {
    let sheet = &variant.sheet;
    let trial = Trial {
        sheet: text(sheet),
        places: sheet.places(),
    };
    let outcome = reference(&trial, 0);
    assert_eq!(outcome.ending().result, 0, "{}", variant.varied);
    let mut degrees = degrees(sheet, &outcome.rows);
    assert_eq!(degrees.len(), sheet.steps as usize);
    degrees.dedup();
    assert_eq!(degrees.len(), 1, "{}", variant.varied);
    [sheet.steps as usize, sheet.terms.len(), degrees[0]]
}

#[test]
fn one_thing_varies_at_a_time() {
    let steps = [30, 60, 120, 240].map(|steps| [steps, 32, 28]);
    let terms = [4, 8, 16, 32].map(|terms| [240, terms, 28]);
    let degrees = [7, 14, 21, 28].map(|degree| [240, 32, degree]);
    let expected = [steps, terms, degrees].concat();
    let variants = variants(&largest());
    assert_eq!(variants.iter().map(measures).collect::<Vec<_>>(), expected);
}

/// The degree of a first step depends on its length, not on its direction.
#[test]
fn a_hindcast_varies_by_the_same_lengths() {
    let forecast = largest();
    let hindcast = Sheet {
        step: -forecast.step,
        ..largest()
    };
    let pairs = variants(&forecast).into_iter().zip(variants(&hindcast));
    for (forward, back) in pairs {
        assert_eq!(back.sheet.step, -forward.sheet.step);
        assert_eq!(back.sheet.steps, forward.sheet.steps);
        assert_eq!(back.sheet.terms, forward.sheet.terms);
    }
    assert_eq!(variants(&hindcast).len(), variants(&forecast).len());
}

/// Like terms would be added, and fewer would be left to work on.
#[test]
fn the_sheets_have_no_like_terms() {
    for Variant { varied, sheet } in variants(&largest()) {
        assert_eq!(gathered(&sheet.terms), sheet.terms, "{varied}");
    }
}

#[test]
fn a_varied_sheet_says_what_was_varied() {
    for Variant { varied, sheet } in variants(&largest()) {
        let text = String::from_utf8(text(&sheet)).unwrap();
        assert!(text.lines().any(|line| line == varied), "{varied}");
    }
}

#[test]
fn a_small_sheet_has_no_variant_without_steps_or_terms() {
    let mut small = largest();
    small.steps = 1;
    small.terms.truncate(3);
    let varied = variants(&small).into_iter().map(|variant| variant.varied);
    let varied: Vec<String> = varied.filter(|line| !line.starts_with("step=")).collect();
    assert_eq!(varied, ["steps=1", "terms=1", "terms=3"]);
}

#[test]
fn only_terms_of_two_factors_form_products() {
    let mut sheet = largest();
    sheet.terms.truncate(3);
    sheet.terms[1].second = 0;
    assert_eq!(products(&sheet, &[]), 0);
    assert_eq!(products(&sheet, &[0, 1, 3]), 2 * (1 + (1 + 2 + 3)));
}

#[test]
fn like_terms_form_their_products_once() {
    let mut sheet = largest();
    sheet.terms.truncate(1);
    sheet.terms.push(sheet.terms[0]);
    assert_eq!(products(&sheet, &[3]), 1 + 2 + 3);
    sheet.terms[1].coef = -sheet.terms[0].coef;
    assert_eq!(products(&sheet, &[3]), 0);
}
