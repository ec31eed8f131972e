//! Like terms at worked cases: those that add up to case A's, those that cancel wholly, and that the range is asked of the
//! terms as read.

use super::{CASE_A, answer_a, answer_of, one_row, refused};
use reference::sheet::read;

/// Case A's sheet with other terms: of each its coefficient and its factors.
fn with_terms(terms: &[[i64; 3]]) -> String {
    let (head, _) = CASE_A.split_once("terms=1\n").unwrap();
    let groups = terms.iter().map(|[coef, first, second]| {
        format!("to=1\ncoef={coef}\nfirst={first}\nsecond={second}\n")
    });
    format!(
        "{head}terms={}\n{}",
        terms.len(),
        groups.collect::<String>()
    )
}

#[test]
fn like_terms_that_add_up_to_case_a_have_its_answer() {
    let squares = |coefs: &[i64]| {
        let terms: Vec<[i64; 3]> = coefs.iter().map(|&coef| [coef, 1, 1]).collect();
        answer_of(&with_terms(&terms))
    };
    let answer = answer_a();
    assert_eq!(squares(&[16777216]), answer);
    assert_eq!(squares(&[268435456, -251658240]), answer);
    assert_eq!(squares(&[5, -5, 16777216]), answer);
    assert_eq!(squares(&[0, 16777216]), answer);
    assert_eq!(squares(&[524288; 32]), answer);
    for zero in [[0, 0, 0], [0, 1, 0]] {
        let beside = with_terms(&[zero, [16777216, 1, 1]]);
        assert_eq!(answer_of(&beside), answer);
    }
}

#[test]
fn terms_that_cancel_wholly_have_degree_0() {
    let start = one_row(0, 16777216, 0, [16777216; 2]);
    assert_eq!(answer_of(&with_terms(&[])), start);
    assert_eq!(answer_of(&with_terms(&[[0, 1, 1]])), start);
    for factors in [[0, 0], [1, 0], [1, 1]] {
        let [first, second] = factors;
        let both = [[16777216, first, second], [-16777216, first, second]];
        assert_eq!(answer_of(&with_terms(&both)), start, "{factors:?}");
    }
}

/// A sum may pass a coefficient's range, but a term of the sheet may not, whatever it would add up to.
#[test]
fn the_range_is_asked_of_the_terms_as_read() {
    let beyond = with_terms(&[[268435457, 1, 1], [-268435456, 1, 1]]);
    assert_eq!(answer_of(&beyond), refused(3, 0));
    let second_alone = with_terms(&[[5, 1, 1], [0, 0, 1]]);
    assert_eq!(answer_of(&second_alone), refused(3, 0));
    let terms = [[5, 1, 1], [0, 1, 0], [-5, 1, 1]];
    let sheet = read(with_terms(&terms).as_bytes()).unwrap();
    let kept = sheet
        .terms
        .iter()
        .map(|term| [term.coef, term.first, term.second]);
    assert_eq!(kept.collect::<Vec<_>>(), terms);
}
