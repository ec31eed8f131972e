//! Which row opens a run of certain rows, where the runs begin and end, that no rows give none, and the answer as one
//! number.

use super::{AS_IT_IS, first_clear, of_lows, row_of, with_run};
use reference::clearance::FirstClear::{self, NoRow, Refused, Row};
use reference::compare::both_first_clear;
use reference::sheet::Refusal::{BufferTooShort, OutOfRange, QueryOutOfRange, RowOutOfRange};
use reference::timing::longest_searches;

/// Rows of one quantity that are certain at the need 0 where a letter is `y`, and not where it is `n`.
fn of_letters(letters: &str, run: usize) -> FirstClear {
    let lows: Vec<i64> = letters
        .bytes()
        .map(|letter| if letter == b'y' { 0 } else { -1 })
        .collect();
    of_lows(&lows, &with_run(run))
}

#[test]
fn the_first_run_is_found_wherever_it_stands() {
    assert_eq!(of_letters("yyyy", 1), Row(1));
    assert_eq!(of_letters("yyyy", 4), Row(1));
    assert_eq!(of_letters("nyyy", 2), Row(2));
    assert_eq!(of_letters("nnny", 1), Row(4));
    assert_eq!(of_letters("nnyy", 2), Row(3));
    assert_eq!(of_letters("yyny", 2), Row(1));
    assert_eq!(of_letters("nyynyyy", 2), Row(2));
    assert_eq!(of_letters("nnnn", 1), NoRow);
}

#[test]
fn a_gap_begins_the_run_anew() {
    assert_eq!(of_letters("yynyyy", 3), Row(4));
    assert_eq!(of_letters("yynyynyyy", 3), Row(7));
    assert_eq!(of_letters("ynynynyn", 2), NoRow);
    assert_eq!(of_letters("yynyy", 3), NoRow);
    assert_eq!(of_letters("yynyy", 4), NoRow);
}

#[test]
fn a_run_ends_with_the_last_row_at_the_latest() {
    assert_eq!(of_letters("nnyyy", 3), Row(3));
    assert_eq!(of_letters("nnyyy", 4), NoRow);
    assert_eq!(of_letters("yyy", 4), NoRow);
    assert_eq!(of_letters("yyy", 240), NoRow);
    assert_eq!(of_letters(&"y".repeat(240), 240), Row(1));
    assert_eq!(of_letters(&"y".repeat(239), 240), NoRow);
    let all_but_the_first = format!("n{}", "y".repeat(239));
    assert_eq!(of_letters(&all_but_the_first, 239), Row(2));
    assert_eq!(of_letters(&all_but_the_first, 240), NoRow);
}

/// Only the counted rows are there: a run does not go on past them.
#[test]
fn rows_past_the_count_are_not_there() {
    let rows = [row_of(1, 1); 5].concat();
    let asked = |count, run| first_clear(1, count, &rows, &with_run(run));
    assert_eq!(asked(5, 5), Row(1));
    assert_eq!(asked(4, 5), NoRow);
    assert_eq!(asked(4, 4), Row(1));
    assert_eq!(asked(0, 1), NoRow);
}

#[test]
fn no_rows_give_none() {
    assert_eq!(first_clear(1, 0, &[], &AS_IT_IS), NoRow);
    assert_eq!(first_clear(8, 0, &[], &with_run(240)), NoRow);
    assert_eq!(first_clear(1, 0, &[i64::MAX; 5], &AS_IT_IS), NoRow);
}

#[test]
fn the_answer_as_one_number() {
    let numbers = [Row(1), Row(240), NoRow].map(FirstClear::number);
    assert_eq!(numbers, [1, 240, 0]);
    let refusals = [OutOfRange, BufferTooShort, QueryOutOfRange, RowOutOfRange];
    let numbers = refusals.map(|refusal| Refused(refusal).number());
    assert_eq!(numbers, [-3, -5, -9, -10]);
}

/// For one row where none is certain, and for all rows where all are.
#[test]
fn the_timed_searches_come_to_the_last_row() {
    let answers = longest_searches().map(|trial| both_first_clear(&trial));
    assert_eq!(answers, [Ok(NoRow), Ok(Row(1))]);
}
