//! A passage given as numbers has the ranges and the questions of a sheet, in the order of its fields; where it is refused
//! by them, no place of the buffer is written.

use super::{CASE_A, MARK};
use reference::passage::{Refused, run};
use reference::sheet::{MOST_PLACES, Refusal, Sheet, Start, Term, read};

#[test]
fn a_step_in_numbers_has_the_same_range() {
    let sheet = read(CASE_A.as_bytes()).unwrap();
    let with_step = |step| Sheet {
        step,
        ..sheet.clone()
    };
    for step in [-16777216, -1, 1, 16777216] {
        assert_eq!(with_step(step).check(), Ok(()), "{step}");
    }
    let refusal = Refusal::OutOfRange;
    for step in [i64::MIN, -16777217, 0, 16777217, i64::MAX] {
        assert_eq!(with_step(step).check(), Err(refusal), "{step}");
        let mut rows = [MARK; 5];
        let refused = run(&with_step(step), &mut rows);
        assert_eq!(refused, Err(Refused { refusal, at: 0 }), "{step}");
        assert_eq!(rows, [MARK; 5]);
    }
    let mut rows = [MARK; 5];
    assert_eq!(run(&with_step(-4194304), &mut rows), Ok(()));
    assert_eq!(rows, [2, 13631488, 349534, 11184802, 22369630]);
}

/// 240 steps are the most, in numbers as in a sheet.
#[test]
fn steps_in_numbers_have_the_same_range() {
    let still = "n=1\nsteps=240\nstep=1\ntail=2\ntol=1\nstart=5\nradius=0\nterms=0\n";
    let sheet = read(still.as_bytes()).unwrap();
    let mut rows = [MARK; MOST_PLACES];
    assert_eq!(run(&sheet, &mut rows), Ok(()));
    assert_eq!(rows[..1200], [0, 5, 0, 5, 5].repeat(240));
    assert_eq!(rows[1200..], [MARK; MOST_PLACES - 1200]);
    let refusal = Refusal::OutOfRange;
    for steps in [i64::MIN, 0, 241, 400, i64::MAX] {
        let sheet = Sheet {
            steps,
            ..sheet.clone()
        };
        let mut rows = [MARK; MOST_PLACES];
        let refused = run(&sheet, &mut rows);
        assert_eq!(refused, Err(Refused { refusal, at: 0 }), "{steps}");
        assert_eq!(rows, [MARK; MOST_PLACES]);
    }
}

#[test]
fn a_passage_of_numbers_meets_the_sheets_questions_in_field_order() {
    let start = Start {
        value: Some(0),
        radius: 0,
    };
    let term = Term {
        to: 1,
        coef: 1,
        first: 1,
        second: 1,
    };
    let sheet = Sheet {
        steps: 2,
        step: 1,
        tail: 2,
        tol: 1,
        starts: vec![start; 2],
        terms: vec![term],
    };
    assert_eq!(sheet.check(), Ok(()));
    let missing = Start {
        value: None,
        ..start
    };
    let wide = Start {
        radius: -1,
        ..start
    };
    let with_starts = |first, second| Sheet {
        starts: vec![first, second],
        ..sheet.clone()
    };
    assert_eq!(with_starts(wide, missing).check(), Err(Refusal::OutOfRange));
    assert_eq!(with_starts(missing, wide).check(), Err(Refusal::NoReading));
    let none_then_second = Term { first: 0, ..term };
    let with_term = Sheet {
        terms: vec![none_then_second],
        ..sheet.clone()
    };
    assert_eq!(with_term.check(), Err(Refusal::OutOfRange));
    let crowded = Sheet {
        starts: vec![start; 9],
        ..sheet
    };
    assert_eq!(crowded.check(), Err(Refusal::OutOfRange));
}
