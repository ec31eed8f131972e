//! Document 01's worked cases A to J and the ones it only runs, hindcasts, and the lows and highs of each. (Case I stands
//! beside the roundings.)

use super::{CASE_A, MARK, answer_a, answer_of, edited, one_row, refused};
use reference::answer::answer;
use reference::passage::{Refused, run};
use reference::sheet::{Refusal, read};

#[test]
fn case_a() {
    assert_eq!(answer_of(CASE_A), answer_a());
}

#[test]
fn case_b() {
    let sheet = edited(&[("tail=349526", "tail=349525"), ("tol=349534", "tol=87393")]);
    // |c_3| is 262,144.
    let reach = 4194304 + 1048576 + 262144 + 87393;
    let between = [16777216 - reach, 16777216 + reach];
    assert_eq!(answer_of(&sheet), one_row(3, 22282240, 87393, between));
}

#[test]
fn case_c() {
    let sheet = edited(&[("tol=349534", "tol=349533")]);
    assert_eq!(answer_of(&sheet), refused(8, 1));
}

#[test]
fn case_d() {
    let at_the_limit = edited(&[("step=4194304", "step=8388608")]);
    assert!(answer_of(&at_the_limit).starts_with("row=1\ndegree=6\n"));
    let beyond = edited(&[("step=4194304", "step=8388609")]);
    assert_eq!(answer_of(&beyond), refused(7, 1));
}

#[test]
fn case_e() {
    let sheet = edited(&[
        ("start=16777216", "start=0"),
        ("first=1", "first=0"),
        ("second=1", "second=0"),
        ("step=4194304", "step=8388608"),
        ("tail=349526", "tail=2"),
        ("tol=349534", "tol=49"),
    ]);
    let between = [-8388608 - 49, 8388608 + 49];
    assert_eq!(answer_of(&sheet), one_row(23, 8388608, 49, between));
}

#[test]
fn case_f() {
    let no_terms = "n=1\nsteps=1\nstep=5\ntail=2\ntol=7\nstart=-9\nradius=7\nterms=0\n";
    assert_eq!(answer_of(no_terms), one_row(0, -9, 7, [-16, -2]));
    let radius_over_tol = no_terms.replace("tol=7", "tol=6");
    assert_eq!(answer_of(&radius_over_tol), refused(8, 1));
    let too_large = no_terms.replace("start=-9", "start=-536870906");
    assert_eq!(answer_of(&too_large), refused(6, 1));
}

#[test]
fn case_g() {
    let sheet = "n=1\nsteps=1\nstep=1\ntail=2\ntol=1\nstart=536870912\nradius=0\nterms=0\n";
    assert_eq!(answer_of(sheet), one_row(0, 536870912, 0, [536870912; 2]));
    let beyond = sheet.replace("radius=0", "radius=1");
    assert_eq!(answer_of(&beyond), refused(6, 1));
}

#[test]
fn case_h() {
    let sheet = edited(&[
        ("start=16777216", "start=536870912"),
        ("second=1", "second=0"),
        ("step=4194304", "step=8388608"),
        ("tail=349526", "tail=2"),
        ("tol=349534", "tol=536870912"),
    ]);
    assert!(answer_of(&sheet).starts_with("row=1\ndegree=28\n"));
}

#[test]
fn case_j() {
    let two_steps = edited(&[("steps=1", "steps=2"), ("tol=349534", "tol=536870912")]);
    let sheet = read(two_steps.as_bytes()).unwrap();
    assert_eq!(run(&sheet, &mut [MARK; 10]), Ok(()));
    let mut short = [MARK; 9];
    let refusal = Refusal::BufferTooShort;
    assert_eq!(run(&sheet, &mut short), Err(Refused { refusal, at: 0 }));
    assert_eq!(short, [MARK; 9]);
}

#[test]
fn case_a_as_a_hindcast() {
    let sheet = edited(&[("step=4194304", "step=-4194304")]);
    let between = [11184802, 22369630];
    assert_eq!(answer_of(&sheet), one_row(2, 13631488, 349534, between));
}

#[test]
fn case_d_as_a_hindcast() {
    let at_the_limit = edited(&[("step=4194304", "step=-8388608")]);
    assert!(answer_of(&at_the_limit).starts_with("row=1\ndegree=6\n"));
    let beyond = edited(&[("step=4194304", "step=-8388609")]);
    assert_eq!(answer_of(&beyond), refused(7, 1));
}

/// A minus is all that `step` has from `start`, and 0 is out of its range.
#[test]
fn a_step_may_have_a_minus() {
    let step = |number| answer_of(&edited(&[("step=4194304", &format!("step={number}"))]));
    for misspelt in ["-0", "none", "-", "--1", "+1", "-04194304", "-1000000000"] {
        assert_eq!(step(misspelt), refused(2, 0), "{misspelt}");
    }
    for out_of_range in ["0", "-16777217", "16777217", "-999999999"] {
        assert_eq!(step(out_of_range), refused(3, 0), "{out_of_range}");
    }
    for a_whole in ["-16777216", "16777216"] {
        assert_eq!(step(a_whole), refused(7, 1), "{a_whole}");
    }
    for a_unit in ["-1", "1"] {
        let between = [16777214, 16777218];
        assert_eq!(step(a_unit), one_row(0, 16777216, 2, between), "{a_unit}");
    }
}

/// A row's lows stand after its radii and its highs after its lows, each quantity's about its own value at the step's
/// start: one quantity rises by a quarter at each of two steps, the other falls by it, and only |c_1| is not 0.
#[test]
fn lows_and_highs_are_about_the_steps_start() {
    const QUARTER: i64 = 4194304;
    let sheet = "n=2\nsteps=2\nstep=4194304\ntail=2\ntol=536870912\nstart=50331\nradius=5\nstart=-671088\nradius=0\n\
        terms=2\nto=1\ncoef=16777216\nfirst=0\nsecond=0\nto=2\ncoef=-16777216\nfirst=0\nsecond=0\n";
    let mut rows = [MARK; 18];
    answer(sheet.as_bytes(), &mut rows);
    let mut before = [50331, -671088];
    for row in rows.chunks(9) {
        for (i, moved) in [QUARTER, -QUARTER].into_iter().enumerate() {
            let [value, radius, low, high] = [1, 3, 5, 7].map(|part| row[part + i]);
            let reach = QUARTER + radius;
            assert_eq!(value, before[i] + moved);
            assert_eq!([low, high], [before[i] - reach, before[i] + reach]);
        }
        before = [row[1], row[2]];
    }
}

#[test]
fn cases_that_are_only_run() {
    assert_eq!(answer_of(""), refused(2, 0));
    let start = |text| edited(&[("start=16777216", text)]);
    assert_eq!(answer_of(&start("start=none")), refused(4, 0));
    assert!(answer_of(&start("start=0")).ends_with(&refused(0, 0)));
    assert_eq!(answer_of(&start("start=-0")), refused(2, 0));
    let other = |old, new| answer_of(&edited(&[(old, new)]));
    assert_eq!(other("step=4194304", "step=007"), refused(2, 0));
    assert_eq!(other("steps=1", "steps=0"), refused(3, 0));
    assert_eq!(other("steps=1", "steps=241"), refused(3, 0));
    assert_eq!(other("steps=1", "steps=400"), refused(3, 0));
    assert_eq!(other("steps=1", "steps=401"), refused(3, 0));
    let misspelt_below = edited(&[("n=1", "n=9"), ("steps=1", "stops=1")]);
    assert_eq!(answer_of(&misspelt_below), refused(3, 0));
    assert_eq!(answer_of(&"n".repeat(4097)), refused(1, 0));
    assert_eq!(answer_of(&"n".repeat(4096)), refused(2, 0));
}

#[test]
fn spelling_comes_before_range_on_a_line() {
    let other = |old, new| answer_of(&edited(&[(old, new)]));
    assert_eq!(other("tol=349534", "tol=1000000000"), refused(2, 0));
    assert_eq!(other("tol=349534", "tol=999999999"), refused(3, 0));
    assert_eq!(other("tol=349534", "tol=-1"), refused(2, 0));
    assert_eq!(other("coef=16777216", "coef=-268435457"), refused(3, 0));
    assert_eq!(other("first=1", "first=0"), refused(3, 0));
    assert_eq!(other("radius=0", "radius=none"), refused(2, 0));
    let line_feed_missing = CASE_A.trim_end();
    assert_eq!(answer_of(line_feed_missing), refused(2, 0));
    assert_eq!(
        answer_of("n=1\nsteps=1\nstep=9\ntail=2\ntol=1\nstart=none"),
        refused(2, 0)
    );
    assert_eq!(answer_of(&format!("{CASE_A}\n")), refused(2, 0));
}

#[test]
fn a_refused_passage_keeps_its_earlier_rows_and_every_other_place() {
    let sheet = edited(&[("steps=1", "steps=3")]);
    let mut rows = [MARK; 20];
    let row = "row=1\ndegree=2\nvalue=22020096\nradius=349534\nlow=11184802\nhigh=22369630\n";
    assert_eq!(
        answer(sheet.as_bytes(), &mut rows),
        format!("{row}result=8\nat=2\n")
    );
    assert_eq!(rows[..5], [2, 22020096, 349534, 11184802, 22369630]);
    assert_eq!(rows[5..], [MARK; 15]);
}

/// As much work as a sheet can ask for: 32 terms of two factors, 240 steps, each of degree 28.
#[test]
fn the_largest_sheet() {
    let text = answer_of(include_str!("../../benches/largest.sheet"));
    assert_eq!(text.matches("degree=28\n").count(), 240);
    assert!(text.ends_with(&refused(0, 0)));
}
