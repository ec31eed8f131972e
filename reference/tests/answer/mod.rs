//! The answers: document 01's cases, its passages given as numbers, like terms, and random sheets. Here is case A, which
//! most of the worked cases are edits of.

mod as_numbers;
mod like_terms;
mod long_numbers;
mod random_like_terms;
mod random_sheets;
mod worked_cases;

use reference::answer::answer;
use reference::sheet::MOST_PLACES;

const CASE_A: &str = "n=1\nsteps=1\nstep=4194304\ntail=349526\ntol=349534\nstart=16777216\nradius=0\n\
    terms=1\nto=1\ncoef=16777216\nfirst=1\nsecond=1\n";

const MARK: i64 = i64::MIN;

/// Case A's sheet with some of its lines replaced.
fn edited(edits: &[(&str, &str)]) -> String {
    edits.iter().fold(CASE_A.to_string(), |sheet, (old, new)| {
        let old = format!("{old}\n");
        assert_eq!(sheet.matches(&old).count(), 1, "{old} occurs once");
        sheet.replace(&old, &format!("{new}\n"))
    })
}

fn answer_of(sheet: &str) -> String {
    answer(sheet.as_bytes(), &mut [MARK; MOST_PLACES])
}

/// The answer of one row for one quantity.
fn one_row(degree: u32, value: i64, radius: i64, [low, high]: [i64; 2]) -> String {
    format!(
        "row=1\ndegree={degree}\nvalue={value}\nradius={radius}\nlow={low}\nhigh={high}\nresult=0\nat=0\n"
    )
}

/// The answer of case A's sheet. Its reach is 5,592,414: |c_1| and |c_2| are 4,194,304 and 1,048,576, and the errors
/// and the tail are the radius, 349,534, for the start has none.
fn answer_a() -> String {
    one_row(2, 22020096, 349534, [11184802, 22369630])
}

fn refused(result: u8, at: usize) -> String {
    format!("result={result}\nat={at}\n")
}
