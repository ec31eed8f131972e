//! The answers: the same sheet and equal buffers to both programs, then every byte of the text, of a shorter text too,
//! every place of the buffer and the summary compared.

use super::{Lent, byte_mark};
use crate::answer::{self, Summary};
use crate::generate::Trial;
use crate::library::{MOST_TEXT, planner_answer, planner_run};

/// What one program made of a trial.
#[derive(Clone, Debug, PartialEq, Eq)]
pub struct Outcome {
    pub text: Vec<u8>,
    pub rows: Vec<i64>,
    /// What it made of the same trial when no text was asked for.
    pub summary: Summary,
    pub rows_without_text: Vec<i64>,
    pub lent: Lent,
}

/// The bytes to lend for a text of such a length: fewer than it has, as a rule, or a few more.
fn lent_bytes(trial: &Trial, length: usize) -> usize {
    trial.places % (length + 32)
}

/// This program's outcome, its buffers filled with `mark` before.
pub fn reference(trial: &Trial, mark: i64) -> Outcome {
    let mut rows = vec![mark; trial.places];
    let summary = answer::run(&trial.sheet, &mut rows);
    let text = answer::text(&summary, &rows).into_bytes();
    let rows_without_text = rows.clone();
    let lent = Lent::of(&text, lent_bytes(trial, text.len()), mark);
    Outcome {
        text,
        rows,
        summary,
        rows_without_text,
        lent,
    }
}

/// The proved planner's outcome, its buffers filled with `mark` before; none where it is not linked.
pub fn proved(trial: &Trial, mark: i64) -> Option<Outcome> {
    let mut rows = vec![mark; trial.places];
    let mut text = vec![0; MOST_TEXT];
    let length = planner_answer(&trial.sheet, &mut rows, &mut text)?;
    text.truncate(length);
    let mut rows_without_text = vec![mark; trial.places];
    let summary = planner_run(&trial.sheet, &mut rows_without_text)?;
    let mut held = vec![byte_mark(mark); lent_bytes(trial, length)];
    let length = planner_answer(&trial.sheet, &mut rows.clone(), &mut held)?;
    Some(Outcome {
        text,
        rows,
        summary,
        rows_without_text,
        lent: Lent { length, held },
    })
}

/// How many trials ended with each result, 0 to 8.
#[derive(Clone, Debug, Default, PartialEq, Eq)]
pub struct Tally {
    pub results: [usize; 9],
}

impl Tally {
    pub fn count(&mut self, outcome: &Outcome) {
        self.results[outcome.ending().result] += 1;
    }
}

/// How a trial ended, read off the answer's text.
#[derive(Clone, Copy, Debug, PartialEq, Eq, Hash)]
pub struct Ending {
    pub result: usize,
    pub at: usize,
    pub rows: usize,
    /// The last row's degree, or 0.
    pub degree: usize,
}

impl Outcome {
    pub fn ending(&self) -> Ending {
        let mut ending = Ending {
            result: 0,
            at: 0,
            rows: 0,
            degree: 0,
        };
        for line in self.text.split(|&byte| byte == b'\n') {
            let line = std::str::from_utf8(line).unwrap_or("");
            let (key, number) = match line.split_once('=') {
                Some(parts) => parts,
                None => continue,
            };
            let field = match key {
                "result" => &mut ending.result,
                "at" => &mut ending.at,
                "row" => &mut ending.rows,
                "degree" => &mut ending.degree,
                _ => continue,
            };
            *field = number.parse().unwrap_or(0);
        }
        ending
    }
}

/// Runs a trial through both programs. `Err` where the proved planner is linked and differs.
pub fn both(trial: &Trial, mark: i64) -> Result<Outcome, Box<[Outcome; 2]>> {
    let ours = reference(trial, mark);
    match proved(trial, mark) {
        Some(theirs) if theirs != ours => Err(Box::new([ours, theirs])),
        _ => Ok(ours),
    }
}
