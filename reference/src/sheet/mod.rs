//! The sheet: its fields and their ranges (`limits`), reading it line by line (`reading`), its first fault and why it is
//! refused (`faults`), and its text (`printing`).

mod faults;
mod limits;
mod printing;
mod reading;

use crate::rows;

pub use faults::{END_KEY, Fault, Group, LineFault, Refusal, Why};
pub use limits::{
    COEF, LIMIT, MOST_BYTES, MOST_PLACES, MOST_QUANTITIES, QUANTITIES, RADIUS, START, STEP_LENGTH,
    STEPS, STORED_STEPS, TAIL, TERMS, TOL,
};
use limits::{second_range, step_within, within};
pub use printing::text;
pub use reading::{examine, read, read_stored};

/// A quantity's start; `value` is `None` where the sheet says `none`.
#[derive(Clone, Copy, Debug, PartialEq, Eq)]
pub struct Start {
    pub value: Option<i64>,
    pub radius: i64,
}

/// Adds `coef`/s times the factors to the rate of quantity `to`; factor 0 means no factor.
#[derive(Clone, Copy, Debug, PartialEq, Eq)]
pub struct Term {
    pub to: i64,
    pub coef: i64,
    pub first: i64,
    pub second: i64,
}

/// A passage as numbers: a forecast, or a hindcast where `step` is below 0.
#[derive(Clone, Debug, PartialEq, Eq)]
pub struct Sheet {
    pub steps: i64,
    pub step: i64,
    pub tail: i64,
    pub tol: i64,
    pub starts: Vec<Start>,
    /// As read: like terms are added where a passage is run or a step taken.
    pub terms: Vec<Term>,
}

/// A start that was read, with its radius.
pub fn start(value: i64, radius: i64) -> Start {
    Start {
        value: Some(value),
        radius,
    }
}

/// A term, field by field.
pub fn term(to: i64, coef: i64, first: i64, second: i64) -> Term {
    Term {
        to,
        coef,
        first,
        second,
    }
}

impl Sheet {
    /// The places that one row takes.
    pub fn row_places(&self) -> usize {
        rows::width(self.starts.len())
    }

    /// The places that all rows take.
    pub fn places(&self) -> usize {
        self.steps as usize * self.row_places()
    }

    /// Questions 3 and 4 for a passage given as numbers, in the order of the sheet's fields.
    pub fn check(&self) -> Result<(), Refusal> {
        let n = self.starts.len() as i64;
        within(n, QUANTITIES)?;
        within(self.steps, STEPS)?;
        step_within(self.step)?;
        within(self.tail, TAIL)?;
        within(self.tol, TOL)?;
        for start in &self.starts {
            within(start.value.ok_or(Refusal::NoReading)?, START)?;
            within(start.radius, RADIUS)?;
        }
        within(self.terms.len() as i64, TERMS)?;
        for term in &self.terms {
            within(term.to, 1..=n)?;
            within(term.coef, COEF)?;
            within(term.first, 0..=n)?;
            within(term.second, second_range(term.first, n))?;
        }
        Ok(())
    }
}
