//! The clearance: the same rows and query to both programs, then the answers compared; and how many queries had each kind
//! of answer.

use crate::clearance::FirstClear;
use crate::generate::clearance::QueryTrial;
use crate::library::planner_first_clear;
use std::collections::BTreeMap;

/// Puts a query to both programs. `Err` with both numbers where the proved planner is linked and differs.
pub fn both_first_clear(trial: &QueryTrial) -> Result<FirstClear, [i64; 2]> {
    let ours = trial.answer();
    match planner_first_clear(trial) {
        Some(theirs) if theirs != ours.number() => Err([ours.number(), theirs]),
        _ => Ok(ours),
    }
}

/// How many queries had each kind of answer.
#[derive(Clone, Debug, Default, PartialEq, Eq)]
pub struct ClearTally {
    pub rows: usize,
    pub none: usize,
    /// By the refusal's number.
    pub refused: BTreeMap<usize, usize>,
}

impl ClearTally {
    pub fn count(&mut self, answer: FirstClear) {
        let kind = match answer {
            FirstClear::Row(_) => &mut self.rows,
            FirstClear::NoRow => &mut self.none,
            FirstClear::Refused(refusal) => self.refused.entry(refusal as usize).or_default(),
        };
        *kind += 1;
    }
}
