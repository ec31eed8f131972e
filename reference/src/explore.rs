//! A long search from a seed: sheets that ended in a way not seen before are kept and altered again.

use crate::compare::Ending;
use crate::generate::{Trial, Trials, damage};
use crate::random::Random;
use crate::sheet::{Sheet, read, text};
use std::collections::HashSet;

/// Trials that go on from whatever brought something to light.
pub struct Explorer {
    random: Random,
    fresh: Trials,
    seen: HashSet<Ending>,
    kept: Vec<Trial>,
}

impl Explorer {
    pub fn from_seed(seed: u64) -> Self {
        Explorer {
            random: Random::from_seed(!seed),
            fresh: Trials::from_seed(seed),
            seen: HashSet::new(),
            kept: Vec::new(),
        }
    }

    /// The number of endings seen: results, steps, rows and degrees.
    pub fn endings(&self) -> usize {
        self.seen.len()
    }

    /// A fresh trial, or a kept one altered.
    pub fn propose(&mut self) -> Trial {
        if self.kept.is_empty() || self.random.once_in(4) {
            return self.fresh.next().expect("the trials have no end");
        }
        let place = self.random.below(self.kept.len());
        let mut trial = self.kept[place].clone();
        trial.sheet = match read(&trial.sheet) {
            Ok(sheet) if !self.random.once_in(8) => text(&altered(&mut self.random, sheet)),
            _ => damage(&mut self.random, trial.sheet),
        };
        trial
    }

    /// Keeps a trial whose ending is the first of its kind.
    pub fn learn(&mut self, trial: Trial, ending: Ending) {
        if self.seen.insert(ending) {
            self.kept.push(trial);
        }
    }
}

/// A sheet with one to four of its numbers altered.
fn altered(random: &mut Random, mut sheet: Sheet) -> Sheet {
    for _ in 0..random.even(1..=4) {
        let n = sheet.starts.len();
        let start = random.below(n);
        let number = match (random.below(9), sheet.terms.len()) {
            (0, _) => &mut sheet.steps,
            (1, _) => &mut sheet.step,
            (2, _) => &mut sheet.tail,
            (3, _) => &mut sheet.tol,
            (4, _) => match &mut sheet.starts[start].value {
                Some(value) => value,
                None => continue,
            },
            (5, _) | (_, 0) => &mut sheet.starts[start].radius,
            (which, count) => {
                let term = &mut sheet.terms[random.below(count)];
                match which {
                    6 => &mut term.coef,
                    7 => &mut term.first,
                    _ => &mut term.second,
                }
            }
        };
        *number = nearby(random, *number);
    }
    sheet
}

fn nearby(random: &mut Random, number: i64) -> i64 {
    match random.below(6) {
        0 => number + 1,
        1 => number - 1,
        2 => number * 2,
        3 => number / 2,
        4 => -number,
        _ => number + random.even(-1000..=1000),
    }
}
