//! Random rows and queries for the first clear run, from a seed: rows that a passage wrote, rows made certain or
//! not by as much as is wanted, rows of any numbers; and all of these with a part altered, to the edge of its range
//! or beyond.

mod altered;
mod asked;
mod made_rows;

use super::{calm, written};
use crate::clearance::{FirstClear, Query, ROW_RADIUS, ROW_VALUE, first_clear};
use crate::random::Random;
use std::ops::RangeInclusive;

use altered::alter;
use asked::{any_number, asked, random_weights, turn_to_rise};
use made_rows::{anywhere, at_the_ends, to_measure};

/// The ranges of a row's parts, in their order: values, radii, lows, highs.
const PART_RANGES: [RangeInclusive<i64>; 4] = [ROW_VALUE, ROW_RADIUS, ROW_VALUE, ROW_VALUE];
const LOW: usize = 2;
const HIGH: usize = 3;

/// The place in a row of n quantities of one quantity's number in a part.
fn place_of(n: usize, part: usize, quantity: usize) -> usize {
    1 + part * n + quantity
}

/// A buffer, what it is said to hold, and what is asked of it.
#[derive(Clone, Debug, PartialEq, Eq)]
pub struct QueryTrial {
    pub n: usize,
    pub count: usize,
    pub rows: Vec<i64>,
    pub query: Query,
}

impl QueryTrial {
    pub fn answer(&self) -> FirstClear {
        first_clear(self.n, self.count, &self.rows, &self.query)
    }
}

/// The trials of a seed, without end.
pub struct QueryTrials {
    random: Random,
    /// The quantities and the rows of a passage, and how many queries it is still good for.
    n: usize,
    passage: Vec<Vec<i64>>,
    left: usize,
}

impl QueryTrials {
    pub fn from_seed(seed: u64) -> Self {
        QueryTrials {
            random: Random::from_seed(seed),
            n: 0,
            passage: Vec::new(),
            left: 0,
        }
    }

    /// Rows that a passage wrote. Running it takes longer than asking, so each serves for some queries.
    pub fn of_a_passage(&mut self) -> QueryTrial {
        const QUERIES: usize = 32;
        let random = &mut self.random;
        if self.left == 0 {
            let sheet = calm(random);
            self.n = sheet.starts.len();
            self.passage = written(&sheet);
            self.left = QUERIES;
        }
        self.left -= 1;
        let all = self.passage.len();
        let some = random.below(all + 1);
        let count = random.of(&[all, all, all, some]);
        let mut weights = random_weights(random, self.n);
        if random.once_in(2) {
            turn_to_rise(&mut weights[..self.n], &self.passage[..count]);
        }
        asked(random, self.n, self.passage[..count].to_vec(), weights)
    }
}

impl Iterator for QueryTrials {
    type Item = QueryTrial;

    fn next(&mut self) -> Option<QueryTrial> {
        let mut trial = match self.random.below(8) {
            0..=2 => self.of_a_passage(),
            3..=5 => to_measure(&mut self.random),
            6 => anywhere(&mut self.random),
            _ => at_the_ends(&mut self.random),
        };
        let random = &mut self.random;
        if random.once_in(3) {
            let more = random.even(1..=20);
            trial.rows.extend((0..more).map(|_| any_number(random)));
        }
        while random.once_in(2) {
            alter(random, &mut trial);
        }
        Some(trial)
    }
}
