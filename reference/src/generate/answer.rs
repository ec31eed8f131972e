//! Random sheets for the answers, each with a buffer for its rows: valid sheets over the whole range of every field,
//! sheets steered to the edge of each question, and damaged ones.

use super::calm::{anywhere, calm};
use super::damage::{damage, lengthen};
use super::edges::{
    at_the_limit_from_the_start, at_the_limit_later, at_the_ratio, at_the_tolerance, of_high_degree,
};
use crate::random::Random;
use crate::sheet::{read, text};

/// A sheet, and the places of the buffer lent for its rows.
#[derive(Clone, Debug, PartialEq, Eq)]
pub struct Trial {
    pub sheet: Vec<u8>,
    pub places: usize,
}

/// The trials of a seed, without end.
pub struct Trials {
    random: Random,
}

impl Trials {
    pub fn from_seed(seed: u64) -> Self {
        let random = Random::from_seed(seed);
        Trials { random }
    }
}

impl Iterator for Trials {
    type Item = Trial;

    fn next(&mut self) -> Option<Trial> {
        let random = &mut self.random;
        let sheet = match random.below(22) {
            0..=2 => text(&anywhere(random)),
            3..=5 => text(&calm(random)),
            6..=9 => text(&at_the_ratio(random)),
            10 | 11 => text(&at_the_tolerance(random)),
            12 => text(&at_the_limit_from_the_start(random)),
            13 | 14 => text(&at_the_limit_later(random)),
            15 => text(&of_high_degree(random)),
            16 => missing_reading(random),
            17 => over_long(random),
            _ => damaged(random),
        };
        let needed = read(&sheet).map_or(0, |sheet| sheet.places());
        let places = match random.below(16) {
            0 => needed.saturating_sub(1),
            1 => random.below(needed + 1),
            2..=8 => needed,
            _ => needed + random.below(20),
        };
        Some(Trial { sheet, places })
    }
}

/// A sheet with a start, or another field, that reads `none`.
fn missing_reading(random: &mut Random) -> Vec<u8> {
    let mut sheet = calm(random);
    let which = random.below(sheet.starts.len());
    sheet.starts[which].value = None;
    let text = text(&sheet);
    if random.once_in(4) {
        damage(random, text)
    } else {
        text
    }
}

/// A sheet of the most bytes that a sheet may have, or a little over.
fn over_long(random: &mut Random) -> Vec<u8> {
    let mut text = text(&calm(random));
    lengthen(random, &mut text);
    text
}

/// A sheet with one or more faults.
fn damaged(random: &mut Random) -> Vec<u8> {
    let sheet = match random.below(3) {
        0 => anywhere(random),
        _ => calm(random),
    };
    let text = text(&sheet);
    let mut sheet = damage(random, text);
    while random.once_in(4) {
        sheet = damage(random, sheet);
    }
    sheet
}
