//! The conversion: the same stored sheet to both programs, and the texts and the rows of its first part compared; and how
//! many stored sheets became what.

use super::{Lent, byte_mark};
use crate::conversion::{self, Conversion};
use crate::generate::conversion::StoredTrial;
use crate::library::{MOST_CONVERTED, planner_convert};
use std::collections::BTreeMap;

/// What one program made of a stored sheet, in a text buffer that suffices and in another one.
#[derive(Clone, Debug, PartialEq, Eq)]
pub struct Converted {
    pub roomy: Lent,
    pub rows: Vec<i64>,
    pub lent: Lent,
    /// The rows of the call with the other buffer.
    pub rows_again: Vec<i64>,
}

impl Converted {
    pub fn text(&self) -> &[u8] {
        &self.roomy.held[..self.roomy.length.min(MOST_CONVERTED)]
    }
}

/// What this program makes of a stored sheet, its buffers filled with `mark` before.
fn reference_converted(trial: &StoredTrial, mark: i64) -> (Conversion, Converted) {
    let mut rows = vec![mark; trial.places];
    let conversion = conversion::convert(&trial.sheet, &mut rows);
    let text = conversion::printed(&trial.sheet, &conversion);
    let converted = Converted {
        roomy: Lent::of(&text, MOST_CONVERTED, mark),
        rows: rows.clone(),
        lent: Lent::of(&text, trial.bytes(text.len()), mark),
        rows_again: rows,
    };
    (conversion, converted)
}

/// What the proved planner makes of it; none where it is not linked.
fn proved_converted(trial: &StoredTrial, mark: i64) -> Option<Converted> {
    let call = |bytes: usize| {
        let mut rows = vec![mark; trial.places];
        let mut held = vec![byte_mark(mark); bytes];
        let length = planner_convert(&trial.sheet, &mut rows, &mut held)?;
        Some((Lent { length, held }, rows))
    };
    let (roomy, rows) = call(MOST_CONVERTED)?;
    let (lent, rows_again) = call(trial.bytes(roomy.length))?;
    Some(Converted {
        roomy,
        rows,
        lent,
        rows_again,
    })
}

/// Converts a stored sheet with both programs. `Err` where the proved planner is linked and differs.
pub fn both_converted(
    trial: &StoredTrial,
    mark: i64,
) -> Result<(Conversion, Converted), Box<[Converted; 2]>> {
    let (conversion, ours) = reference_converted(trial, mark);
    match proved_converted(trial, mark) {
        Some(theirs) if theirs != ours => Err(Box::new([ours, theirs])),
        _ => Ok((conversion, ours)),
    }
}

/// How many stored sheets became what.
#[derive(Clone, Debug, Default, PartialEq, Eq)]
pub struct ConversionTally {
    pub split: usize,
    pub unaltered: usize,
    /// By the refusal's number.
    pub refused: BTreeMap<usize, usize>,
}

impl ConversionTally {
    pub fn count(&mut self, conversion: &Conversion) {
        let kind = match conversion {
            Conversion::Split(_) => &mut self.split,
            Conversion::Unaltered => &mut self.unaltered,
            Conversion::Refused(refused) => {
                self.refused.entry(refused.refusal as usize).or_default()
            }
        };
        *kind += 1;
    }
}
