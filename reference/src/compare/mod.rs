//! The proved planner beside this program, in one process, for each service in a file of its name. A text goes into two
//! buffers, one that suffices and one of any length, and every byte and every place of the buffers is compared.

mod answer;
mod clearance;
mod conversion;

pub use answer::{Ending, Outcome, Tally, both, proved, reference};
pub use clearance::{ClearTally, both_first_clear};
pub use conversion::{ConversionTally, Converted, both_converted};

/// The same text in a buffer of another length, which may be too short for it: the length handed back,
/// and what the buffer holds.
#[derive(Clone, Debug, PartialEq, Eq)]
pub struct Lent {
    pub length: usize,
    pub held: Vec<u8>,
}

impl Lent {
    /// A text in a buffer of so many bytes, which is filled with `mark` before.
    fn of(text: &[u8], bytes: usize, mark: i64) -> Self {
        let mut held = vec![byte_mark(mark); bytes];
        for (place, &byte) in held.iter_mut().zip(text) {
            *place = byte;
        }
        let length = text.len();
        Lent { length, held }
    }
}

/// What a buffer's bytes are before.
fn byte_mark(mark: i64) -> u8 {
    mark.to_le_bytes()[0]
}
