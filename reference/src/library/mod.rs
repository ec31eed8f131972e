//! The proved planner's functions for C, declared for Rust, for each service in a file of its name, with the sizes that
//! c/planner.h has. Where the planner is not linked, every one of them gives `None`.

// Older compilers do not ask which names a #[cfg] may have.
#![allow(unknown_lints, unexpected_cfgs)]

mod answer;
mod clearance;
mod conversion;

use crate::rounding::SCALE;
use crate::sheet::{MOST_BYTES, MOST_PLACES, MOST_QUANTITIES, STEPS};

pub use answer::{MOST_TEXT, planner_answer, planner_run};
pub use clearance::planner_first_clear;
pub use conversion::{MOST_CONVERTED, planner_convert};

/// Whether the proved planner is linked (see build.rs).
pub const LINKED: bool = cfg!(planner_linked);

const _: () = assert!(header(env!("PLANNER_SHEET_LENGTH")) == MOST_BYTES + 1);
const _: () = assert!(header(env!("PLANNER_ROWS_LENGTH")) == MOST_PLACES);
const _: () = assert!(header(env!("PLANNER_MOST_QUANTITIES")) == MOST_QUANTITIES);
const _: () = assert!(header(env!("PLANNER_MOST_STEPS")) == *STEPS.end() as usize);
const _: () = assert!(header(env!("PLANNER_SCALE")) == SCALE as usize);

/// A size of c/planner.h (see build.rs).
const fn header(number: &str) -> usize {
    let digits = number.as_bytes();
    assert!(!digits.is_empty(), "a size of c/planner.h is missing");
    let (mut size, mut place) = (0, 0);
    while place < digits.len() {
        assert!(
            digits[place].is_ascii_digit(),
            "a size of c/planner.h is not a number"
        );
        size = 10 * size + (digits[place] - b'0') as usize;
        place += 1;
    }
    size
}
