//! A passage: step after step from the start, each row into a lent buffer.

use crate::rows;
use crate::sheet::{MOST_QUANTITIES, Refusal, Sheet};
use crate::step::{State, Steps};

/// A refused passage: why, and at which step (0 before step 1).
#[derive(Clone, Copy, Debug, PartialEq, Eq)]
pub struct Refused {
    pub refusal: Refusal,
    pub at: usize,
}

/// Runs a passage into `rows`. Places beyond the rows written keep what they held.
pub fn run(sheet: &Sheet, rows: &mut [i64]) -> Result<(), Refused> {
    let before = |refusal| Refused { refusal, at: 0 };
    sheet.check().map_err(before)?;
    if rows.len() < sheet.places() {
        return Err(before(Refusal::BufferTooShort));
    }
    carry(sheet, rows)
}

/// Takes the steps of a sheet that is read, however many it has, each row into `rows`, which have places for all.
pub fn carry(sheet: &Sheet, rows: &mut [i64]) -> Result<(), Refused> {
    let n = sheet.starts.len();
    let steps = Steps::of(sheet);
    let mut state = start(sheet);
    let places = rows.chunks_exact_mut(sheet.row_places());
    for (at, place) in (1..=sheet.steps as usize).zip(places) {
        let row = steps.advance(&state);
        let row = row.map_err(|refusal| Refused { refusal, at })?;
        for (place, number) in place.iter_mut().zip(row.numbers(n)) {
            *place = number;
        }
        state = row.state;
    }
    Ok(())
}

/// The state before step 1 of a sheet that `Sheet::check` accepts.
pub fn start(sheet: &Sheet) -> State {
    let mut state = State {
        values: [0; MOST_QUANTITIES],
        radii: [0; MOST_QUANTITIES],
    };
    for (i, start) in sheet.starts.iter().enumerate() {
        state.values[i] = start.value.expect("a checked sheet has every reading");
        state.radii[i] = start.radius as u64;
    }
    state
}

/// The state before step `at` of a passage whose earlier steps have been run into `rows`.
pub fn before(sheet: &Sheet, rows: &[i64], at: usize) -> State {
    let mut state = start(sheet);
    let mut earlier = rows.chunks_exact(sheet.row_places()).take(at - 1);
    if let Some(row) = earlier.next_back() {
        let row = rows::parts(row);
        for i in 0..sheet.starts.len() {
            state.values[i] = row.values[i];
            state.radii[i] = row.radii[i] as u64;
        }
    }
    state
}
