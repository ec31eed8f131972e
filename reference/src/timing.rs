//! The two programs timed side by side: the same sheets and searches, in one process, turn and turn about.

use crate::answer::answer;
use crate::clearance::{COUNT, Query};
use crate::generate::clearance::QueryTrial;
use crate::library::{LINKED, MOST_TEXT, planner_answer, planner_first_clear};
use crate::rounding::SCALE;
use crate::sheet::{MOST_PLACES, MOST_QUANTITIES};
use std::iter::repeat_with;
use std::time::{Duration, Instant};
use std::{mem, ptr};

/// The least and the median time of one program on one sheet, or of one search.
#[derive(Clone, Copy, Debug)]
pub struct Times {
    pub least: Duration,
    pub median: Duration,
}

fn times(mut each: Vec<Duration>) -> Times {
    each.sort();
    Times {
        least: each[0],
        median: each[each.len() / 2],
    }
}

/// The same value, of which the compiler knows nothing: what it is worked out from or for is not left out. (The standard
/// library's own is newer than the Rust that this is to be built with.)
fn black_box<T>(value: T) -> T {
    // The copy takes the value's place, which is never dropped.
    let same = unsafe { ptr::read_volatile(&value) };
    mem::forget(value);
    same
}

fn timed<T>(work: impl FnOnce() -> T) -> Duration {
    let begun = Instant::now();
    black_box(work());
    begun.elapsed()
}

/// Times of this program and, where it is linked, of the proved planner. Each turn times both once.
fn turns(rounds: usize, turn: impl FnMut() -> (Duration, Duration)) -> (Times, Option<Times>) {
    let (ours, theirs) = repeat_with(turn).take(rounds).unzip();
    (times(ours), LINKED.then(|| times(theirs)))
}

/// The times of a sheet. The buffers are made before and lent to every run, so what is timed is the
/// answering; the text that this program makes for itself is part of that.
pub fn side_by_side(sheet: &[u8], rounds: usize) -> (Times, Option<Times>) {
    let mut rows = vec![0; MOST_PLACES];
    let mut text = vec![0; MOST_TEXT];
    turns(rounds, || {
        let ours = timed(|| answer(black_box(sheet), &mut rows));
        let theirs = timed(|| planner_answer(black_box(sheet), &mut rows, &mut text));
        (ours, theirs)
    })
}

/// The times of a search.
pub fn search_side_by_side(trial: &QueryTrial, rounds: usize) -> (Times, Option<Times>) {
    turns(rounds, || {
        let ours = timed(|| black_box(trial).answer());
        let theirs = timed(|| planner_first_clear(black_box(trial)));
        (ours, theirs)
    })
}

/// The searches that look at the most rows of the most quantities: for a single row where none is
/// certain, and for all rows in a row where all are.
pub fn longest_searches() -> [QueryTrial; 2] {
    const VALUE: i64 = SCALE;
    const RADIUS: i64 = SCALE / 1000;
    const REACH: i64 = SCALE / 100;
    let n = MOST_QUANTITIES;
    let count = *COUNT.end();
    let parts = [VALUE, RADIUS, VALUE - REACH, VALUE + REACH];
    let row = [vec![0], parts.map(|number| vec![number; n]).concat()].concat();
    let surely = n as i64 * (VALUE - REACH);
    [(surely + 1, 1), (surely, count)].map(|(need, run)| QueryTrial {
        n,
        count,
        rows: row.repeat(count),
        query: Query {
            weights: [SCALE; MOST_QUANTITIES],
            base: 0,
            need,
            run,
        },
    })
}
