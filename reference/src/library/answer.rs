//! From a sheet to its answer, by `planner_answer`, and to its rows without a text, by `planner_run`; and the bytes that
//! an answer needs.

use super::header;
use crate::answer::Summary;

/// The bytes that suffice for every answer.
pub const MOST_TEXT: usize = header(env!("PLANNER_TEXT_LENGTH"));

#[cfg(planner_linked)]
mod c {
    extern "C" {
        pub fn planner_answer(
            sheet: *const u8,
            sheet_length: usize,
            rows: *mut i64,
            rows_length: usize,
            text: *mut u8,
            text_length: usize,
        ) -> usize;

        pub fn planner_run(
            sheet: *const u8,
            sheet_length: usize,
            rows: *mut i64,
            rows_length: usize,
            summary: *mut [u64; 4],
        );
    }
}

/// The proved planner's answer to a sheet, its rows and its text into the buffers lent: the text's
/// length. Where the planner is not linked, there is none.
#[cfg(planner_linked)]
pub fn planner_answer(sheet: &[u8], rows: &mut [i64], text: &mut [u8]) -> Option<usize> {
    // SAFETY: each pointer is that of a live slice of the length beside it, and no two overlap.
    Some(unsafe {
        c::planner_answer(
            sheet.as_ptr(),
            sheet.len(),
            rows.as_mut_ptr(),
            rows.len(),
            text.as_mut_ptr(),
            text.len(),
        )
    })
}

#[cfg(not(planner_linked))]
pub fn planner_answer(_sheet: &[u8], _rows: &mut [i64], _text: &mut [u8]) -> Option<usize> {
    None
}

/// What the proved planner makes of a sheet without a text, its rows into the buffer lent. Where the
/// planner is not linked, there is nothing.
#[cfg(planner_linked)]
pub fn planner_run(sheet: &[u8], rows: &mut [i64]) -> Option<Summary> {
    let mut summary = [u64::MAX; 4];
    // SAFETY: each pointer is that of a live slice of the length beside it, the last that of four
    // numbers, and no two overlap.
    unsafe {
        c::planner_run(
            sheet.as_ptr(),
            sheet.len(),
            rows.as_mut_ptr(),
            rows.len(),
            &mut summary,
        );
    }
    let [result, at, quantities, rows] = summary;
    Some(Summary {
        result,
        at,
        quantities,
        rows,
    })
}

#[cfg(not(planner_linked))]
pub fn planner_run(_sheet: &[u8], _rows: &mut [i64]) -> Option<Summary> {
    None
}
