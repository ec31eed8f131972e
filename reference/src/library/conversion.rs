//! From a stored sheet to its conversion, by `planner_convert`; the bytes that a conversion needs, and that the most
//! steps are this program's.

use super::header;
use crate::sheet::STORED_STEPS;

/// The bytes that suffice for every conversion.
pub const MOST_CONVERTED: usize = header(env!("PLANNER_CONVERTED_LENGTH"));

const _: () = assert!(header(env!("PLANNER_STORED_STEPS")) == *STORED_STEPS.end() as usize);

#[cfg(planner_linked)]
mod c {
    extern "C" {
        pub fn planner_convert(
            sheet: *const u8,
            sheet_length: usize,
            rows: *mut i64,
            rows_length: usize,
            text: *mut u8,
            text_length: usize,
        ) -> usize;
    }
}

/// The proved planner's conversion of a stored sheet, the rows of its first part and its text into the
/// buffers lent: the text's length. Where the planner is not linked, there is none.
#[cfg(planner_linked)]
pub fn planner_convert(sheet: &[u8], rows: &mut [i64], text: &mut [u8]) -> Option<usize> {
    // SAFETY: each pointer is that of a live slice of the length beside it, and no two overlap.
    Some(unsafe {
        c::planner_convert(
            sheet.as_ptr(),
            sheet.len(),
            rows.as_mut_ptr(),
            rows.len(),
            text.as_mut_ptr(),
            text.len(),
        )
    })
}

#[cfg(not(planner_linked))]
pub fn planner_convert(_sheet: &[u8], _rows: &mut [i64], _text: &mut [u8]) -> Option<usize> {
    None
}
