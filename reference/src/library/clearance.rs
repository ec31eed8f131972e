//! From rows and a query to the first clear run, by `planner_first_clear`, and that its most rows are this program's.

use super::header;
use crate::clearance::COUNT;
use crate::generate::clearance::QueryTrial;

const _: () = assert!(header(env!("PLANNER_MOST_STEPS")) == *COUNT.end());

#[cfg(planner_linked)]
mod c {
    extern "C" {
        pub fn planner_first_clear(
            n: usize,
            count: usize,
            rows: *const i64,
            rows_length: usize,
            weights: *const i64,
            base: i64,
            need: i64,
            run: usize,
        ) -> i64;
    }
}

/// The proved planner's answer to a query, as one number. Where the planner is not linked, there is none.
#[cfg(planner_linked)]
pub fn planner_first_clear(trial: &QueryTrial) -> Option<i64> {
    let QueryTrial {
        n,
        count,
        rows,
        query,
    } = trial;
    // SAFETY: the first pointer is that of a live slice of the length beside it, the second that of eight
    // numbers, and both are only read.
    Some(unsafe {
        c::planner_first_clear(
            *n,
            *count,
            rows.as_ptr(),
            rows.len(),
            query.weights.as_ptr(),
            query.base,
            query.need,
            query.run,
        )
    })
}

#[cfg(not(planner_linked))]
pub fn planner_first_clear(_trial: &QueryTrial) -> Option<i64> {
    None
}
