//! The first clear run, at worked cases, in the gallery and at random. Where the proved planner is linked, it is held to
//! every worked case too.

mod certain;
mod gallery;
mod random;
mod random_edges;
mod refusals;
mod runs;

use reference::clearance::{FirstClear, Query, least_clearance_at_end};
use reference::compare::both_first_clear;
use reference::generate::clearance::QueryTrial;
use reference::rounding::SCALE;
use reference::sheet::MOST_QUANTITIES;

/// The ends of the ranges.
const MOST_WEIGHT: i64 = 67108864;
const MOST_NEED: i64 = 536870912;
const MOST_VALUE: i64 = 1 << 31;

/// One quantity as it is, against a need: a run of one row.
const AS_IT_IS: Query = Query {
    weights: {
        let mut weights = [0; MOST_QUANTITIES];
        weights[0] = SCALE;
        weights
    },
    base: 0,
    need: 0,
    run: 1,
};

fn with_need(need: i64) -> Query {
    Query { need, ..AS_IT_IS }
}

fn with_run(run: usize) -> Query {
    Query { run, ..AS_IT_IS }
}

fn with_weights(weights: &[i64]) -> Query {
    let mut query = with_need(0);
    query.weights[..weights.len()].copy_from_slice(weights);
    query
}

/// What this program answers and, where it is linked, the proved planner too: a difference fails the test.
fn first_clear(n: usize, count: usize, rows: &[i64], query: &Query) -> FirstClear {
    let trial = QueryTrial {
        n,
        count,
        rows: rows.to_vec(),
        query: query.clone(),
    };
    match both_first_clear(&trial) {
        Ok(answer) => answer,
        Err([ours, theirs]) => panic!("reference {ours}, proved {theirs}: {n} {count} {query:?}"),
    }
}

/// A row of one quantity, of degree 7, with this low and high; its value and radius would be certain of nothing.
fn row_of(low: i64, high: i64) -> [i64; 5] {
    [7, 0, MOST_VALUE, low, high]
}

/// What is asked of rows of one quantity, each with its low and its high.
fn of_one(ends: &[(i64, i64)], query: &Query) -> FirstClear {
    let rows: Vec<[i64; 5]> = ends.iter().map(|&(low, high)| row_of(low, high)).collect();
    first_clear(1, rows.len(), &rows.concat(), query)
}

/// The same with lows alone, where the weight is positive; the highs are the greatest.
fn of_lows(lows: &[i64], query: &Query) -> FirstClear {
    let ends: Vec<(i64, i64)> = lows.iter().map(|&low| (low, MOST_VALUE)).collect();
    of_one(&ends, query)
}

/// Whether a row clears the need at its own time, by value and radius.
fn clears_at_end(query: &Query, row: &[i64]) -> bool {
    least_clearance_at_end(query, row) >= i128::from(query.need) * i128::from(SCALE)
}
