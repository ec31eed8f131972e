//! A row in the lent buffer: its degree, n values, n radii, n lows, n highs.

/// The places that a row of n quantities takes.
pub const fn width(n: usize) -> usize {
    4 * n + 1
}

/// What a row holds: its degree, and of each quantity a value, a radius, a low and a high.
#[derive(Clone, Copy, Debug, PartialEq, Eq)]
pub struct Parts<'a> {
    pub degree: i64,
    pub values: &'a [i64],
    pub radii: &'a [i64],
    pub lows: &'a [i64],
    pub highs: &'a [i64],
}

/// The parts of a row.
pub fn parts(row: &[i64]) -> Parts<'_> {
    let n = row.len() / 4;
    let part = |number: usize| &row[1 + number * n..][..n];
    Parts {
        degree: row[0],
        values: part(0),
        radii: part(1),
        lows: part(2),
        highs: part(3),
    }
}
