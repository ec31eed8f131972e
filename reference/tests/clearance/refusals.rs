//! What is refused: each refusal at its edge, by every part of the query and of a row; their order; and what is not
//! asked.

use super::{
    AS_IT_IS, MOST_NEED, MOST_VALUE, MOST_WEIGHT, first_clear, row_of, with_need, with_run,
    with_weights,
};
use reference::clearance::FirstClear::{self, NoRow, Refused, Row};
use reference::clearance::Query;
use reference::rounding::SCALE;
use reference::sheet::Refusal::{self, BufferTooShort, OutOfRange, QueryOutOfRange, RowOutOfRange};

/// The parts of a row of one quantity, by their places.
const VALUE: usize = 1;
const RADIUS: usize = 2;
const LOW: usize = 3;
const HIGH: usize = 4;

fn refused(refusal: Refusal) -> FirstClear {
    Refused(refusal)
}

#[test]
fn quantities_and_count_out_of_range_are_3() {
    let rows = vec![0; 400 * 33];
    let asked = |n, count| first_clear(n, count, &rows, &AS_IT_IS);
    assert_eq!(asked(1, 240), Row(1));
    assert_eq!(asked(8, 240), Row(1));
    assert_eq!(asked(8, 0), NoRow);
    for (n, count) in [
        (0, 1),
        (9, 1),
        (1, 241),
        (8, 241),
        (8, 400),
        (0, 0),
        (9, 0),
        (0, 241),
    ] {
        assert_eq!(asked(n, count), refused(OutOfRange), "{n} {count}");
    }
    for huge in [1 << 32, 1 << 62, 1 << 63, (1 << 63) + 1, usize::MAX] {
        assert_eq!(asked(huge, 1), refused(OutOfRange), "{huge}");
        assert_eq!(asked(1, huge), refused(OutOfRange), "{huge}");
    }
}

#[test]
fn too_few_places_are_5() {
    let rows = vec![0; 240 * 33 + 1];
    let asked = |n, count, places| first_clear(n, count, &rows[..places], &AS_IT_IS);
    for (n, count, needed) in [(1, 1, 5), (1, 2, 10), (2, 1, 9), (8, 240, 7920)] {
        assert_eq!(asked(n, count, needed), Row(1));
        assert_eq!(asked(n, count, needed + 1), Row(1));
        assert_eq!(asked(n, count, needed - 1), refused(BufferTooShort));
        assert_eq!(asked(n, count, 0), refused(BufferTooShort));
    }
}

#[test]
fn a_query_out_of_range_is_9() {
    let rows = row_of(0, 0);
    let asked = |query| first_clear(1, 1, &rows, &query);
    for weight in [-MOST_WEIGHT, MOST_WEIGHT] {
        assert_eq!(asked(with_weights(&[weight])), Row(1));
        let beyond = weight + weight.signum();
        assert_eq!(asked(with_weights(&[beyond])), refused(QueryOutOfRange));
    }
    for end in [-MOST_NEED, MOST_NEED] {
        let with = |base, need| {
            asked(Query {
                base,
                need,
                ..AS_IT_IS
            })
        };
        let beyond = end + end.signum();
        assert_eq!(with(end, end), Row(1));
        assert_eq!(with(beyond, end), refused(QueryOutOfRange));
        assert_eq!(with(end, beyond), refused(QueryOutOfRange));
    }
    for extreme in [i64::MIN, i64::MAX] {
        let (base, need) = (extreme, extreme);
        let with_base = Query { base, ..AS_IT_IS };
        assert_eq!(asked(with_weights(&[extreme])), refused(QueryOutOfRange));
        assert_eq!(asked(with_base), refused(QueryOutOfRange));
        assert_eq!(asked(with_need(need)), refused(QueryOutOfRange));
    }
    assert_eq!(asked(with_run(1)), Row(1));
    assert_eq!(asked(with_run(240)), NoRow);
    for run in [0, 241, 400, 1 << 32, 1 << 63, usize::MAX] {
        assert_eq!(asked(with_run(run)), refused(QueryOutOfRange), "{run}");
    }
}

#[test]
fn weights_past_the_quantities_are_not_looked_at() {
    for extreme in [i64::MIN, -MOST_WEIGHT - 1, MOST_WEIGHT + 1, i64::MAX] {
        for n in 1..=8 {
            let rows = vec![0; 4 * n + 1];
            let mut weights = [extreme; 8];
            weights[..n].fill(SCALE);
            assert_eq!(first_clear(n, 1, &rows, &with_weights(&weights)), Row(1));
            weights[n - 1] = extreme;
            let answer = first_clear(n, 1, &rows, &with_weights(&weights));
            assert_eq!(answer, refused(QueryOutOfRange), "{n}");
        }
    }
}

/// The ranges of a row's parts, each with its place.
const RANGES: [(usize, i64, i64); 4] = [
    (VALUE, -MOST_VALUE, MOST_VALUE),
    (RADIUS, 0, MOST_VALUE),
    (LOW, -MOST_VALUE, MOST_VALUE),
    (HIGH, -MOST_VALUE, MOST_VALUE),
];

#[test]
fn a_row_out_of_range_is_10() {
    for (place, least, most) in RANGES {
        let asked = |number| {
            let mut row = [7, 0, 0, 0, 0];
            row[place] = number;
            first_clear(1, 1, &row, &AS_IT_IS)
        };
        let at_least = if place == LOW { NoRow } else { Row(1) };
        assert_eq!(asked(least), at_least, "{place}");
        assert_eq!(asked(most), Row(1), "{place}");
        for beyond in [least - 1, most + 1, i64::MIN, i64::MAX] {
            assert_eq!(asked(beyond), refused(RowOutOfRange), "{place}: {beyond}");
        }
    }
}

/// Whatever the weights: a part that does not count is asked like one that does.
#[test]
fn every_part_of_every_quantity_is_asked() {
    for weights in [[0, 0], [SCALE, 0], [0, -SCALE], [-1, 1]] {
        let query = Query {
            need: -MOST_NEED,
            ..with_weights(&weights)
        };
        let asked = |row: [i64; 9]| first_clear(2, 1, &row, &query);
        assert_eq!(asked([0; 9]), Row(1));
        for (part, least, most) in RANGES {
            for place in [2 * part - 1, 2 * part] {
                for beyond in [least - 1, most + 1] {
                    let mut row = [0; 9];
                    row[place] = beyond;
                    let answer = asked(row);
                    assert_eq!(answer, refused(RowOutOfRange), "{weights:?} {place}");
                }
            }
        }
    }
}

/// Also after the row that opens a run.
#[test]
fn every_counted_row_is_asked() {
    for (place, least, most) in RANGES {
        let last_row = |number| {
            let mut rows = [[7, 9, 0, 9, 9]; 3];
            rows[2][place] = number;
            first_clear(1, 3, &rows.concat(), &AS_IT_IS)
        };
        assert_eq!(last_row(least), Row(1), "{place}");
        assert_eq!(last_row(most), Row(1), "{place}");
        assert_eq!(last_row(least - 1), refused(RowOutOfRange), "{place}");
        assert_eq!(last_row(most + 1), refused(RowOutOfRange), "{place}");
    }
}

/// Degrees, and all places past the count.
#[test]
fn what_is_not_asked() {
    for number in [i64::MIN, -5, 29, MOST_VALUE + 1, i64::MAX] {
        let row = [number, 1, 1, 0, 1];
        let past = [number; 5];
        assert_eq!(
            first_clear(1, 1, &[row, past].concat(), &AS_IT_IS),
            Row(1),
            "{number}"
        );
        assert_eq!(
            first_clear(1, 2, &[row, row].concat(), &with_run(2)),
            Row(1),
            "{number}"
        );
        let uncertain = [number, 1, 1, -1, 1];
        assert_eq!(first_clear(1, 1, &uncertain, &AS_IT_IS), NoRow, "{number}");
    }
}

/// Everything is wrong at first; each question comes to decide as the ones before it are put right.
#[test]
fn the_refusals_come_in_their_order() {
    let rows = [0, 0, 0, 0, MOST_VALUE + 1];
    let run_0 = with_run(0);
    assert_eq!(first_clear(0, 1, &[], &run_0), refused(OutOfRange));
    assert_eq!(first_clear(1, 241, &[], &run_0), refused(OutOfRange));
    assert_eq!(first_clear(1, 1, &[], &run_0), refused(BufferTooShort));
    let four_places = &rows[..4];
    assert_eq!(
        first_clear(1, 1, four_places, &run_0),
        refused(BufferTooShort)
    );
    assert_eq!(first_clear(1, 1, &rows, &run_0), refused(QueryOutOfRange));
    assert_eq!(first_clear(1, 1, &rows, &AS_IT_IS), refused(RowOutOfRange));
    assert_eq!(first_clear(1, 0, &rows, &AS_IT_IS), NoRow);
}

#[test]
fn a_query_out_of_range_comes_before_no_rows() {
    let asked = |query| first_clear(1, 0, &[], &query);
    assert_eq!(asked(AS_IT_IS), NoRow);
    assert_eq!(asked(with_run(0)), refused(QueryOutOfRange));
    assert_eq!(asked(with_need(MOST_NEED + 1)), refused(QueryOutOfRange));
    assert_eq!(
        asked(with_weights(&[-MOST_WEIGHT - 1])),
        refused(QueryOutOfRange)
    );
}
