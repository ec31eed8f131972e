//! Which row is certain to clear a need: by which of its parts, to what part of a unit, and at the ends of all ranges
//! together.

use super::{
    AS_IT_IS, MOST_NEED, MOST_VALUE, MOST_WEIGHT, clears_at_end, first_clear, of_lows, of_one,
    with_need, with_weights,
};
use reference::clearance::FirstClear::{NoRow, Row};
use reference::clearance::Query;
use reference::rounding::SCALE;

#[test]
fn a_row_is_certain_at_the_need_itself() {
    let lows = [4, 5, 6];
    assert_eq!(of_lows(&lows, &with_need(4)), Row(1));
    assert_eq!(of_lows(&lows, &with_need(5)), Row(2));
    assert_eq!(of_lows(&lows, &with_need(6)), Row(3));
    assert_eq!(of_lows(&lows, &with_need(7)), NoRow);
}

#[test]
fn the_base_counts_with_the_sum() {
    let with_base = |base, need| Query {
        base,
        need,
        ..AS_IT_IS
    };
    let lows = [4, 5];
    assert_eq!(of_lows(&lows, &with_base(10, 15)), Row(2));
    assert_eq!(of_lows(&lows, &with_base(10, 16)), NoRow);
    assert_eq!(of_lows(&lows, &with_base(-10, -5)), Row(2));
    assert_eq!(of_lows(&lows, &with_base(-10, -4)), NoRow);
}

/// The sum is not brought to units before it is compared: a part of a unit decides.
#[test]
fn the_need_is_met_to_a_part_of_a_unit() {
    let with = |weight, need| Query {
        need,
        ..with_weights(&[weight])
    };
    assert_eq!(of_lows(&[SCALE], &with(1, 1)), Row(1));
    assert_eq!(of_lows(&[SCALE - 1], &with(1, 1)), NoRow);
    assert_eq!(of_lows(&[-SCALE], &with(1, -1)), Row(1));
    assert_eq!(of_lows(&[-SCALE - 1], &with(1, -1)), NoRow);
    assert_eq!(of_lows(&[-1], &with(1, 0)), NoRow);
    assert_eq!(of_one(&[(0, SCALE)], &with(-1, -1)), Row(1));
    assert_eq!(of_one(&[(0, SCALE + 1)], &with(-1, -1)), NoRow);
    assert_eq!(of_one(&[(0, 1)], &with(-1, 0)), NoRow);
    assert_eq!(of_lows(&[3], &with(SCALE / 2, 1)), Row(1));
    assert_eq!(of_lows(&[3], &with(SCALE / 2, 2)), NoRow);
}

#[test]
fn a_positive_weight_takes_the_low() {
    for high in [-MOST_VALUE, 7, MOST_VALUE] {
        assert_eq!(of_one(&[(7, high)], &with_need(7)), Row(1), "{high}");
        assert_eq!(of_one(&[(7, high)], &with_need(8)), NoRow, "{high}");
    }
}

#[test]
fn a_negative_weight_takes_the_high() {
    let with = |need| Query {
        need,
        ..with_weights(&[-SCALE])
    };
    for low in [-MOST_VALUE, -13, MOST_VALUE] {
        assert_eq!(of_one(&[(low, -7)], &with(7)), Row(1), "{low}");
        assert_eq!(of_one(&[(low, -7)], &with(8)), NoRow, "{low}");
        assert_eq!(of_one(&[(low, 13)], &with(-13)), Row(1), "{low}");
        assert_eq!(of_one(&[(low, 13)], &with(-12)), NoRow, "{low}");
    }
}

#[test]
fn a_weight_of_0_takes_neither() {
    let with = |need| Query {
        need,
        ..with_weights(&[0, SCALE])
    };
    for end in [-MOST_VALUE, 0, MOST_VALUE] {
        let row = [7, 0, 0, 0, 0, end, 5, -end, 9];
        assert_eq!(first_clear(2, 1, &row, &with(5)), Row(1), "{end}");
        assert_eq!(first_clear(2, 1, &row, &with(6)), NoRow, "{end}");
    }
}

/// Whatever they are, if they are in their ranges.
#[test]
fn values_and_radii_do_not_count() {
    for value in [-MOST_VALUE, 0, 5, MOST_VALUE] {
        for radius in [0, 1, MOST_VALUE] {
            let row = [7, value, radius, 4, 6];
            let asked = |query| first_clear(1, 1, &row, &query);
            let downward = |need| Query {
                need,
                ..with_weights(&[-SCALE])
            };
            assert_eq!(asked(with_need(4)), Row(1), "{value} {radius}");
            assert_eq!(asked(with_need(5)), NoRow, "{value} {radius}");
            assert_eq!(asked(downward(-6)), Row(1), "{value} {radius}");
            assert_eq!(asked(downward(-5)), NoRow, "{value} {radius}");
        }
    }
}

/// At its end the quantity is 9 to 11, on the way there 3 to 12.
#[test]
fn a_row_that_clears_at_its_end_is_not_certain_for_that() {
    let row = [7, 10, 1, 3, 12];
    for (weight, need_at_end, need) in [(SCALE, 9, 3), (-SCALE, -11, -12)] {
        let with = |need| Query {
            need,
            ..with_weights(&[weight])
        };
        assert!(clears_at_end(&with(need_at_end), &row));
        assert!(!clears_at_end(&with(need_at_end + 1), &row));
        assert_eq!(first_clear(1, 1, &row, &with(need_at_end)), NoRow);
        assert_eq!(first_clear(1, 1, &row, &with(need + 1)), NoRow);
        assert_eq!(first_clear(1, 1, &row, &with(need)), Row(1));
    }
}

#[test]
fn a_low_above_its_high_is_no_refusal() {
    let rows = [(10, -10), (MOST_VALUE, -MOST_VALUE)];
    for weight in [SCALE, -SCALE] {
        let with = |need| Query {
            need,
            ..with_weights(&[weight])
        };
        assert_eq!(of_one(&rows, &with(10)), Row(1));
        assert_eq!(of_one(&rows, &with(11)), Row(2));
    }
}

/// Twice the first quantity less the second: its low and the other's high.
#[test]
fn every_quantity_has_its_weight() {
    let with = |need| Query {
        need,
        ..with_weights(&[2 * SCALE, -SCALE])
    };
    let rows = [0, 100, 40, 6, 5, 92, 33, 107, 46];
    assert_eq!(first_clear(2, 1, &rows, &with(138)), Row(1));
    assert_eq!(first_clear(2, 1, &rows, &with(139)), NoRow);
    let two_rows = [rows, [0, 100, 39, 6, 5, 92, 33, 107, 45]].concat();
    assert_eq!(first_clear(2, 2, &two_rows, &with(139)), Row(2));
}

/// The largest sums there can be, both ways: nothing is lost in them.
#[test]
fn the_ends_of_all_ranges_together() {
    let row = |ends: [i64; 8]| [&[0][..], &[0; 16], &ends, &ends].concat();
    let asked = |row: &[i64], weight, base, need| {
        let query = Query {
            base,
            need,
            ..with_weights(&[weight; 8])
        };
        first_clear(8, 1, row, &query)
    };
    let low = row([-MOST_VALUE; 8]);
    let high = row([MOST_VALUE; 8]);
    assert_eq!(asked(&low, MOST_WEIGHT, -MOST_NEED, MOST_NEED), NoRow);
    assert_eq!(asked(&low, MOST_WEIGHT, MOST_NEED, -MOST_NEED), NoRow);
    assert_eq!(asked(&high, MOST_WEIGHT, -MOST_NEED, MOST_NEED), Row(1));
    assert_eq!(asked(&high, -MOST_WEIGHT, MOST_NEED, -MOST_NEED), NoRow);
    assert_eq!(asked(&low, -MOST_WEIGHT, -MOST_NEED, MOST_NEED), Row(1));
    let mut ends = [MOST_VALUE; 8];
    ends[4..].fill(-MOST_VALUE);
    let cancelling = row(ends);
    for weight in [-MOST_WEIGHT, MOST_WEIGHT] {
        let asked = |base| asked(&cancelling, weight, base, MOST_NEED);
        assert_eq!(asked(MOST_NEED), Row(1));
        assert_eq!(asked(MOST_NEED - 1), NoRow);
    }
}
