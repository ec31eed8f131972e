//! What the gallery's rows say: the first row that is certain, in shorter steps too, and the rows that clear a need at
//! their end alone.

use super::{clears_at_end, first_clear};
use reference::clearance::FirstClear::{self, NoRow, Row};
use reference::clearance::{Query, is_certain};
use reference::passage;
use reference::rounding::SCALE;
use reference::rows;
use reference::sheet::{MOST_QUANTITIES, Sheet, read};

/// The rows of a gallery sheet and a query of them.
struct Gallery {
    n: usize,
    rows: Vec<i64>,
    query: Query,
}

impl Gallery {
    /// Asks for metres (or metres a second) with a weight in wholes for each of some quantities.
    fn ask(sheet: &[u8], weights: &[(usize, i64)], base: i64, need: i64) -> Self {
        Self::ask_of(&read(sheet).unwrap(), weights, base, need)
    }

    fn ask_of(sheet: &Sheet, weights: &[(usize, i64)], base: i64, need: i64) -> Self {
        let mut rows = vec![0; sheet.places()];
        passage::run(sheet, &mut rows).unwrap();
        let mut query = Query {
            weights: [0; MOST_QUANTITIES],
            base: base * SCALE,
            need: need * SCALE,
            run: 1,
        };
        for &(quantity, wholes) in weights {
            query.weights[quantity - 1] = wholes * SCALE;
        }
        let n = sheet.starts.len();
        Gallery { n, rows, query }
    }

    fn rows(&self) -> impl Iterator<Item = &[i64]> {
        self.rows.chunks_exact(rows::width(self.n))
    }

    /// The first of so many certain rows in a row.
    fn first(&self, run: usize) -> FirstClear {
        let query = Query {
            run,
            ..self.query.clone()
        };
        first_clear(self.n, self.rows().count(), &self.rows, &query)
    }

    /// The rows that clear the need at their end, but are not certain to do so all through their step.
    fn clear_at_end_alone(&self) -> Vec<usize> {
        let rows = self.rows().zip(1..);
        let query = &self.query;
        rows.filter(|(row, _)| clears_at_end(query, row) && !is_certain(query, row))
            .map(|(_, number)| number)
            .collect()
    }
}

/// The value passes one metre at row 25, the value less the radius at row 28, the low at row 30.
#[test]
fn approach_over_sill() {
    let sheet = include_bytes!("../../../sheets/approach-over-sill.sheet");
    let clearance = |base, need| Gallery::ask(sheet, &[(5, 1)], base, need);
    assert_eq!(clearance(0, 1).first(1), Row(30));
    assert_eq!(clearance(0, 1).first(2), NoRow);
    assert_eq!(clearance(0, 1).clear_at_end_alone(), [28, 29]);
    assert_eq!(clearance(0, 2).first(1), NoRow);
    assert_eq!(clearance(1, 2).first(1), Row(30));
    let mut by_squat = clearance(0, 1);
    by_squat.query.weights[3] = -SCALE / 2;
    assert_eq!(by_squat.first(1), NoRow);
    assert_eq!(by_squat.clear_at_end_alone(), [30]);
}

/// In shorter steps over the same half hour the low is nearer to the water, and the metre is certain earlier.
#[test]
fn approach_over_sill_in_shorter_steps() {
    let whole = read(include_bytes!("../../../sheets/approach-over-sill.sheet")).unwrap();
    for (parts, certain, at_end) in [(1, 30, 28), (2, 57, 55), (4, 112, 110), (8, 221, 219)] {
        let sheet = Sheet {
            steps: whole.steps * parts,
            step: whole.step / parts,
            ..whole.clone()
        };
        let metre = Gallery::ask_of(&sheet, &[(5, 1)], 0, 1);
        assert_eq!(metre.first(1), Row(certain), "{parts}");
        assert_eq!(metre.clear_at_end_alone(), Vec::from_iter(at_end..certain));
    }
}

/// By the gauge the value passes two metres at row 7, the value less the radius at row 8, the low at row 10. The two
/// constituents over a mean level of 4 m are known better, but their lows are no higher.
#[test]
fn tide_over_sill() {
    let sheet = include_bytes!("../../../sheets/tide-over-sill.sheet");
    let by_gauge = |need| Gallery::ask(sheet, &[(5, 1)], 0, need);
    assert_eq!(by_gauge(2).first(6), Row(10));
    assert_eq!(by_gauge(2).clear_at_end_alone(), [8, 9]);
    assert_eq!(by_gauge(3).first(6), Row(16));
    assert_eq!(by_gauge(6).first(4), Row(33));
    assert_eq!(by_gauge(6).first(5), NoRow);
    let by_constituents = |need| Gallery::ask(sheet, &[(1, 1), (3, 1)], 4, need);
    assert_eq!(by_constituents(2).first(6), Row(10));
    assert_eq!(by_constituents(2).clear_at_end_alone(), [7, 8, 9]);
    assert_eq!(by_constituents(3).first(6), Row(16));
}

/// Rows back from the reading. The first 28 have two metres, the last five have at most two, and rows 29 to 31 are
/// certain of neither. Going back the water falls and the low is where it falls to, so no row loses by it.
#[test]
fn mark_at_quay() {
    let sheet = include_bytes!("../../../sheets/mark-at-quay.sheet");
    let at_least = Gallery::ask(sheet, &[(5, 1)], 0, 2);
    assert_eq!(at_least.first(28), Row(1));
    assert_eq!(at_least.first(29), NoRow);
    assert_eq!(at_least.clear_at_end_alone(), [0; 0]);
    let at_most = Gallery::ask(sheet, &[(5, -1)], 0, -2);
    assert_eq!(at_most.first(1), Row(32));
    assert_eq!(at_most.first(5), Row(32));
    assert_eq!(at_most.first(6), NoRow);
    assert_eq!(at_most.clear_at_end_alone(), [30, 31]);
}

/// At most 3 m/s: by the speed at row 23, by three times the slowness, which is known better, at row 19.
#[test]
fn ship_losing_way() {
    let sheet = include_bytes!("../../../sheets/ship-losing-way.sheet");
    let by_speed = Gallery::ask(sheet, &[(1, -1)], 0, -3);
    assert_eq!(by_speed.first(1), Row(23));
    assert_eq!(by_speed.clear_at_end_alone(), [20, 21, 22]);
    let by_slowness = Gallery::ask(sheet, &[(3, 3)], 0, 1);
    assert_eq!(by_slowness.first(1), Row(19));
    assert_eq!(by_slowness.clear_at_end_alone(), [17, 18]);
}

/// Low water in the middle of the step: value less radius is 2.2 m at both its ends, and there may be 2.16 m between.
#[test]
fn over_low_water() {
    let sheet = include_bytes!("../../../sheets/over-low-water.sheet");
    let with_centimetres = |need| {
        let mut gallery = Gallery::ask(sheet, &[(3, 1)], 0, 0);
        gallery.query.need = need * SCALE / 100;
        gallery
    };
    assert_eq!(with_centimetres(219).first(1), NoRow);
    assert_eq!(with_centimetres(219).clear_at_end_alone(), [1]);
    assert_eq!(with_centimetres(187).first(1), Row(1));
    assert_eq!(with_centimetres(188).first(1), NoRow);
}
