//! The conversion of a stored sheet, at worked cases and at random. Where the proved planner is linked, it is held to every
//! case too.

mod random;
mod worked_cases;

use reference::compare::{Converted, both_converted};
use reference::conversion::Conversion;
use reference::generate::conversion::StoredTrial;
use reference::passage::{Refused, carry};
use reference::sheet::{MOST_PLACES, Sheet, start, term, text};

const MARK: i64 = i64::MIN;
const WHOLE: i64 = 1 << 24;

/// A quantity that rises by a thousandth of a whole at each step, and one that stands.
fn rising(steps: i64) -> Sheet {
    Sheet {
        steps,
        step: WHOLE / 1000,
        tail: 2,
        tol: 1 << 29,
        starts: vec![start(0, 3), start(WHOLE, 0)],
        terms: vec![term(1, WHOLE, 0, 0)],
    }
}

/// What this program makes of a stored sheet with so many places and, where it is linked, the proved planner too: a
/// difference fails the test.
fn convert(stored: &[u8], places: usize) -> (Conversion, Converted) {
    let trial = StoredTrial {
        sheet: stored.to_vec(),
        places,
        chance: 8 * 40 + 7,
    };
    let both = both_converted(&trial, MARK);
    both.unwrap_or_else(|differing| panic!("{}\n{differing:?}", String::from_utf8_lossy(stored)))
}

fn conversion(sheet: &Sheet) -> Conversion {
    convert(&text(sheet), MOST_PLACES).0
}

fn printed(stored: &[u8]) -> String {
    let (_, converted) = convert(stored, MOST_PLACES);
    String::from_utf8(converted.text().to_vec()).unwrap()
}

fn refused(result: u8, at: usize) -> String {
    format!("result={result}\nat={at}\n")
}

/// A long passage's rows and outcome, all of its steps taken at once.
fn long_passage(sheet: &Sheet) -> (Vec<i64>, Result<(), Refused>) {
    let mut rows = vec![MARK; sheet.places()];
    let outcome = carry(sheet, &mut rows);
    rows.retain(|&place| place != MARK);
    (rows, outcome)
}

/// The two parts of a long sheet, which must have its rows and its outcome.
fn parts(sheet: &Sheet) -> [Sheet; 2] {
    let parts = match conversion(sheet) {
        Conversion::Split(parts) => parts,
        _ => panic!("not split: {sheet:?}"),
    };
    let [first, second] = *parts;
    assert_eq!(first.check().and(second.check()), Ok(()));
    let (mut rows, outcome) = long_passage(&first);
    assert_eq!(outcome, Ok(()));
    let (more, outcome) = long_passage(&second);
    rows.extend(more);
    let later = |Refused { refusal, at }| Refused {
        refusal,
        at: 240 + at,
    };
    assert_eq!((rows, outcome.map_err(later)), long_passage(sheet));
    [first, second]
}
