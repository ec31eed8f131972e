//! Values of nine and ten digits, close to 10^9 on either side and far from it, with either sign, and such
//! lows and highs: they are met in good number, and both programs print them alike where the proved planner
//! is linked.

use reference::compare::both;
use reference::generate::{Trial, of_long_numbers};
use reference::random::Random;
use reference::sheet::text;

const COUNT: usize = 2000;
const LEAST_OF_TEN_DIGITS: i64 = 1_000_000_000;

/// How many numbers of one key and sign were met.
#[derive(Debug, Default)]
struct Met {
    nine_digits: usize,
    ten_digits: usize,
    close_below: usize,
    close_above: usize,
}

impl Met {
    fn meet(&mut self, size: i64) {
        let above = size - LEAST_OF_TEN_DIGITS;
        self.nine_digits += usize::from(above < 0);
        self.ten_digits += usize::from(above >= 0);
        self.close_below += usize::from((-20..0).contains(&above));
        self.close_above += usize::from((0..20).contains(&above));
    }
}

/// The number of a line with this key.
fn number(line: &str, key: &str) -> Option<i64> {
    let number = line.strip_prefix(key)?.strip_prefix('=')?;
    number.parse().ok()
}

/// What a sheet's numbers of one key were.
fn meet(text: &str, key: &str, positive: &mut Met, negative: &mut Met) {
    for number in text.lines().filter_map(|line| number(line, key)) {
        if number < 0 {
            negative.meet(-number);
        } else {
            positive.meet(number);
        }
    }
}

#[test]
fn numbers_of_nine_and_ten_digits_are_printed_alike() {
    let mut random = Random::from_seed(1);
    let [mut values, mut lows, mut highs]: [[Met; 2]; 3] = Default::default();
    for mark in 1..=COUNT as i64 {
        let sheet = of_long_numbers(&mut random);
        let trial = Trial {
            places: sheet.places(),
            sheet: text(&sheet),
        };
        let outcome = both(&trial, mark).unwrap_or_else(|differing| panic!("{differing:?}"));
        let text = String::from_utf8_lossy(&outcome.text);
        for (key, [positive, negative]) in [
            ("value", &mut values),
            ("low", &mut lows),
            ("high", &mut highs),
        ] {
            meet(&text, key, positive, negative);
        }
    }
    for met in &values {
        println!("{met:?}");
        assert!(met.nine_digits.min(met.ten_digits) >= 1000);
        assert!(met.close_below.min(met.close_above) >= 20);
    }
    // A low lies above 10^9 nowhere, nor a high below -10^9.
    for met in [&lows[1], &highs[0]] {
        println!("{met:?}");
        assert!(met.nine_digits.min(met.ten_digits) >= 1000);
    }
}
