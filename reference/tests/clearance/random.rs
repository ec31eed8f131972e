//! The random rows and queries of passages: a certain row clears at its end too, and no row that a passage writes is out of
//! range. Also what both files of random queries work with.

use super::clears_at_end;
use reference::clearance::{FirstClear, Query, ROW_VALUE, is_certain};
use reference::compare::ClearTally;
use reference::generate::clearance::{QueryTrial, QueryTrials};
use reference::generate::{at_the_limit_from_the_start, of_long_numbers, written};
use reference::random::Random;
use reference::rows::{self, Parts};
use reference::sheet::LIMIT;

pub const COUNT: usize = 60_000;
pub const VALUE_END: i64 = *ROW_VALUE.end();

/// Whether all questions let a trial pass.
pub fn passed(answer: FirstClear) -> bool {
    !matches!(answer, FirstClear::Refused(_))
}

pub fn in_range(row: &[i64]) -> bool {
    let Parts {
        values,
        radii,
        lows,
        highs,
        ..
    } = rows::parts(row);
    let value = |value: &i64| (-VALUE_END..=VALUE_END).contains(value);
    let radius = |radius: &i64| (0..=VALUE_END).contains(radius);
    [values, lows, highs].into_iter().flatten().all(value) && radii.iter().all(radius)
}

/// The counted rows of a trial that all questions let pass.
pub fn counted_rows(trial: &QueryTrial) -> Vec<&[i64]> {
    let rows = trial.rows.chunks_exact(rows::width(trial.n));
    rows.take(trial.count).collect()
}

/// What the answer to a trial that all questions let pass would be by values and radii.
pub fn first_clear_at_end(trial: &QueryTrial) -> FirstClear {
    let rows = counted_rows(trial);
    let clear: Vec<bool> = rows
        .iter()
        .map(|row| clears_at_end(&trial.query, row))
        .collect();
    let mut runs = clear.windows(trial.query.run);
    let first = runs.position(|run| run.iter().all(|&clear| clear));
    first.map_or(FirstClear::NoRow, |place| FirstClear::Row(place + 1))
}

/// How many rows of passages are certain, and how many clear the need at their end alone.
#[derive(Debug, Default)]
struct Rows {
    certain: usize,
    at_end_alone: usize,
    neither: usize,
}

impl Rows {
    fn count(&mut self, query: &Query, row: &[i64]) {
        let kind = match (is_certain(query, row), clears_at_end(query, row)) {
            (true, true) => &mut self.certain,
            (false, true) => &mut self.at_end_alone,
            (false, false) => &mut self.neither,
            (true, false) => panic!("certain, but not clear at its end: {query:?} {row:?}"),
        };
        *kind += 1;
    }
}

/// A low of a passage's row is no higher than value less radius, and a high no lower than value plus radius.
fn holds_its_end(row: &[i64]) -> bool {
    let Parts {
        values,
        radii,
        lows,
        highs,
        ..
    } = rows::parts(row);
    let ends = lows.iter().zip(highs);
    let mut quantities = values.iter().zip(radii).zip(ends);
    quantities
        .all(|((value, radius), (low, high))| low + radius <= *value && value + radius <= *high)
}

#[test]
fn a_certain_row_of_a_passage_clears_at_its_end() {
    let mut trials = QueryTrials::from_seed(2);
    let mut rows = Rows::default();
    let mut tally = ClearTally::default();
    let mut other_answers = 0;
    for _ in 0..COUNT / 3 {
        let trial = trials.of_a_passage();
        let answer = trial.answer();
        assert!(passed(answer), "{trial:?}");
        for row in counted_rows(&trial) {
            assert!(holds_its_end(row), "{row:?}");
            rows.count(&trial.query, row);
        }
        tally.count(answer);
        other_answers += usize::from(answer != first_clear_at_end(&trial));
    }
    println!("{tally:?}, {other_answers} another answer by values and radii; {rows:?}");
    assert!(tally.rows.min(tally.none) >= COUNT / 20);
    assert!(other_answers >= COUNT / 60);
    let least = rows.certain.min(rows.at_end_alone).min(rows.neither);
    assert!(least >= COUNT / 10, "{rows:?}");
}

/// Passages from the limit of question 4, whose lows and highs lie farthest out: refusal 10 is not for their rows.
#[test]
fn rows_of_passages_are_in_range() {
    let mut random = Random::from_seed(3);
    let mut farthest = 0;
    for _ in 0..COUNT / 20 {
        for sheet in [
            at_the_limit_from_the_start(&mut random),
            of_long_numbers(&mut random),
        ] {
            for row in written(&sheet) {
                assert!(in_range(&row), "{sheet:?}: {row:?}");
                let Parts { lows, highs, .. } = rows::parts(&row);
                let ends = lows.iter().chain(highs);
                farthest = ends.map(|end| end.abs()).fold(farthest, i64::max);
            }
        }
    }
    println!("the farthest low or high: {farthest}");
    assert!(farthest > 2 * LIMIT);
}

#[test]
fn a_seed_always_gives_the_same_queries() {
    let some = |seed| {
        let trials = QueryTrials::from_seed(seed).take(50);
        trials.collect::<Vec<QueryTrial>>()
    };
    assert_eq!(some(7), some(7));
    assert_ne!(some(7), some(8));
}
