//! The random rows and queries reach what they are made for: every kind of answer, and both sides of every edge, each by
//! hundreds.

use super::clears_at_end;
use super::random::{COUNT, VALUE_END, counted_rows, first_clear_at_end, in_range, passed};
use reference::clearance::{
    FirstClear, NEED, ROW_VALUE, WEIGHT, first_clear, is_certain, least_clearance,
};
use reference::compare::ClearTally;
use reference::generate::clearance::{QueryTrial, QueryTrials};
use reference::rounding::SCALE;
use reference::rows::{self, Parts};
use reference::sheet::Refusal;
use std::collections::BTreeMap;

const LEAST: usize = 200;

const WEIGHT_END: i64 = *WEIGHT.end();
const NEED_END: i64 = *NEED.end();

/// A part of a row, and the low end of its range.
struct Part {
    name: &'static str,
    of: fn(Parts) -> &[i64],
    low: i64,
}

const fn part(name: &'static str, of: fn(Parts) -> &[i64], low: i64) -> Part {
    Part { name, of, low }
}

const PARTS: [Part; 4] = [
    part("value", |row| row.values, -VALUE_END),
    part("radius", |row| row.radii, 0),
    part("low", |row| row.lows, -VALUE_END),
    part("high", |row| row.highs, -VALUE_END),
];

/// The edges that a trial meets, by name.
struct Edges {
    met: BTreeMap<String, usize>,
}

impl Edges {
    /// Counts an edge; one that is never met stands there with 0.
    fn count(&mut self, edge: &str, met: bool) {
        *self.met.entry(edge.to_string()).or_default() += usize::from(met);
    }

    fn meet(&mut self, trial: &QueryTrial) {
        let answer = trial.answer();
        self.meet_sizes(trial, answer);
        self.meet_query(trial, answer);
        self.meet_order(trial, answer);
        self.meet_numbers(trial, answer);
        self.meet_ends(trial, answer);
        self.meet_runs(trial, answer);
    }

    fn meet_sizes(&mut self, trial: &QueryTrial, answer: FirstClear) {
        let QueryTrial { n, count, .. } = *trial;
        let is_3 = answer == FirstClear::Refused(Refusal::OutOfRange);
        self.count("n 0", is_3 && n == 0);
        self.count("n 1", !is_3 && n == 1);
        self.count("n 8", !is_3 && n == 8);
        self.count("n 9", is_3 && n == 9);
        self.count("n huge", is_3 && n > 1 << 32);
        self.count("count 0", answer == FirstClear::NoRow && count == 0);
        self.count("count 240", !is_3 && count == 240);
        self.count("count 241", is_3 && count == 241);
        self.count("count huge", is_3 && count >= 1 << 32);
        if !is_3 {
            let needed = count * rows::width(n);
            let found = matches!(answer, FirstClear::Row(_));
            let is_5 = answer == FirstClear::Refused(Refusal::BufferTooShort);
            self.count("places just enough", found && trial.rows.len() == needed);
            self.count("places to spare", found && trial.rows.len() > needed);
            self.count("a place short", is_5 && trial.rows.len() + 1 == needed);
        }
    }

    /// The ends of the query's ranges, where they are asked and pass; and one beyond, where that is refused.
    fn meet_query(&mut self, trial: &QueryTrial, answer: FirstClear) {
        let is_9 = answer == FirstClear::Refused(Refusal::QueryOutOfRange);
        let passed = passed(answer);
        if !(is_9 || passed) {
            return;
        }
        let query = &trial.query;
        let (weights, past) = query.weights.split_at(trial.n);
        let any = |end: i64| weights.contains(&end);
        self.count("weight at its low end", passed && any(-WEIGHT_END));
        self.count("weight at its high end", passed && any(WEIGHT_END));
        self.count("weight below", is_9 && any(-WEIGHT_END - 1));
        self.count("weight above", is_9 && any(WEIGHT_END + 1));
        let spoilt = past.iter().any(|weight| !WEIGHT.contains(weight));
        self.count("weight past n out of range", passed && spoilt);
        self.count("base at its low end", passed && query.base == -NEED_END);
        self.count("base at its high end", passed && query.base == NEED_END);
        self.count("base below", is_9 && query.base == -NEED_END - 1);
        self.count("base above", is_9 && query.base == NEED_END + 1);
        self.count("need at its low end", passed && query.need == -NEED_END);
        self.count("need at its high end", passed && query.need == NEED_END);
        self.count("need below", is_9 && query.need == -NEED_END - 1);
        self.count("need above", is_9 && query.need == NEED_END + 1);
        self.count("run 0", is_9 && query.run == 0);
        self.count("run 1", passed && query.run == 1);
        self.count("run 240", passed && query.run == 240);
        self.count("run 241", is_9 && query.run == 241);
        self.count("run huge", is_9 && query.run >= 1 << 32);
    }

    /// Trials that meet two refusals, or one where there are no rows.
    fn meet_order(&mut self, trial: &QueryTrial, answer: FirstClear) {
        let QueryTrial { n, count, .. } = *trial;
        let refusal = match answer {
            FirstClear::Refused(refusal) => refusal,
            _ => return,
        };
        // With one quantity and no rows only the query is asked.
        let query_refused = first_clear(1, 0, &[], &trial.query) != FirstClear::NoRow;
        if refusal == Refusal::OutOfRange {
            let short = (1..=8).contains(&n) && trial.rows.len() / rows::width(n) < count;
            self.count("3 before 5", short);
            self.count("3 before 9", query_refused);
            return;
        }
        let mut rows = trial.rows.chunks_exact(rows::width(n)).take(count);
        let row_refused = rows.any(|row| !in_range(row));
        match refusal {
            Refusal::BufferTooShort => {
                self.count("5 before 9", query_refused);
                self.count("5 before 10", row_refused);
            }
            Refusal::QueryOutOfRange => {
                self.count("9 before 10", row_refused);
                self.count("9 before no rows", count == 0);
            }
            _ => {}
        }
    }

    /// The ends of the ranges of a row's parts in the counted rows, and what is not asked.
    fn meet_numbers(&mut self, trial: &QueryTrial, answer: FirstClear) {
        let QueryTrial { n, count, .. } = *trial;
        let is_10 = answer == FirstClear::Refused(Refusal::RowOutOfRange);
        let passed = passed(answer);
        if !(is_10 || passed) {
            return;
        }
        let (counted, past) = trial.rows.split_at(count * rows::width(n));
        let counted: Vec<&[i64]> = counted.chunks_exact(rows::width(n)).collect();
        for Part { name, of, low } in PARTS {
            let numbers = || counted.iter().map(|row| of(rows::parts(row)));
            let has = |number| numbers().any(|numbers| numbers.contains(&number));
            let weightless = |number| {
                let mut weighed = numbers().flat_map(|row| row.iter().zip(&trial.query.weights));
                weighed.any(|pair| pair == (&number, &0))
            };
            let mut count = |edge, met| self.count(&format!("{name} {edge}"), met);
            count("at its low end", passed && has(low));
            count("at its high end", passed && has(VALUE_END));
            count("below", is_10 && has(low - 1));
            count("above", is_10 && has(VALUE_END + 1));
            count("of 64 bits", is_10 && has(i64::MIN));
            count("below, of weight 0", is_10 && weightless(low - 1));
            count("above, of weight 0", is_10 && weightless(VALUE_END + 1));
        }
        let any = |holds: &dyn Fn(Parts) -> bool| counted.iter().any(|row| holds(rows::parts(row)));
        let degree = |row: &&[i64]| !(-VALUE_END..=VALUE_END).contains(&row[0]);
        self.count("any degree", passed && counted.iter().any(degree));
        let crossed = |row: Parts| row.lows.iter().zip(row.highs).any(|(low, high)| low > high);
        self.count("a low above its high", passed && any(&crossed));
        let junk = past.iter().any(|place| !ROW_VALUE.contains(place));
        self.count("any number past the count", passed && junk);
        if let Some(bad) = counted.iter().position(|row| !in_range(row)) {
            let before = first_clear(n, bad, &trial.rows, &trial.query);
            self.count("10 in the first row", bad == 0);
            self.count("10 in the last row alone", bad + 1 == count);
            self.count("10 after a run", matches!(before, FirstClear::Row(_)));
        }
    }

    /// Rows of which value and radius say something else than low and high do.
    fn meet_ends(&mut self, trial: &QueryTrial, answer: FirstClear) {
        if !passed(answer) {
            return;
        }
        let query = &trial.query;
        let rows = counted_rows(trial);
        let any = |holds: &dyn Fn(&[i64]) -> bool| rows.iter().any(|row| holds(row));
        let at_end_alone = |row: &[i64]| clears_at_end(query, row) && !is_certain(query, row);
        let within_alone = |row: &[i64]| is_certain(query, row) && !clears_at_end(query, row);
        self.count("clear at the end alone", any(&at_end_alone));
        self.count("certain, not clear at the end", any(&within_alone));
        let other = answer != first_clear_at_end(trial);
        self.count("another answer by values and radii", other);
        let weights = &query.weights[..trial.n];
        let found = matches!(answer, FirstClear::Row(_));
        let (up, down) = (
            weights.iter().any(|&weight| weight > 0),
            weights.iter().any(|&weight| weight < 0),
        );
        self.count("a run by lows alone", found && up && !down);
        self.count("a run by highs alone", found && down && !up);
        self.count("a run by lows and highs", found && up && down);
    }

    /// By how much rows are certain, and where the run stands among those that are.
    fn meet_runs(&mut self, trial: &QueryTrial, answer: FirstClear) {
        let QueryTrial { n, count, .. } = *trial;
        if !passed(answer) {
            return;
        }
        let run = trial.query.run;
        let need = i128::from(trial.query.need) * i128::from(SCALE);
        let rows = trial.rows.chunks_exact(rows::width(n)).take(count);
        let margins = rows.map(|row| least_clearance(&trial.query, row) - need);
        let margins: Vec<i128> = margins.collect();
        let unit = i128::from(SCALE);
        match answer {
            FirstClear::Row(row) => {
                let (before, rest) = margins.split_at(row - 1);
                let stretches: Vec<&[i128]> = before.split(|&margin| margin < 0).collect();
                let gap = stretches.iter().any(|stretch| !stretch.is_empty());
                let one_short = stretches.iter().any(|stretch| stretch.len() == run - 1);
                self.count("opened by 0", rest[0] == 0);
                self.count("opened by one part", rest[0] == 1);
                self.count("opened by less than a unit", (2..unit).contains(&rest[0]));
                self.count("held by 0", rest[1..run].contains(&0));
                self.count("the row before short by one part", before.ends_with(&[-1]));
                self.count("row 1", row == 1);
                self.count("a later row", row > 1);
                self.count("after a gap", gap);
                self.count("after a stretch one short", run > 1 && one_short);
                self.count("at the very end", row > 1 && row + run - 1 == count);
                self.count("all rows", run > 1 && run == count);
                self.count("a run of 40 and more", run >= 40);
            }
            _ => {
                let stretches = margins.split(|&margin| margin < 0);
                let lengths: Vec<usize> = stretches.map(<[i128]>::len).collect();
                let longest = lengths.iter().copied().max().unwrap_or(0);
                let one_short = |length| run > 1 && length == run - 1;
                let all = count > 0 && longest == count;
                self.count("no row certain", count > 0 && longest == 0);
                self.count("all certain, the run longer", all && run > count);
                self.count("the longest stretch one short", one_short(longest));
                let last = lengths.last().copied().unwrap_or(0);
                self.count("one short at the very end", one_short(last));
                self.count("short by one part", margins.contains(&-1));
                let by_less = margins.iter().any(|margin| (-unit..-1).contains(margin));
                self.count("short by less than a unit", by_less);
            }
        }
    }
}

#[test]
fn every_kind_of_answer_and_every_edge_is_met_by_hundreds() {
    let mut tally = ClearTally::default();
    let mut edges = Edges {
        met: BTreeMap::new(),
    };
    for trial in QueryTrials::from_seed(1).take(COUNT) {
        tally.count(trial.answer());
        edges.meet(&trial);
    }
    println!("{tally:?}");
    for (edge, count) in &edges.met {
        println!("{edge}: {count}");
    }
    assert!(tally.rows.min(tally.none) >= COUNT / 8);
    let refused: Vec<usize> = tally.refused.keys().copied().collect();
    assert_eq!(refused, [3, 5, 9, 10]);
    assert!(tally.refused.values().all(|&count| count >= COUNT / 40));
    for (edge, count) in edges.met {
        assert!(count >= LEAST, "{edge}: {count}");
    }
}
