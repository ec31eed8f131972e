//! The random sheets reach what they are made for: every result, and both sides of every edge, by
//! forecasts and by hindcasts.

use reference::compare::{Outcome, Tally, reference};
use reference::generate::{Trial, Trials, written};
use reference::passage::{run, start};
use reference::rounding::SCALE_SIZE;
use reference::rows;
use reference::sheet::{LIMIT, MOST_BYTES, Refusal, Sheet, read, text};
use reference::step::{MOST_RATIO, State, advance, ratio};
use std::collections::HashMap;

const COUNT: usize = 20_000;

/// How many steps met each edge.
#[derive(Debug, Default)]
struct Edges {
    ratio_at_one_half: usize,
    ratio_one_unit_over: usize,
    radius_at_tol: usize,
    radius_one_unit_over: usize,
    size_at_limit: usize,
    size_one_unit_over: usize,
    size_at_limit_later: usize,
    size_one_unit_over_later: usize,
    degree_28: usize,
}

impl Edges {
    fn least(&self) -> usize {
        let counts = [
            self.ratio_at_one_half,
            self.ratio_one_unit_over,
            self.radius_at_tol,
            self.radius_one_unit_over,
            self.size_at_limit,
            self.size_one_unit_over,
            self.size_at_limit_later,
            self.size_one_unit_over_later,
            self.degree_28,
        ];
        counts.into_iter().min().unwrap()
    }

    fn meet(&mut self, sheet: &Sheet) {
        let roomy = Sheet {
            tol: LIMIT,
            ..sheet.clone()
        };
        let mut state = start(sheet);
        for number in 1..=sheet.steps {
            let size = largest_size(&state);
            let later = usize::from(number > 1);
            self.size_at_limit += usize::from(size == LIMIT as u64);
            self.size_one_unit_over += usize::from(size == LIMIT as u64 + 1);
            self.size_at_limit_later += later * usize::from(size == LIMIT as u64);
            self.size_one_unit_over_later += later * usize::from(size == LIMIT as u64 + 1);
            if size > LIMIT as u64 {
                return;
            }
            let ratio = ratio(sheet, size.max(SCALE_SIZE));
            self.ratio_at_one_half += usize::from(ratio == MOST_RATIO);
            self.ratio_one_unit_over += usize::from(ratio == MOST_RATIO + 1);
            let row = match advance(&roomy, &state) {
                Ok(row) => row,
                Err(_) => return,
            };
            let widest = row.state.radii.into_iter().max().unwrap();
            self.radius_at_tol += usize::from(widest == sheet.tol as u64);
            self.radius_one_unit_over += usize::from(widest == sheet.tol as u64 + 1);
            if widest > sheet.tol as u64 {
                return;
            }
            self.degree_28 += usize::from(row.degree == 28);
            state = row.state;
        }
    }
}

fn largest_size(state: &State) -> u64 {
    let sizes = state.values.iter().zip(&state.radii);
    let sizes = sizes.map(|(value, radius)| value.unsigned_abs() + radius);
    sizes.max().unwrap()
}

/// What the sheets of one direction met.
#[derive(Debug, Default)]
struct Met {
    sheets: usize,
    rows: usize,
    tally: Tally,
    edges: Edges,
    longest: usize,
    one_byte_longer: usize,
    texts: Texts,
}

/// How the texts stood to the bytes lent for them.
#[derive(Debug, Default)]
struct Texts {
    cut_in_a_row: usize,
    cut_in_the_outcome: usize,
    bytes_to_spare: usize,
}

impl Texts {
    fn least(&self) -> usize {
        let counts = [
            self.cut_in_a_row,
            self.cut_in_the_outcome,
            self.bytes_to_spare,
        ];
        counts.into_iter().min().unwrap()
    }

    fn meet(&mut self, outcome: &Outcome) {
        let text = String::from_utf8_lossy(&outcome.text);
        let (rows, lent) = (text.rfind("result=").unwrap(), outcome.lent.held.len());
        let cut = lent < text.len();
        self.cut_in_a_row += usize::from(cut && lent < rows);
        self.cut_in_the_outcome += usize::from(cut && lent >= rows);
        self.bytes_to_spare += usize::from(lent > text.len());
    }
}

impl Met {
    fn meet(&mut self, trial: &Trial) {
        let outcome = reference(trial, -1);
        self.texts.meet(&outcome);
        self.sheets += 1;
        self.rows += outcome.ending().rows;
        self.tally.count(&outcome);
        self.longest += usize::from(trial.sheet.len() == MOST_BYTES);
        self.one_byte_longer += usize::from(trial.sheet.len() == MOST_BYTES + 1);
        if let Ok(sheet) = read(&trial.sheet) {
            self.edges.meet(&sheet);
        }
    }
}

/// The number of a sheet's line `step=`, however it is spelt; nothing where there is no such line.
fn step_spelling(sheet: &[u8]) -> &[u8] {
    let mut lines = sheet.split(|&byte| byte == b'\n');
    lines
        .find_map(|line| line.strip_prefix(b"step="))
        .unwrap_or_default()
}

#[test]
fn every_result_and_every_edge_is_met_by_hundreds_of_each_direction() {
    let (mut forecasts, mut hindcasts) = (Met::default(), Met::default());
    for trial in Trials::from_seed(1).take(COUNT) {
        if step_spelling(&trial.sheet).starts_with(b"-") {
            hindcasts.meet(&trial);
        } else {
            forecasts.meet(&trial);
        }
    }
    for met in [forecasts, hindcasts] {
        println!("{met:?}");
        assert!(met.sheets >= COUNT / 3);
        assert!(met.rows >= 20_000);
        assert!(met.tally.results.into_iter().all(|count| count >= 200));
        assert!(met.edges.least() >= 200);
        assert!(met.longest.min(met.one_byte_longer) >= 200);
        assert!(met.texts.least() >= 200);
    }
}

#[test]
fn the_ends_of_a_steps_range_and_its_misspellings_are_met() {
    let mut met: HashMap<Vec<u8>, usize> = HashMap::new();
    for trial in Trials::from_seed(1).take(COUNT) {
        let spelling = step_spelling(&trial.sheet).to_vec();
        *met.entry(spelling).or_default() += 1;
    }
    let range = "-16777217 -16777216 -1 0 1 16777216 16777217".split(' ');
    let misspellings = "-0 -07 -1000000000 none".split(' ');
    for spelling in range.chain(misspellings) {
        let count = met.get(spelling.as_bytes()).copied().unwrap_or(0);
        println!("step={spelling}: {count}");
        assert!(count >= 5, "step={spelling}: {count}");
    }
}

/// The sheet with its step in the other direction.
fn turned_round(sheet: &Sheet) -> Sheet {
    Sheet {
        step: -sheet.step,
        ..sheet.clone()
    }
}

/// Every size takes the step's length, and `near` does the same on both sides of 0: the first step back
/// has the degree, the radii, the lows and the highs, or the refusal, of the first step forward.
#[test]
fn a_first_step_is_as_wide_forward_and_back() {
    let first_step = |sheet: &Sheet| {
        let row = advance(sheet, &start(sheet))?;
        Ok::<_, Refusal>((row.degree, row.state.radii, row.lows, row.highs))
    };
    let sheets = Trials::from_seed(4).take(5000);
    for sheet in sheets.filter_map(|trial| read(&trial.sheet).ok()) {
        let turned = turned_round(&sheet);
        assert_eq!(first_step(&sheet), first_step(&turned), "{sheet:?}");
    }
}

/// Low and high lie equally far from the value that the step starts from. Between them lie both its ends, with
/// their radii; and no number of a row has more than 2^31 units.
#[test]
fn both_ends_of_a_step_lie_between_low_and_high() {
    const MOST: i64 = 1 << 31;
    let mut steps = 0;
    for trial in Trials::from_seed(6).take(5000) {
        let sheet = match read(&trial.sheet) {
            Ok(sheet) => sheet,
            Err(_) => continue,
        };
        let before = start(&sheet);
        let n = sheet.starts.len();
        let mut values = before.values[..n].to_vec();
        let mut radii: Vec<i64> = before.radii[..n].iter().map(|&r| r as i64).collect();
        for row in written(&sheet) {
            let row = rows::parts(&row);
            for i in 0..n {
                let (low, high) = (row.lows[i], row.highs[i]);
                assert_eq!(high - values[i], values[i] - low);
                for (value, radius) in [(values[i], radii[i]), (row.values[i], row.radii[i])] {
                    assert!(low <= value - radius && value + radius <= high);
                }
                assert!(-MOST <= low && high <= MOST);
            }
            values = row.values.to_vec();
            radii = row.radii.to_vec();
            steps += 1;
        }
    }
    println!("{steps} steps");
    assert!(steps >= 5000);
}

/// Going back along some rates is going forward along the opposite ones.
#[test]
fn a_passage_is_the_same_with_its_step_and_all_coefficients_turned_round() {
    let sheets = Trials::from_seed(5).take(5000);
    for sheet in sheets.filter_map(|trial| read(&trial.sheet).ok()) {
        let mut turned = turned_round(&sheet);
        for term in &mut turned.terms {
            term.coef = -term.coef;
        }
        let rows = |sheet: &Sheet| {
            let mut rows = vec![i64::MIN; sheet.places()];
            (run(sheet, &mut rows), rows)
        };
        assert_eq!(rows(&sheet), rows(&turned), "{sheet:?}");
    }
}

#[test]
fn a_seed_always_gives_the_same_sheets() {
    let some = |seed| Trials::from_seed(seed).take(50).collect::<Vec<Trial>>();
    assert_eq!(some(7), some(7));
    assert_ne!(some(7), some(8));
}

#[test]
fn a_sheet_printed_is_read_back() {
    let sheets = Trials::from_seed(2).take(2000);
    for sheet in sheets.filter_map(|trial| read(&trial.sheet).ok()) {
        assert_eq!(read(&text(&sheet)), Ok(sheet));
    }
}

/// Document 01: the places past the rows written never change, whatever the refusal.
#[test]
fn other_places_are_unchanged() {
    let mark = i64::MIN;
    for trial in Trials::from_seed(3).take(5000) {
        let sheet = match read(&trial.sheet) {
            Ok(sheet) => sheet,
            Err(_) => {
                assert!(reference(&trial, mark).rows.iter().all(|&p| p == mark));
                continue;
            }
        };
        let mut rows = vec![mark; trial.places];
        let written = match run(&sheet, &mut rows) {
            Ok(()) => sheet.steps as usize,
            Err(refused) => refused.at.saturating_sub(1),
        };
        let (rows, others) = rows.split_at(written * sheet.row_places());
        assert!(rows.iter().all(|&p| p != mark));
        assert!(others.iter().all(|&p| p == mark));
    }
}
