//! Random sheets whose terms repeat, swap their factors, cancel or are 0: each kind is met in good number, and both
//! programs give the answer of the gathered terms where the proved planner is linked. The rule over the terms as read,
//! which neither program may follow, gives another answer to many.

use reference::compare::both;
use reference::generate::{Trial, of_like_terms};
use reference::like_terms::{alike, gathered};
use reference::passage::start;
use reference::random::Random;
use reference::rows::{self, Parts};
use reference::sheet::{COEF, MOST_QUANTITIES, Refusal, Sheet, Start, Term, text};
use reference::step::{Row, State, Steps, advance};

const COUNT: usize = 10_000;
const LEAST: usize = 500;

/// What came of a passage: its rows, and 0 or the refusal's number.
#[derive(Debug, PartialEq, Eq)]
struct Run {
    rows: Vec<Vec<i64>>,
    result: u64,
}

impl Run {
    /// What both programs make of a sheet, which must be the same.
    fn of(sheet: &Sheet, mark: i64) -> Self {
        let trial = Trial {
            places: sheet.places(),
            sheet: text(sheet),
        };
        let outcome = both(&trial, mark);
        let outcome = outcome.unwrap_or_else(|differing| panic!("{sheet:?}\n{differing:?}"));
        let rows = outcome.rows.chunks(sheet.row_places());
        let rows = rows.take(outcome.summary.rows as usize);
        Run {
            rows: rows.map(<[i64]>::to_vec).collect(),
            result: outcome.summary.result,
        }
    }

    /// What comes of steps that work with these terms.
    fn by_terms(sheet: &Sheet, terms: &[Term]) -> Self {
        let terms = terms.to_vec();
        let steps = Steps { sheet, terms };
        let mut state = start(sheet);
        let mut rows = Vec::new();
        for _ in 0..sheet.steps {
            match steps.advance(&state) {
                Ok(row) => {
                    rows.push(numbers(sheet, &row));
                    state = row.state;
                }
                Err(refusal) => {
                    let result = refusal as u64;
                    return Run { rows, result };
                }
            }
        }
        Run { rows, result: 0 }
    }

    /// Whether step 1 is refused as too long.
    fn is_too_long(&self) -> bool {
        self.rows.is_empty() && self.result == Refusal::StepTooLong as u64
    }

    fn has_degree_above_0(&self) -> bool {
        self.rows.iter().any(|row| row[0] > 0)
    }
}

/// A row as it stands in the buffer.
fn numbers(sheet: &Sheet, row: &Row) -> Vec<i64> {
    row.numbers(sheet.starts.len()).collect()
}

/// How many sheets of one direction had each thing.
#[derive(Debug, Default)]
struct Met {
    sheets: usize,
    like_terms: usize,
    swapped_factors: usize,
    /// There are terms, and none is left.
    all_gone: usize,
    lone_zeros: usize,
    /// A product's terms come to 0 before the last of them is added, and not with it.
    zero_on_the_way: usize,
    past_the_range: usize,
    /// The same, and rows of degree 1 and higher are written.
    rows_past_the_range: usize,
    /// The terms as read would have another answer.
    answers_differ: usize,
    /// Step 1 passes, and by the terms as read it would be refused as too long.
    passes_gathered_alone: usize,
    /// The gathered terms are all in a sheet's range: a sheet that has these instead has the same answer.
    same_answer_gathered: usize,
    refused_too_long: usize,
    rows: usize,
}

impl Met {
    fn least(&self) -> usize {
        let counts = [
            self.sheets,
            self.like_terms,
            self.swapped_factors,
            self.all_gone,
            self.lone_zeros,
            self.zero_on_the_way,
            self.past_the_range,
            self.rows_past_the_range,
            self.answers_differ,
            self.passes_gathered_alone,
            self.same_answer_gathered,
            self.refused_too_long,
            self.rows,
        ];
        counts.into_iter().min().unwrap()
    }

    fn meet_terms(&mut self, terms: &[Term]) {
        let any = |fits: &dyn Fn(&Term, &Term) -> bool| {
            let rest = |place: usize| &terms[place + 1..];
            let mut pairs = terms.iter().enumerate();
            pairs.any(|(place, one)| rest(place).iter().any(|other| fits(one, other)))
        };
        self.sheets += 1;
        self.like_terms += usize::from(any(&alike));
        self.swapped_factors += usize::from(any(&|one, other| {
            alike(one, other) && one.first != other.first
        }));
        self.lone_zeros += usize::from(terms.iter().any(|term| is_lone_zero(term, terms)));
        self.zero_on_the_way +=
            usize::from(terms.iter().any(|term| is_zero_on_the_way(term, terms)));
        let gathered = gathered(terms);
        self.all_gone += usize::from(gathered.is_empty());
        self.past_the_range += usize::from(!all_in_range(&gathered));
    }

    fn meet(&mut self, sheet: &Sheet, mark: i64) {
        let terms = gathered(&sheet.terms);
        let run = Run::of(sheet, mark);
        assert_eq!(run, Run::by_terms(sheet, &terms));
        assert!(!terms.is_empty() || !run.has_degree_above_0());
        self.meet_terms(&sheet.terms);
        self.meet_run(&run, &Run::by_terms(sheet, &sheet.terms));
        if all_in_range(&terms) {
            let sheet = Sheet {
                terms,
                ..sheet.clone()
            };
            assert_eq!(run, Run::of(&sheet, mark));
            self.same_answer_gathered += 1;
        } else {
            self.rows_past_the_range += usize::from(run.has_degree_above_0());
        }
    }

    fn meet_run(&mut self, run: &Run, as_read: &Run) {
        self.rows += run.rows.len();
        self.refused_too_long += usize::from(run.is_too_long());
        self.answers_differ += usize::from(run != as_read);
        let passes = !run.rows.is_empty();
        self.passes_gathered_alone += usize::from(passes && as_read.is_too_long());
    }
}

/// Whether each coefficient is one that a sheet may have.
fn all_in_range(terms: &[Term]) -> bool {
    terms.iter().all(|term| COEF.contains(&term.coef))
}

fn is_lone_zero(term: &Term, terms: &[Term]) -> bool {
    term.coef == 0 && terms.iter().filter(|other| alike(term, other)).count() == 1
}

/// Whether the terms like this one, up to it, come to 0, and all of them do not.
fn is_zero_on_the_way(term: &Term, terms: &[Term]) -> bool {
    let place = terms.iter().position(|other| std::ptr::eq(term, other));
    let sum = |terms: &[Term]| -> i64 {
        let like = terms.iter().filter(|other| alike(term, other));
        like.map(|other| other.coef).sum()
    };
    let upto = &terms[..=place.unwrap()];
    term.coef != 0 && sum(upto) == 0 && sum(terms) != 0
}

#[test]
fn like_terms_are_gathered_by_both_programs() {
    let mut random = Random::from_seed(1);
    let (mut forecasts, mut hindcasts) = (Met::default(), Met::default());
    for mark in 1..=COUNT as i64 {
        let sheet = of_like_terms(&mut random);
        if sheet.step < 0 {
            hindcasts.meet(&sheet, -mark);
        } else {
            forecasts.meet(&sheet, -mark);
        }
    }
    for met in [forecasts, hindcasts] {
        println!("{met:?}");
        assert!(met.least() >= LEAST);
    }
}

/// The sheet of a single step from a row.
fn single_step(sheet: &Sheet, row: &[i64]) -> Sheet {
    let Parts { values, radii, .. } = rows::parts(row);
    let starts = values.iter().zip(radii).map(|(&value, &radius)| Start {
        value: Some(value),
        radius,
    });
    Sheet {
        steps: 1,
        starts: starts.collect(),
        ..sheet.clone()
    }
}

/// The state that a row has.
fn state(row: &[i64]) -> State {
    let Parts { values, radii, .. } = rows::parts(row);
    let mut state = State {
        values: [0; MOST_QUANTITIES],
        radii: [0; MOST_QUANTITIES],
    };
    state.values[..values.len()].copy_from_slice(values);
    for (place, &radius) in state.radii.iter_mut().zip(radii) {
        *place = radius as u64;
    }
    state
}

/// Each row is what a single step makes of the row before, as a passage of its own through both programs and as
/// numbers through this one.
#[test]
fn single_steps_gather_too() {
    const STEPS: usize = 4;
    let mut random = Random::from_seed(2);
    let (mut steps, mut differ) = (0, 0);
    for mark in 1..=COUNT as i64 / 4 {
        let sheet = of_like_terms(&mut random);
        for pair in Run::of(&sheet, mark).rows.windows(2).take(STEPS) {
            let single = single_step(&sheet, &pair[0]);
            let run = Run::of(&single, mark);
            assert_eq!((&run.rows[..], run.result), (&pair[1..], 0));
            let row = advance(&sheet, &state(&pair[0])).unwrap();
            assert_eq!(numbers(&sheet, &row), pair[1]);
            steps += 1;
            differ += usize::from(run != Run::by_terms(&single, &single.terms));
        }
    }
    println!("{steps} single steps, {differ} of them otherwise by the terms as read");
    assert!(steps >= 2000 && differ >= 1000);
}
