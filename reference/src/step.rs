//! One rounded step of document 01: ratio, tail and degree, then the coefficients and the next row.

use crate::like_terms::gathered;
use crate::rounding::{SCALE, SCALE_SIZE, near, up};
use crate::sheet::{LIMIT, MOST_QUANTITIES, Refusal, STEP_LENGTH, Sheet, Term};

/// The largest ratio that a step may have: one half.
pub const MOST_RATIO: u64 = SCALE_SIZE / 2;

/// The degree never passes this.
pub const MOST_DEGREE: usize = 28;

/// The value and the radius of each quantity; 0 beyond the sheet's quantities.
#[derive(Clone, Debug, PartialEq, Eq)]
pub struct State {
    pub values: [i64; MOST_QUANTITIES],
    pub radii: [u64; MOST_QUANTITIES],
}

/// What a step makes of a state: the state at its end, and a low and a high for all of it.
#[derive(Clone, Debug, PartialEq, Eq)]
pub struct Row {
    pub degree: usize,
    pub state: State,
    pub lows: [i64; MOST_QUANTITIES],
    pub highs: [i64; MOST_QUANTITIES],
}

impl Row {
    /// The numbers of a row of n quantities, in the order of the lent buffer.
    pub fn numbers(&self, n: usize) -> impl Iterator<Item = i64> + '_ {
        let degree = [self.degree as i64].into_iter();
        let values = self.state.values[..n].iter().copied();
        let radii = self.state.radii[..n].iter().map(|&radius| radius as i64);
        let lows = self.lows[..n].iter().copied();
        let highs = self.highs[..n].iter().copied();
        degree.chain(values).chain(radii).chain(lows).chain(highs)
    }
}

/// What the steps of a passage work with: the sheet's numbers, and its terms gathered.
pub struct Steps<'a> {
    pub sheet: &'a Sheet,
    pub terms: Vec<Term>,
}

impl<'a> Steps<'a> {
    pub fn of(sheet: &'a Sheet) -> Self {
        Steps {
            sheet,
            terms: gathered(&sheet.terms),
        }
    }

    /// One step, or the refusal of questions 4 to 6.
    pub fn advance(&self, state: &State) -> Result<Row, Refusal> {
        if self.sizes(state).any(is_too_large) {
            return Err(Refusal::ValueTooLarge);
        }
        let scale = self.scale(state);
        let ratio = self.ratio(scale);
        if ratio > MOST_RATIO {
            return Err(Refusal::StepTooLong);
        }
        let coefficients = Coefficients::of(self, state, scale, ratio);
        let n = self.sheet.starts.len();
        let next = coefficients.sum(n);
        let too_wide = |&radius: &u64| self.is_too_wide(radius);
        if next.radii[..n].iter().any(too_wide) {
            return Err(Refusal::RadiusTooLarge);
        }
        let mut row = Row {
            degree: coefficients.degree,
            state: next,
            lows: [0; MOST_QUANTITIES],
            highs: [0; MOST_QUANTITIES],
        };
        for i in 0..n {
            let reach = coefficients.reach(i) as i64;
            row.lows[i] = state.values[i] - reach;
            row.highs[i] = state.values[i] + reach;
        }
        Ok(row)
    }

    /// |value| + radius of each of the sheet's quantities, which question 4 is asked of.
    pub fn sizes<'b>(&self, state: &'b State) -> impl Iterator<Item = u64> + 'b {
        let n = self.sheet.starts.len();
        let quantities = state.values[..n].iter().zip(&state.radii[..n]);
        quantities.map(|(value, radius)| value.unsigned_abs() + radius)
    }

    /// The common scale G of a state: its largest size, or 1 whole if that is more.
    pub fn scale(&self, state: &State) -> u64 {
        self.sizes(state).fold(SCALE_SIZE, u64::max)
    }

    /// The ratio q of a step from states of the common scale G, which question 5 is asked of.
    pub fn ratio(&self, scale: u64) -> u64 {
        let (_, largest) = self.largest_rate(scale);
        up(largest * self.sheet.step.unsigned_abs(), SCALE_SIZE)
    }

    /// The largest of the sizes that the quantities' rates have at the common scale, with the first quantity, counted
    /// from 0, that has it.
    pub fn largest_rate(&self, scale: u64) -> (usize, u64) {
        // The sums of |A| over a target's terms with no, one and two factors.
        let mut sums = [[0; 3]; MOST_QUANTITIES];
        for term in &self.terms {
            sums[term.to as usize - 1][factors(term)] += term.coef.unsigned_abs();
        }
        let sizes = sums.iter().map(|[none, one, two]| {
            up(SCALE_SIZE * none, scale) + one + up(scale * two, SCALE_SIZE)
        });
        // `max_by_key` takes the last of equals, so the quantities come from the last to the first.
        let sizes = sizes.enumerate().rev();
        sizes.max_by_key(|&(_, size)| size).unwrap_or((0, 0))
    }

    /// The length of the longest step from states of the common scale that question 5 lets pass; 0 where there is none.
    pub fn longest(&self, scale: u64) -> u64 {
        // The ratio is length × largest ÷ s, rounded up: it is at most the whole number q just where the product
        // length × largest is at most q × s.
        let most_product = MOST_RATIO * SCALE_SIZE;
        let (_, largest) = self.largest_rate(scale);
        let most = *STEP_LENGTH.end() as u64;
        let longest = most_product.checked_div(largest);
        longest.map_or(most, |longest| longest.min(most))
    }

    /// The radius of each of the sheet's quantities after a step that questions 4 and 5 let pass, which question 6 is
    /// asked of.
    pub fn next_radii(&self, state: &State) -> impl Iterator<Item = u64> {
        let n = self.sheet.starts.len();
        let scale = self.scale(state);
        let coefficients = Coefficients::of(self, state, scale, self.ratio(scale));
        coefficients.sum(n).radii.into_iter().take(n)
    }

    /// Whether question 6 refuses a radius.
    pub fn is_too_wide(&self, radius: u64) -> bool {
        radius > self.sheet.tol as u64
    }
}

/// Whether question 4 refuses a quantity of this size.
pub fn is_too_large(size: u64) -> bool {
    size > LIMIT as u64
}

/// A single step of a sheet, or its refusal.
pub fn advance(sheet: &Sheet, state: &State) -> Result<Row, Refusal> {
    Steps::of(sheet).advance(state)
}

/// The ratio of a sheet's step from states of the common scale.
pub fn ratio(sheet: &Sheet, scale: u64) -> u64 {
    Steps::of(sheet).ratio(scale)
}

fn factors(term: &Term) -> usize {
    usize::from(term.first != 0) + usize::from(term.second != 0)
}

/// The least degree whose tail is at most the sheet's, with that tail.
fn degree_and_tail(scale: u64, ratio: u64, most: u64) -> (usize, u64) {
    let mut power = scale;
    for degree in 0..=MOST_DEGREE {
        power = up(power * ratio, SCALE_SIZE);
        let tail = up(power * SCALE_SIZE, SCALE_SIZE - ratio);
        if tail <= most {
            return (degree, tail);
        }
    }
    unreachable!("at a ratio of at most one half the degree never passes 28")
}

/// The rounded coefficients c of each quantity up to a step's degree, the radii e around them, and the tail.
struct Coefficients {
    degree: usize,
    tail: u64,
    c: [[i64; MOST_DEGREE + 1]; MOST_QUANTITIES],
    e: [[u64; MOST_DEGREE + 1]; MOST_QUANTITIES],
}

impl Coefficients {
    fn of(steps: &Steps, state: &State, scale: u64, ratio: u64) -> Self {
        let n = steps.sheet.starts.len();
        let (degree, tail) = degree_and_tail(scale, ratio, steps.sheet.tail as u64);
        let mut all = Coefficients {
            degree,
            tail,
            c: [[0; MOST_DEGREE + 1]; MOST_QUANTITIES],
            e: [[0; MOST_DEGREE + 1]; MOST_QUANTITIES],
        };
        for i in 0..n {
            all.c[i][0] = state.values[i];
            all.e[i][0] = state.radii[i];
        }
        for k in 0..degree {
            let mut rates = [0; MOST_QUANTITIES];
            let mut errors = [0; MOST_QUANTITIES];
            for term in &steps.terms {
                let (s, f) = all.product(term, k);
                let (v, g) = scaled(steps.sheet.step, term.coef, s, f);
                rates[term.to as usize - 1] += v;
                errors[term.to as usize - 1] += g;
            }
            for i in 0..n {
                all.c[i][k + 1] = near(rates[i], k as i64 + 1);
                all.e[i][k + 1] = up(errors[i], k as u64 + 1) + 1;
            }
        }
        all
    }

    /// S and F: the k-th coefficient of the product of a term's factors, and its error.
    fn product(&self, term: &Term, k: usize) -> (i64, u64) {
        match (term.first as usize, term.second as usize) {
            (0, _) => (if k == 0 { SCALE } else { 0 }, 0),
            (first, 0) => (self.c[first - 1][k], self.e[first - 1][k]),
            (first, second) => {
                let values = self.c[first - 1][..=k].iter();
                let radii = self.e[first - 1][..=k].iter();
                let other_values = self.c[second - 1][..=k].iter().rev();
                let other_radii = self.e[second - 1][..=k].iter().rev();
                let (mut s, mut f) = (0, 0);
                for (((&c, &e), &d), &r) in values.zip(radii).zip(other_values).zip(other_radii) {
                    s += near(c * d, SCALE);
                    f += up(
                        c.unsigned_abs() * r + d.unsigned_abs() * e + e * r,
                        SCALE_SIZE,
                    ) + 1;
                }
                (s, f)
            }
        }
    }

    /// The next row's values and radii.
    fn sum(&self, n: usize) -> State {
        let mut next = State {
            values: [0; MOST_QUANTITIES],
            radii: [0; MOST_QUANTITIES],
        };
        for i in 0..n {
            next.values[i] = self.c[i][..=self.degree].iter().sum();
            next.radii[i] = self.e[i][..=self.degree].iter().sum::<u64>() + self.tail;
        }
        next
    }

    /// How far a quantity may come within the step from its value at the start: e_0, then |c_k| + e_k of each
    /// order from 1 to the degree, then the tail.
    fn reach(&self, quantity: usize) -> u64 {
        let (c, e) = (&self.c[quantity], &self.e[quantity]);
        let orders = (1..=self.degree).map(|k| c[k].unsigned_abs() + e[k]);
        e[0] + orders.sum::<u64>() + self.tail
    }
}

/// v and g: a product S with error F, times the step, times the term's coefficient. Only the values have
/// the step's sign; the errors have its length.
fn scaled(step: i64, coef: i64, s: i64, f: u64) -> (i64, u64) {
    let q = near(step * s, SCALE);
    let error = up(step.unsigned_abs() * f, SCALE_SIZE) + 1;
    let v = near(coef * q, SCALE);
    let g = up(coef.unsigned_abs() * error, SCALE_SIZE) + 1;
    (v, g)
}

#[cfg(test)]
mod tests {
    use super::*;
    use crate::sheet::{COEF, TERMS, start, term};

    fn with_terms(terms: &[Term]) -> Sheet {
        Sheet {
            steps: 1,
            step: SCALE,
            tail: 2,
            tol: 1,
            starts: vec![start(0, 0); 3],
            terms: terms.to_vec(),
        }
    }

    fn with_step(sheet: &Sheet, step: u64) -> Sheet {
        Sheet {
            step: step as i64,
            ..sheet.clone()
        }
    }

    /// The longest step passes question 5, and one unit more does not, where a step may have that length.
    fn longest(terms: &[Term], scale: u64) -> u64 {
        let sheet = with_terms(terms);
        let longest = Steps::of(&sheet).longest(scale);
        assert!(ratio(&with_step(&sheet, longest), scale) <= MOST_RATIO);
        if longest < *STEP_LENGTH.end() as u64 {
            assert!(ratio(&with_step(&sheet, longest + 1), scale) > MOST_RATIO);
        }
        longest
    }

    #[test]
    fn the_longest_step_by_the_number_of_factors() {
        let scale = 4 * SCALE_SIZE;
        assert_eq!(longest(&[term(1, SCALE, 0, 0)], scale), SCALE_SIZE);
        assert_eq!(longest(&[term(1, SCALE, 1, 0)], scale), SCALE_SIZE / 2);
        assert_eq!(longest(&[term(1, SCALE, 1, 1)], scale), SCALE_SIZE / 8);
        assert_eq!(longest(&[term(1, 3, 1, 1)], scale), SCALE_SIZE);
        assert_eq!(longest(&[term(1, 3 * SCALE, 1, 1)], scale), 699050);
    }

    #[test]
    fn a_step_without_terms_may_have_any_length() {
        assert_eq!(longest(&[], SCALE_SIZE), SCALE_SIZE);
    }

    /// The fastest rate that a sheet can have still leaves a step of 512 units.
    #[test]
    fn some_step_always_passes() {
        let most = vec![term(1, *COEF.end(), 1, 1); *TERMS.end() as usize];
        assert_eq!(longest(&most, LIMIT as u64), 512);
    }

    #[test]
    fn the_first_of_the_largest_rates() {
        let largest = |terms: &[Term]| Steps::of(&with_terms(terms)).largest_rate(SCALE_SIZE);
        assert_eq!(largest(&[]), (0, 0));
        let (two, three) = (term(2, 7, 1, 0), term(3, -7, 1, 0));
        assert_eq!(largest(&[three]), (2, 7));
        assert_eq!(largest(&[three, two]), (1, 7));
        assert_eq!(largest(&[three, two, term(3, 1, 0, 0)]), (2, 8));
    }
}
