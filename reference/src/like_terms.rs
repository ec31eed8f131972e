//! Like terms: those with the same target and the same factors, in either order. They are added before a passage is
//! run or a step taken (document 02, CR 4).

use crate::sheet::Term;

/// The terms with like ones added, each sum in the place of its earliest term; then the sums of 0 are left out, a lone
/// term's too. A sum may pass the range of a sheet's coefficient.
pub fn gathered(terms: &[Term]) -> Vec<Term> {
    let mut sums: Vec<Term> = Vec::with_capacity(terms.len());
    for term in terms {
        match sums.iter_mut().find(|sum| alike(sum, term)) {
            Some(sum) => sum.coef += term.coef,
            None => sums.push(*term),
        }
    }
    sums.retain(|sum| sum.coef != 0);
    sums
}

/// Whether two terms have the same target and the same factors, in either order.
pub fn alike(one: &Term, other: &Term) -> bool {
    one.to == other.to && factors(one) == factors(other)
}

/// A term's factors, the lower number first.
fn factors(term: &Term) -> [i64; 2] {
    let mut factors = [term.first, term.second];
    factors.sort();
    factors
}

#[cfg(test)]
mod tests {
    use super::*;
    use crate::sheet::{COEF, TERMS, term};

    /// Terms of one target and one product, by their coefficients.
    fn of_one_product(coefs: &[i64]) -> Vec<Term> {
        coefs.iter().map(|&coef| term(1, coef, 1, 1)).collect()
    }

    #[test]
    fn terms_that_are_not_alike_stay_as_they_are() {
        let terms = [
            term(1, 5, 0, 0),
            term(1, 5, 1, 0),
            term(1, 5, 2, 0),
            term(1, 5, 1, 1),
            term(1, -5, 1, 2),
            term(1, 5, 2, 2),
        ];
        assert_eq!(gathered(&terms), terms);
        assert_eq!(gathered(&[]), []);
    }

    #[test]
    fn terms_to_different_targets_are_not_alike() {
        let terms = [term(1, 5, 1, 2), term(2, -5, 1, 2), term(3, 5, 2, 1)];
        assert_eq!(gathered(&terms), terms);
    }

    #[test]
    fn like_terms_of_any_number_of_factors_are_added() {
        for (first, second) in [(0, 0), (2, 0), (1, 1), (1, 2), (2, 1)] {
            let with = |coef| term(1, coef, first, second);
            let terms = [with(5), with(-7), with(3)];
            assert_eq!(gathered(&terms), [with(1)], "{first} {second}");
        }
    }

    #[test]
    fn the_factors_may_stand_in_either_order() {
        let terms = [term(1, 5, 2, 1), term(1, 7, 1, 2)];
        assert_eq!(gathered(&terms), [term(1, 12, 2, 1)]);
        let terms = [term(1, 5, 1, 2), term(1, 7, 2, 1)];
        assert_eq!(gathered(&terms), [term(1, 12, 1, 2)]);
        assert_eq!(gathered(&[term(1, 5, 1, 2), term(1, -5, 2, 1)]), []);
    }

    #[test]
    fn a_sum_stands_in_the_place_of_its_earliest_term() {
        let terms = [
            term(2, 1, 0, 0),
            term(1, 2, 1, 2),
            term(2, 3, 2, 0),
            term(1, 4, 2, 1),
            term(2, 5, 0, 0),
            term(1, 6, 1, 0),
        ];
        let sums = [
            term(2, 6, 0, 0),
            term(1, 6, 1, 2),
            term(2, 3, 2, 0),
            term(1, 6, 1, 0),
        ];
        assert_eq!(gathered(&terms), sums);
    }

    /// 5 and -5 come to 0 on the way, and 3 still takes the place of 5.
    #[test]
    fn all_are_added_before_any_is_left_out() {
        assert_eq!(gathered(&of_one_product(&[5, -5, 3])), [term(1, 3, 1, 1)]);
        let between = [
            term(1, 5, 1, 1),
            term(1, 8, 0, 0),
            term(1, -5, 1, 1),
            term(1, 3, 1, 1),
        ];
        assert_eq!(gathered(&between), [term(1, 3, 1, 1), term(1, 8, 0, 0)]);
    }

    #[test]
    fn sums_of_0_are_left_out_wherever_they_stand() {
        assert_eq!(gathered(&of_one_product(&[5, -5])), []);
        assert_eq!(gathered(&of_one_product(&[0, 0])), []);
        let kept = term(1, 9, 1, 0);
        let (plus, minus) = (term(2, 5, 1, 1), term(2, -5, 1, 1));
        for terms in [
            [plus, minus, kept],
            [plus, kept, minus],
            [kept, plus, minus],
        ] {
            assert_eq!(gathered(&terms), [kept]);
        }
    }

    #[test]
    fn a_lone_term_of_0_is_left_out() {
        let kept = term(1, 9, 1, 1);
        for zero in [
            term(1, 0, 0, 0),
            term(1, 0, 1, 0),
            term(2, 0, 1, 1),
            term(1, 0, 1, 1),
        ] {
            assert_eq!(gathered(&[zero]), []);
            assert_eq!(gathered(&[kept, zero]), [kept]);
            assert_eq!(gathered(&[zero, kept]), [kept]);
        }
    }

    /// The largest sums there can be: 32 like terms at the end of a coefficient's range.
    #[test]
    fn a_sum_may_pass_a_coefficients_range() {
        for end in [*COEF.start(), *COEF.end()] {
            let most = vec![end; *TERMS.end() as usize];
            let sum = term(1, 32 * end, 1, 1);
            assert_eq!(gathered(&of_one_product(&most)), [sum]);
        }
        assert_eq!(32 * COEF.end(), 1 << 33);
    }

    #[test]
    fn what_is_gathered_is_not_gathered_further() {
        let terms = [
            term(1, 5, 1, 2),
            term(1, 6, 2, 1),
            term(1, 0, 1, 0),
            term(2, 5, 1, 2),
        ];
        let once = gathered(&terms);
        assert_eq!(gathered(&once), once);
    }
}
