"""The exact sums of document 01 in whole numbers: no rounding, no row, no radius enters them."""

from fractions import Fraction
from functools import lru_cache
from math import comb, factorial, lcm

SCALE = 1 << 24


@lru_cache(maxsize=1)
def begun(state, terms):
    """Y_0 of each quantity, to which `coefficients` adds the others, and the common denominator D of the state."""
    denominator = lcm(*(number.denominator for number in state))
    return [[number.numerator * (denominator // number.denominator)] for number in state], denominator


def coefficients(state, terms, degree):
    """Y_0 to Y_degree of each quantity, or more of them, and the common denominator D of the state. Those of the last
    state are kept, for other degrees from it.

    `state` gives each quantity in wholes; `terms` are tuples (to, A, first, second).
    """
    series, denominator = begun(tuple(state), tuple(terms))

    def factor(index, order):
        if index:
            return series[index - 1][order]
        return denominator if order == 0 else 0

    for k in range(len(series[0]) - 1, degree):
        rates = [0] * len(state)
        for to, coef, first, second in terms:
            rates[to - 1] += coef * sum(
                comb(k, l) * factor(first, l) * factor(second, k - l) for l in range(k + 1)
            )
        for numbers, rate in zip(series, rates):
            numbers.append(rate)
    return series, denominator


def exact_sum(state, terms, step, degree, fraction=Fraction(1)):
    """The exact degree-K sum of each quantity at a fraction u/w of the step: the sum of
    Y_k / (k! D^(k+1) s^k) * (u H / (w s))^k."""
    series, denominator = coefficients(state, terms, degree)
    moved, parts = fraction.numerator * step, fraction.denominator * SCALE * SCALE
    # All summands are brought to the denominator K! D^(K+1) (s^2 w)^K.
    common = factorial(degree) * denominator ** (degree + 1) * parts**degree
    weights = [
        factorial(degree) // factorial(k) * (denominator * parts) ** (degree - k) * moved**k
        for k in range(degree + 1)
    ]
    return [Fraction(sum(map(int.__mul__, numbers, weights)), common) for numbers in series]


def lies_within(state, values, radii):
    """Whether s times each number differs from its value by at most its radius."""
    return all(
        abs(SCALE * number - value) <= radius
        for number, value, radius in zip(state, values, radii)
    )
