"""One rounded step of document 01 with fractions, worked out anew: ratio, tail and degree, the coefficients,
and the row with its lows and highs (document 02, CR 5)."""

from fractions import Fraction
from math import ceil, floor

from exact_sum import SCALE


def near(number):
    """The whole number nearest to it, a half going away from zero."""
    nearest = floor(abs(number) + Fraction(1, 2))
    return -nearest if number < 0 else nearest


def common_scale(values, radii):
    """G: the largest of s and every |value| + radius."""
    return max([SCALE] + [abs(value) + radius for value, radius in zip(values, radii)])


def ratio(scale, n, terms, step):
    """q, from the sums of |A| over a target's terms with no, one and two factors."""
    sums = [[0, 0, 0] for _ in range(n)]
    for to, coef, first, second in terms:
        sums[to - 1][(first > 0) + (second > 0)] += abs(coef)
    sizes = [
        ceil(Fraction(SCALE * none, scale)) + one + ceil(Fraction(scale * two, SCALE))
        for none, one, two in sums
    ]
    return ceil(Fraction(max(sizes) * abs(step), SCALE))


def degree_and_tail(scale, q, most):
    """The least degree whose tail is at most the sheet's, and that tail."""
    power, degree = ceil(Fraction(scale * q, SCALE)), 0
    while True:
        tail = ceil(Fraction(power * SCALE, SCALE - q))
        if tail <= most:
            return degree, tail
        power, degree = ceil(Fraction(power * q, SCALE)), degree + 1


def product(c, e, first, second, k):
    """S and F: the k-th coefficient of the product of a term's factors, and its error."""
    if not first:
        return (SCALE if k == 0 else 0), 0
    one, its = c[first - 1], e[first - 1]
    if not second:
        return one[k], its[k]
    two, other = c[second - 1], e[second - 1]
    values = (near(Fraction(one[l] * two[k - l], SCALE)) for l in range(k + 1))
    errors = (
        abs(one[l]) * other[k - l] + abs(two[k - l]) * its[l] + its[l] * other[k - l]
        for l in range(k + 1)
    )
    return sum(values), sum(ceil(Fraction(error, SCALE)) + 1 for error in errors)


def times(by, value, error):
    """A value and its error times a number of units: Q and f, v and g."""
    return near(Fraction(by * value, SCALE)), ceil(Fraction(abs(by) * error, SCALE)) + 1


def coefficients(values, radii, terms, step, degree):
    """c and e of each quantity, from order 0 to the degree."""
    c, e = [[value] for value in values], [[radius] for radius in radii]
    for k in range(degree):
        rates, errors = [0] * len(values), [0] * len(values)
        for to, coef, first, second in terms:
            v, g = times(coef, *times(step, *product(c, e, first, second, k)))
            rates[to - 1] += v
            errors[to - 1] += g
        for i, (rate, error) in enumerate(zip(rates, errors)):
            c[i].append(near(Fraction(rate, k + 1)))
            e[i].append(ceil(Fraction(error, k + 1)) + 1)
    return c, e


def rounded_step(values, radii, terms, step, most):
    """The row that gathered terms make of these values and radii: degree, values, radii, lows, highs."""
    scale = common_scale(values, radii)
    degree, tail = degree_and_tail(scale, ratio(scale, len(values), terms, step), most)
    c, e = coefficients(values, radii, terms, step, degree)
    reaches = [
        errors[0] + sum(abs(orders[k]) + errors[k] for k in range(1, degree + 1)) + tail
        for orders, errors in zip(c, e)
    ]
    return (
        degree,
        [sum(orders) for orders in c],
        [sum(errors) + tail for errors in e],
        [value - reach for value, reach in zip(values, reaches)],
        [value + reach for value, reach in zip(values, reaches)],
    )
