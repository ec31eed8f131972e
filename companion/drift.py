"""How far a description's own solution may drift from its sheet's. A sheet's step and coefficients are whole numbers of
units, so its equations are not quite those that were described, and the planner answers for the sheet's. What that can
do to each quantity is bounded here, row by row, in exact numbers that are rounded up.

Let x solve the sheet's equations, x' = h·f(x), and y the described ones, y' = k·g(y), from the same start, with the time
counted in steps. All through a row's step x lies between the row's lows and highs. As long as y lies no farther outside
them than a margin, the size d of y - x grows in each quantity by no more than

    d' <= M·d + e

where M has the sizes of the derivatives of h·f in that wider box, and e those of k·g - h·f: for each term, like ones
having been added, the size of k·(its coefficient) - h·(the written one), times the sizes of its factors. So d stays
below the u that starts where d was and has u' = M·u + e. It never falls, so that its end bounds all of the step; and
where its end is below the margin, y has never left the wider box."""

from collections import defaultdict
from dataclasses import dataclass
from fractions import Fraction
from math import ceil

from sheet import MOST_QUANTITIES, coefficient, meant
from units import PI_ROUNDED_BY, SCALE

FINE = 1 << 80  # What is worked with here are whole numbers of this part of a whole.
FARTHEST = 64 * FINE  # No margin is wider: nothing is known of rows that may be so far off.
MOST_TRIES = 64
ORDERS = 16
assert ORDERS > MOST_QUANTITIES


def up(number):
    return ceil(number * FINE)


def times(number, *others):
    """A product, rounded up."""
    for other in others:
        number = -(-number * other // FINE)
    return number


@dataclass(frozen=True)
class Share:
    """Terms with the same factors over one step: the place of the quantity that they change, and of their factors; the size
    of their written coefficients' sum times the written step; and how far that is from what was described."""

    to: int
    factors: tuple
    size: int
    moved: int


def shares(description, sheet):
    """Like terms are added first, as the planner adds them: what cancels there does not grow here either."""
    step = description.time.step / description.time.scale.whole
    exact, sizes, written = defaultdict(Fraction), defaultdict(Fraction), defaultdict(Fraction)
    for (quantity, product), term in zip(meant(description), sheet.terms):
        like = term.to - 1, tuple(sorted(number - 1 for number in (term.first, term.second) if number))
        number = coefficient(description, quantity, product) * step
        exact[like] += number
        sizes[like] += abs(number)
        written[like] += Fraction(term.coef * sheet.step, SCALE**2)
    for like, number in exact.items():
        moved = abs(number - written[like])
        if moved:
            moved += sizes[like] * PI_ROUNDED_BY
        yield Share(*like, up(abs(written[like])), up(moved))


def growth(shares, sizes):
    """M, as the entries that are not 0 by their places, and e, for quantities of no more than these sizes."""
    rates, pushes = defaultdict(int), [0] * len(sizes)
    for share in shares:
        factors = [sizes[factor] for factor in share.factors]
        pushes[share.to] += times(share.moved, *factors)
        for place, factor in enumerate(share.factors):
            rates[share.to, factor] += times(share.size, *factors[:place], *factors[place + 1 :])
    return rates, pushes


def applied(rates, drift, parts):
    """M·drift ÷ parts, rounded up."""
    found = [0] * len(drift)
    for (to, factor), rate in rates.items():
        found[to] += rate * drift[factor]
    return [-(-number // (FINE * parts)) for number in found]


def largest_row(rates, count):
    return max((sum(rate for (to, _), rate in rates.items() if to == row) for row in range(count)), default=0)


def grown(rates, pushes, drift):
    """u at the end of a step, from u' = M·u + e: u + g + M·g ÷ 2 + M·M·g ÷ 6 + .. with g = M·u + e. The step is cut into
    parts in which M's row sums are one half or less; there the orders that are left out come to less than twice the
    first of them, in every quantity that anything reaches at all: ORDERS is enough to go round all quantities."""
    parts = 1
    while 2 * largest_row(rates, len(drift)) > parts * FINE:
        parts *= 2
    for _ in range(parts):
        order = [a - (-b // parts) for a, b in zip(applied(rates, drift, parts), pushes)]
        drift = list(drift)
        for number in range(2, ORDERS + 2):
            drift = [a + b for a, b in zip(drift, order)]
            order = applied(rates, order, number * parts)
        rest = 2 * max(order)
        drift = [number + rest if number else 0 for number in drift]
    return drift


def after_step(shares, box, drift):
    """The drift at a step's end, from that at its beginning and the sizes of the step's lows and highs. None where it
    stays within no margin."""
    margin = drift
    for _ in range(MOST_TRIES):
        margin = [2 * number + 1 for number in margin]
        if max(margin) > FARTHEST:
            break
        rates, pushes = growth(shares, [size + beyond for size, beyond in zip(box, margin)])
        found = grown(rates, pushes, drift)
        if all(number < beyond for number, beyond in zip(found, margin)):
            return found
        margin = found
    return None


def drifts(description, sheet, answer):
    """For each row the most that each quantity may have drifted by, in wholes, up to the row's time. It ends before the
    first row for which there is no bound."""
    found, terms = [], tuple(shares(description, sheet))
    drift = [0] * len(sheet.starts)
    for row in answer.rows:
        box = [up(Fraction(max(abs(part.low), abs(part.high)), SCALE)) for part in row.parts]
        drift = after_step(terms, box, drift)
        if drift is None:
            break
        found.append(tuple(Fraction(number, FINE) for number in drift))
    return tuple(found)
