"""What a description's clearance asks of the proved search, in units. Each rounding is on the safe side: the base down,
the need up; the need of each row higher still by what the sheet's rounded step and coefficients can do up to it, and
where a weight had to be rounded, by all that the weight could matter."""

from dataclasses import dataclass
from fractions import Fraction
from itertools import takewhile
from math import ceil, floor

from advice import search_range
from entries import Refused
from units import SCALE, at_most, near, shown, with_unit

MOST_WEIGHT, MOST_NEED = 4 * SCALE, 32 * SCALE
FARTHEST = 1 << 31  # No low or high lies farther from 0 in rows that the search takes: it refuses others with 10.


@dataclass(frozen=True)
class Query:
    """The needs are for the rows from the first on, one each: of later rows nothing is asked."""

    base: int
    weights: tuple
    needs: tuple


def exact_weights(description):
    """The weight of each quantity, in the sheet's order, for wholes of the quantities and of the clearance."""
    clearance = description.clearance
    return [
        clearance.weights.get(quantity.name, Fraction(0)) * quantity.scale.whole / clearance.scale.whole
        for quantity in description.quantities
    ]


def query(description, need, drifts):
    """The query, of the rows for which a drift is known, and each rounding in words."""
    clearance, said = description.clearance, []
    whole, exact = clearance.scale.whole, exact_weights(description)
    weights = tuple(near(weight * SCALE) for weight in exact)
    moved = sum(abs(weight * SCALE - units) for weight, units in zip(exact, weights))
    base, wanted = clearance.base / whole * SCALE, need / whole * SCALE
    asked = wanted + moved * Fraction(FARTHEST, SCALE)
    raised = [sum(abs(weight) * each for weight, each in zip(exact, drift)) for drift in drifts]
    needs = (ceil(asked + more * SCALE) for more in raised)
    found = Query(floor(base), weights, tuple(takewhile(lambda each: each <= MOST_NEED, needs)))
    if found.base != base:
        said.append(f"the base is rounded down to {found.base} units")
    if ceil(asked) != wanted:
        said.append(f"the need {with_unit(shown(need), clearance.scale.unit)} is rounded up to {ceil(asked)} units")
    if moved:
        said.append("a weight had to be rounded, and the need is higher by all that this could matter")
    if any(raised):
        most = with_unit(at_most(raised[-1] * whole), clearance.scale.unit)
        said.append(f"the need is higher by what the sheet's rounded step and coefficients can do, {most} at most")
    check(description, found, asked)
    return found, said


def check(description, found, need):
    """A query that the search would refuse is refused here with its line."""
    lines = description.lines
    for quantity, weight in zip(description.quantities, found.weights):
        if abs(weight) > MOST_WEIGHT:
            raise Refused(
                lines.line("clearance", "weights", quantity.name),
                f"the weight of {quantity.name} is "
                f"{shown(Fraction(weight, SCALE))} for the sheet's wholes, and the search takes 4 at most: give the "
                "[clearance] a larger 'whole'",
            )
    taken = search_range(description.clearance, found.base, need, MOST_NEED)
    if abs(found.base) > MOST_NEED:
        raise Refused(lines.line("clearance", "base"), f"the base is past the search's range, {taken}")
    if abs(need) > MOST_NEED:
        raise Refused(lines.line("clearance", "need"), f"the need is past the search's range, {taken}")
