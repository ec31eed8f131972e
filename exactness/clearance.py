"""Certain rows run on random small passages, forecasts and hindcasts in turn, some with terms that repeat, some
with a quantity that turns within its first step: where a row is certain to clear a need, by its lows and highs,
the exact clearance is at least the need at the start of its step, at its end and at fractions between. The exact
states before a step are those of measure.py, and besides any within the radii that the step starts from, whether or
not the passage leads there. The needs are what a row is just certain of, or what it just clears
by value and radius, or a little less or more. Prints how close the exact clearances came, and how many fall short
within a step whose row clears the need by value and radius. Exits 1 at the first that falls short of what its row
says, or where a row is certain that does not clear the need by value and radius.

usage: clearance.py REFERENCE SEED COUNT      (REFERENCE is the second program's path)
"""

import random
import sys
from collections import Counter, namedtuple
from fractions import Fraction
from itertools import cycle, product
from statistics import median

from between import AT_END, AT_START, CENTRE, CORNER, INSIDE, KINDS, WITHIN, place_of, random_fraction, states, steps
from exact_sum import SCALE, exact_sum
from measure import (
    BACK,
    FORWARD,
    LIMIT,
    direction_of,
    exact_steps,
    printed_rows,
    random_degree,
    sheet_text,
    trials,
)

MOST_WEIGHT = 1 << 26
QUERIES = 6  # Of each row.
FRACTIONS = 3  # Of each step, besides its start and its end.
PRINTED, HIGHER = "of the printed degree", "of a higher one"

Query = namedtuple("Query", "weights base need")
Moment = namedtuple("Moment", "fraction degree state")  # An exact state at a fraction of a step.


def least_clearance(query, row):
    """base * s + the sum of weight * low over the positive weights, and of weight * high over the negative ones."""
    ends = [low if weight > 0 else high for weight, low, high in zip(query.weights, row.lows, row.highs)]
    return query.base * SCALE + weigh(query.weights, ends)


def least_clearance_at_end(query, row):
    """base * s + the sum of weight * value - the sum of |weight| * radius."""
    return query.base * SCALE + weigh(query.weights, row.values) - weigh(map(abs, query.weights), row.radii)


def weigh(weights, numbers):
    return sum(weight * number for weight, number in zip(weights, numbers))


def reach(query, row):
    """The sum of |weight| * reach."""
    return sum(abs(weight) * (high - low) for weight, low, high in zip(query.weights, row.lows, row.highs)) / 2


def slack(query, state):
    """By how much an exact state clears the need: (base + the sum of weight * state - need) * s."""
    return SCALE * (query.base + weigh(query.weights, state) - query.need)


def random_weights(rng, state, row):
    """Weights of both signs: of one quantity alone, whole ones, which bring a clearance to whole units, so that a need
    can meet it, or any. Of every second query the signs are such that the exact state takes away from what the step
    started with."""
    kind, one = rng.randrange(3), rng.randrange(len(state))
    if kind == 0:
        weights = [SCALE * rng.choice([-1, 1]) * (place == one) for place in range(len(state))]
    elif kind == 1:
        weights = [SCALE * rng.randint(-4, 4) for _ in state]
    else:
        strongest = rng.choice([10, SCALE, MOST_WEIGHT])
        weights = [rng.randint(-strongest, strongest) for _ in state]
    if rng.random() < 0.5:
        above = [2 * SCALE * number > low + high for number, low, high in zip(state, row.lows, row.highs)]
        weights = [-abs(weight) if up else abs(weight) for weight, up in zip(weights, above)]
    return weights


def random_query(rng, state, row):
    """Weights, a base and a need in their ranges, or None where these do not reach. The need is what the row clears all
    through its step, or by value and radius: by less than a unit, by a few more, or not by a unit or less."""
    query = Query(random_weights(rng, state, row), rng.choice([0, rng.randint(-LIMIT, LIMIT)]), 0)
    through, at_end = least_clearance(query, row), least_clearance_at_end(query, row)
    need = rng.choice([through, through, at_end]) // SCALE - rng.choice([0, 0, rng.randint(1, 5), -1])
    return query._replace(need=need) if -LIMIT <= need <= LIMIT else None


def exact_moments(rng, passage, before, row):
    """Exact states at the step's start, at its end and at fractions of it, by sums of degrees no lower than printed."""

    def moment(fraction):
        degree = random_degree(rng, row)
        return Moment(fraction, degree, exact_sum(before, passage["terms"], passage["step"], degree, fraction))

    return [moment(Fraction(0)), moment(Fraction(1)), *(moment(random_fraction(rng)) for _ in range(FRACTIONS))]


def moments_from_anywhere(rng, passage, values, radii, row):
    """(where, moment): exact states at fractions of the step from states within the radii that it starts from."""
    for where, before in states(rng, values, radii):
        fraction, degree = random_fraction(rng), random_degree(rng, row)
        yield where, Moment(fraction, degree, exact_sum(before, passage["terms"], passage["step"], degree, fraction))


class Clearances:
    """How far the exact clearances lie from the needs."""

    def __init__(self):
        self.met = Counter()
        self.certain = self.by_nothing = 0
        self.slacks = []  # As parts of the sum of |weight| * reach.
        self.uncertain = self.short = 0
        self.at_end_alone = self.short_before = self.short_between = 0
        self.anywhere = Counter()  # Of exact clearances from states within the radii that the step starts from.

    def add(self, direction, query, row, moments):
        """What is wrong with what the row says of the need, or None."""
        margin = least_clearance(query, row) - query.need * SCALE
        at_end = least_clearance_at_end(query, row) >= query.need * SCALE
        if margin >= 0 and not at_end:
            return "certain, but not clear by value and radius"
        slacks = [slack(query, moment.state) for moment in moments]
        short = [moment for moment, by in zip(moments, slacks) if by < 0]
        told = [moment for moment in short if margin >= 0 or at_end and moment.fraction == 1]
        if told:
            return f"below the need at {told[0].fraction} of the step, at degree {told[0].degree}"
        if margin >= 0:
            self.add_certain(direction, query, row, margin, moments, slacks)
        else:
            self.add_uncertain(margin, at_end, {place_of(moment.fraction) for moment in short})
        return None

    def add_from_anywhere(self, query, row, moments):
        """What is wrong with what the row says of the need, or None."""
        if least_clearance(query, row) < query.need * SCALE:
            return None
        for where, moment in moments:
            by = slack(query, moment.state)
            if by < 0:
                return f"below the need at {moment.fraction} of the step, at degree {moment.degree}, from a state within its radii"
            self.anywhere.update([where, "at the need"] if by == 0 else [where])
        return None

    def add_certain(self, direction, query, row, margin, moments, slacks):
        self.certain += 1
        self.by_nothing += margin == 0
        whole = reach(query, row)
        for moment, by in zip(moments, slacks):
            self.met.update([direction, place_of(moment.fraction), HIGHER if moment.degree > row.degree else PRINTED])
            if whole:
                self.slacks.append(float(by / whole))

    def add_uncertain(self, margin, at_end, short):
        if margin >= -SCALE:
            self.uncertain += 1
            self.short += bool(short)
        if at_end:
            self.at_end_alone += 1
            self.short_before += bool(short)
            self.short_between += short == {WITHIN}

    def print(self, count, seed):
        met = self.met
        print(
            f"{met[FORWARD] + met[BACK]} exact clearances of {self.certain} needs that a row of {3 * count} passages from seed "
            f"{seed} is certain to clear, {self.by_nothing} needs by exactly 0: each is at least the need"
        )
        print(
            f"{met[BACK]} of them in hindcasts; {met[AT_START]} {AT_START}, {met[WITHIN]} {WITHIN} the step, "
            f"{met[AT_END]} {AT_END}; {met[PRINTED]} {PRINTED}, {met[HIGHER]} {HIGHER}"
        )
        above = [part for part in self.slacks if part > 0]
        print(
            f"{len(self.slacks) - len(above)} lie at the need itself; of the sum of |weight| times reach, the closest other "
            f"lies {min(above):.1e} above the need, and the middle one of all {median(self.slacks):.2f}"
        )
        anywhere = self.anywhere
        print(
            f"{anywhere[CENTRE] + anywhere[INSIDE] + anywhere[CORNER]} exact clearances more from states within the radii that the "
            f"step starts from, {anywhere[CORNER]} {CORNER} and {anywhere[INSIDE]} {INSIDE} of them: each is at least the need, "
            f"{anywhere['at the need']} by exactly 0"
        )
        print(f"{self.uncertain} needs that a row misses by a unit or less: {self.short} have an exact clearance below them")
        print(
            f"{self.at_end_alone} needs that a row clears by value and radius without being certain: {self.short_before} "
            f"have an exact clearance below them before the end of the step, {self.short_between} of these {WITHIN} it alone"
        )


def report(what, title, passage, row, query):
    print(f"{what} ({title}):\n{sheet_text(passage)}{row}\n{query}")
    return 1


def main():
    reference, seed, count = sys.argv[1], int(sys.argv[2]), int(sys.argv[3])
    rng, other = random.Random(seed), random.Random(f"{seed} from anywhere")
    clearances = Clearances()
    for _, (kind, direction) in zip(range(count), cycle(product(KINDS, [FORWARD, BACK]))):
        for title, passage, start in trials(rng, kind(rng, direction)):
            rows = printed_rows(reference, passage)
            for (before, _, row), (values, radii, _) in zip(exact_steps(rng, rows, passage, start), steps(passage, rows)):
                moments = exact_moments(rng, passage, before, row)
                others = list(moments_from_anywhere(other, passage, values, radii, row))
                for _ in range(QUERIES):
                    query = random_query(rng, rng.choice(moments).state, row)
                    wrong = query and (clearances.add(direction_of(passage), query, row, moments) or clearances.add_from_anywhere(query, row, others))
                    if wrong:
                        return report(wrong, title, passage, row, query)
    clearances.print(count, seed)
    return 0


if __name__ == "__main__":
    sys.exit(main())
