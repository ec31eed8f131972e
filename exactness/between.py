"""Water between the rows run on random small passages, forecasts and hindcasts in turn, some with terms that
repeat, some with a quantity that turns within its first step: from exact states within the radii with which a
step starts, at rational fractions of the step from 0 to 1 and at degrees no lower than the printed one, the exact
sum over the terms as read lies between the row's low and its high in every quantity. Each row is also worked out
anew, with fractions. Prints how much of the reach the exact sums use. Exits 1 at the first sum outside, or where
a row differs.

usage: between.py REFERENCE SEED COUNT      (REFERENCE is the second program's path)
"""

import random
import sys
from collections import Counter
from fractions import Fraction
from itertools import cycle, product
from statistics import median

from exact_sum import SCALE, exact_sum
from like_terms import with_like_terms
from measure import BACK, FORWARD, direction_of, gathered, printed_rows, random_passage, sheet_text
from rounded_step import rounded_step

AT_START, WITHIN, AT_END = "at its start", "within", "at its end"
CORNER, INSIDE, CENTRE = "corners", "points inside", "values themselves"


def with_repeated_terms(rng, direction):
    return with_like_terms(rng, random_passage(rng, direction))


def turning_passage(rng, direction):
    """A passage whose first quantity falls and rises again, or rises and falls, within its first step: its rate is
    the second quantity, which passes 0 there."""
    length = rng.randint(SCALE // 20, 9 * SCALE // 20)
    bend = rng.choice([-1, 1]) * rng.randint(SCALE // 2, 4 * SCALE)
    rate = -direction * rng.randint(1, 999) * bend * length // (1000 * SCALE)
    widest = rng.choice([1, 1000, SCALE // 100])
    starts = [(rng.randint(4 * SCALE, 16 * SCALE), rng.randint(0, widest)), (rate, rng.randint(0, 3))]
    return {
        "steps": rng.randint(1, 3),
        "step": direction * length,
        "tail": rng.choice([2, 10, 100]),
        "starts": starts,
        "terms": [(1, SCALE, 2, 0), (2, bend, 0, 0)],
    }


KINDS = [random_passage, with_repeated_terms, turning_passage]


def random_fraction(rng):
    """A fraction of the step from 0 to 1; a third of them are its ends."""
    whole = rng.choice([rng.randint(2, 9), rng.randint(10, 1000), 10**6, 1 << 20])
    return rng.choice([Fraction(0), Fraction(1), *(Fraction(rng.randint(1, whole - 1), whole) for _ in range(4))])


def place_of(fraction):
    """Where a fraction of the step lies."""
    return {0: AT_START, 1: AT_END}.get(fraction, WITHIN)


def states(rng, values, radii):
    """Exact states within the radii: the values themselves, one inside, and two corners."""

    def state(part):
        return [(value + part() * radius) / SCALE for value, radius in zip(values, radii)]

    return [
        (CENTRE, state(lambda: Fraction(0))),
        (INSIDE, state(lambda: Fraction(rng.randint(-999, 999), 999))),
        (CORNER, state(lambda: Fraction(rng.choice([-1, 1])))),
        (CORNER, state(lambda: Fraction(rng.choice([-1, 1])))),
    ]


def steps(passage, rows):
    """Each row with the values and radii that its step starts from."""
    values, radii = ([pair[part] for pair in passage["starts"]] for part in (0, 1))
    for row in rows:
        yield values, radii, row
        values, radii = row.values, row.radii


def lies_between(state, lows, highs):
    return all(low <= SCALE * number <= high for number, low, high in zip(state, lows, highs))


def shown_by_rows(state, values, radii, row):
    """Whether what the two rows say of their own times holds here too: s times each number is no lower than both
    less their radii, and no higher than both with theirs."""
    before, after = zip(values, radii), zip(row.values, row.radii)
    return all(
        min(one - its, two - other) <= SCALE * number <= max(one + its, two + other)
        for number, (one, its), (two, other) in zip(state, before, after)
    )


class Uses:
    """Which part of its reach each exact sum uses, |s * sum - starting value| / reach, of steps of degree 0 and of
    others."""

    def __init__(self):
        self.met = Counter()
        self.still, self.used = [], []
        self.rows = 0
        self.unseen = 0

    def add(self, kinds, state, values, radii, row):
        self.met.update(kinds)
        self.unseen += not shown_by_rows(state, values, radii, row)
        used = self.used if row.degree else self.still
        for number, value, high in zip(state, values, row.highs):
            if high > value:
                used.append(abs(SCALE * number - value) / (high - value))

    def print(self, count, seed):
        met, used, still = self.met, self.used, self.still
        print(
            f"{met[FORWARD] + met[BACK]} exact sums within the steps of {count} passages from seed {seed}, "
            f"{met[BACK]} of them in hindcasts: each lies between its row's lows and highs"
        )
        print(
            f"{met[AT_START]} of them {AT_START}, {met[WITHIN]} {WITHIN} the step, {met[AT_END]} {AT_END}; "
            f"from {met[CENTRE]} {CENTRE}, {met[INSIDE]} {INSIDE}, {met[CORNER]} {CORNER}"
        )
        print(
            f"of {len(used)} reaches of degree 1 and higher the tightest is used but for {float(1 - max(used)):.1e} of it, "
            f"{sum(part > 0.9 for part in used)} are used to more than 0.9, the middle one to {float(median(used)):.3f}; "
            f"of {len(still)} of degree 0 {still.count(1)} are used wholly"
        )
        print(f"{self.unseen} of the sums lie outside what the two rows about them say of their own times")
        print(f"{self.rows} rows worked out anew with fractions: each has the same degree, values, radii, lows and highs")


def report(what, passage, values, radii, row):
    print(f"{what}:\n{sheet_text(passage)}from values {values}\nand radii {radii}: {row}")
    return 1


def main():
    reference, seed, count = sys.argv[1], int(sys.argv[2]), int(sys.argv[3])
    rng = random.Random(seed)
    uses = Uses()
    kinds = cycle(product(KINDS, [FORWARD, BACK]))
    for _, (kind, direction) in zip(range(count), kinds):
        passage = kind(rng, direction)
        terms, step = passage["terms"], passage["step"]
        for values, radii, row in steps(passage, printed_rows(reference, passage)):
            if rounded_step(values, radii, gathered(terms), step, passage["tail"]) != tuple(row):
                return report("another row by the rule", passage, values, radii, row)
            uses.rows += 1
            for place, state in states(rng, values, radii):
                for _ in range(2):
                    fraction = random_fraction(rng)
                    degree = row.degree + rng.choice([0, 0, 1, 2, 5, 12])
                    sums = exact_sum(state, terms, step, degree, fraction)
                    if not lies_between(sums, row.lows, row.highs):
                        what = f"outside at {fraction} of a step, at degree {degree}, from {state}"
                        return report(what, passage, values, radii, row)
                    uses.add([direction_of(passage), place, place_of(fraction)], sums, values, radii, row)
    uses.print(count, seed)
    return 0


if __name__ == "__main__":
    sys.exit(main())
