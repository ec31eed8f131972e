"""Demand 3 run on random small passages, forecasts and hindcasts in turn: exact states from rational
starts inside the radii, at degrees no lower than printed, lie within every printed radius. Prints how
much of the radius the exact states use. Exits 1 at the first state outside.

usage: measure.py REFERENCE SEED COUNT      (REFERENCE is the second program's path)
"""

import random
import subprocess
import sys
from collections import namedtuple
from fractions import Fraction
from itertools import cycle
from statistics import median

from exact_sum import SCALE, exact_sum, lies_within

LIMIT = 1 << 29
MOST_BITS = 40_000  # Exact states with longer denominators than this are not carried further.
EXACT, EXACT_WIDE_TAIL = "start exact, tail 2 to 100", "start exact, tail 1,000 and up"
INSIDE, ENDS = "start anywhere inside", "start at its ends"
FORWARD, BACK = 1, -1

Row = namedtuple("Row", "degree values radii lows highs")


def random_passage(rng, direction):
    """A passage of one to three quantities, one to four terms and one to four steps, forward or back."""
    n = rng.randint(1, 3)
    reach = rng.choice([SCALE // 100, SCALE, 4 * SCALE, 30 * SCALE])
    widest = rng.choice([1, 1000, SCALE // 25, reach // 20])
    starts = [(rng.randint(-reach, reach), rng.randint(1, widest)) for _ in range(n)]
    terms = []
    for _ in range(rng.randint(1, 4)):
        first = rng.randint(0, n)
        second = rng.randint(0, n) if first else 0
        strongest = rng.choice([SCALE // 10, SCALE, 16 * SCALE])
        terms.append((rng.randint(1, n), rng.randint(-strongest, strongest), first, second))
    return {
        "steps": rng.choice([1, 1, 2, 3, 4]),
        "step": direction * longest_step(starts, terms, rng.uniform(0.01, 0.5)),
        "tail": rng.choice([2, 10, 100, 1000, 10_000, 100_000, 1_000_000]),
        "starts": starts,
        "terms": terms,
    }


def gathered(terms):
    """The terms with like ones added, those with the same target and the same factors in either order;
    each sum in the place of the earliest, and those of 0 left out."""
    sums = {}
    for to, coef, first, second in terms:
        like = to, *sorted([first, second])
        _, total, *factors = sums.get(like, (to, 0, first, second))
        sums[like] = to, total + coef, *factors
    return [term for term in sums.values() if term[1]]


def largest_size(starts, terms):
    """The largest size of a quantity, about: what the length of a step is multiplied by to give its ratio."""
    scale = max([SCALE] + [abs(value) + radius for value, radius in starts]) / SCALE
    sizes = {}
    for to, coef, first, second in terms:
        power = (first > 0) + (second > 0) - 1
        sizes[to] = sizes.get(to, 0) + abs(coef) / SCALE * scale**power
    return max(sizes.values(), default=0)


def longest_step(starts, terms, ratio):
    """About the length of the longest step whose ratio is at most `ratio`."""
    largest = largest_size(starts, gathered(terms))
    return SCALE if largest <= ratio else max(1, int(ratio / largest * SCALE))


def sheet_text(passage):
    lines = [f"n={len(passage['starts'])}"]
    lines += [f"{key}={passage[key]}" for key in ("steps", "step", "tail")]
    lines += [f"tol={LIMIT}"]
    for value, radius in passage["starts"]:
        lines += [f"start={value}", f"radius={radius}"]
    lines += [f"terms={len(passage['terms'])}"]
    for to, coef, first, second in passage["terms"]:
        lines += [f"to={to}", f"coef={coef}", f"first={first}", f"second={second}"]
    return "\n".join(lines) + "\n"


LISTS = {"value": "values", "radius": "radii", "low": "lows", "high": "highs"}


def printed_rows(reference, passage):
    """The rows of the answer."""
    answer = subprocess.run(
        [reference], input=sheet_text(passage), capture_output=True, text=True, check=True
    ).stdout
    rows = []
    for line in answer.splitlines():
        key, number = line.split("=")
        if key == "degree":
            rows.append(Row(int(number), [], [], [], []))
        elif key in LISTS:
            getattr(rows[-1], LISTS[key]).append(int(number))
    return rows


def trials(rng, passage):
    """The passage from a start known exactly, from anywhere inside its radii, and from their ends:
    for each a title, the passage, and the exact state to start from."""

    def state(parts):
        return [(value + next(parts) * radius) / SCALE for value, radius in passage["starts"]]

    inside = iter(lambda: Fraction(rng.randint(-999, 999), 999), None)
    ends = iter(lambda: Fraction(rng.choice([-1, 1])), None)
    centre = iter(lambda: Fraction(0), None)
    exact = passage | {"starts": [(value, 0) for value, _ in passage["starts"]]}
    return [
        (EXACT if passage["tail"] <= 100 else EXACT_WIDE_TAIL, exact, state(centre)),
        (INSIDE, passage, state(inside)),
        (ENDS, passage, state(ends)),
    ]


class Shares:
    """Used parts of radii, |exact - value| / radius, of each direction, sorted into ranges."""

    EDGES = [0.001, 0.01, 0.1, 0.2, 0.3, 0.4, 0.5, 0.6, 0.7, 0.8, 0.9, 1]

    def __init__(self):
        self.used = {FORWARD: [], BACK: []}
        self.radii = []

    def add(self, direction, state, values, radii):
        for number, value, radius in zip(state, values, radii):
            if radius:
                self.used[direction].append(float(abs(SCALE * number - value) / radius))
                self.radii.append(radius)

    def column(self):
        used = self.used[FORWARD] + self.used[BACK]
        counts = [0] * len(self.EDGES)
        for part in used:
            counts[next(i for i, edge in enumerate(self.EDGES) if part <= edge)] += 1
        shares = [f"{100 * count / len(used):.1f} %" for count in counts]
        medians = [median(parts) for parts in (used, self.used[FORWARD], self.used[BACK])]
        return shares + [
            *(f"{part:.5f}" for part in medians),
            f"{max(used):.4f}",
            f"{median(self.radii):.0f}",
            len(used),
        ]


def print_table(columns):
    names = [f"up to {edge}" for edge in Shares.EDGES]
    names += ["median part", "median part of forecasts", "median part of hindcasts"]
    names += ["largest part", "median radius, in units", "radii measured"]
    print("| part of the radius used | " + " | ".join(columns) + " |")
    print("|---|" + "---:|" * len(columns))
    for name, *cells in zip(names, *(shares.column() for shares in columns.values())):
        print(f"| {name} | " + " | ".join(map(str, cells)) + " |")


def random_degree(rng, row):
    """A degree no lower than the printed one."""
    return row.degree + rng.choice([0, 0, 1, 2, 5])


def exact_steps(rng, rows, passage, state):
    """Carries an exact state along the printed rows, at degrees no lower than theirs: each row, with the
    exact states before and after its step."""
    for row in rows:
        degree = random_degree(rng, row)
        bits = max(number.denominator.bit_length() for number in state) + SCALE.bit_length()
        if bits * (degree + 1) > MOST_BITS:
            break
        before, state = state, exact_sum(state, passage["terms"], passage["step"], degree)
        yield before, state, row


def exact_states(rng, rows, passage, state):
    """Each row's exact state, with its values and radii."""
    for _, state, row in exact_steps(rng, rows, passage, state):
        yield state, row.values, row.radii


def direction_of(passage):
    return BACK if passage["step"] < 0 else FORWARD


def check(rng, rows, passage, state, shares):
    """Gives back the number of rows that an exact state went along, or None where it leaves a radius."""
    gone = 0
    for state, values, radii in exact_states(rng, rows, passage, state):
        if not lies_within(state, values, radii):
            return None
        shares.add(direction_of(passage), state, values, radii)
        gone += 1
    return gone


def main():
    reference, seed, count = sys.argv[1], int(sys.argv[2]), int(sys.argv[3])
    rng = random.Random(seed)
    columns = {title: Shares() for title in (EXACT, EXACT_WIDE_TAIL, INSIDE, ENDS)}
    states = {FORWARD: 0, BACK: 0}
    for _, direction in zip(range(count), cycle([FORWARD, BACK])):
        for title, passage, state in trials(rng, random_passage(rng, direction)):
            rows = printed_rows(reference, passage)
            gone = check(rng, rows, passage, state, columns[title])
            if gone is None:
                print(f"outside a printed radius ({title}):\n{sheet_text(passage)}", end="")
                return 1
            states[direction] += gone
    print_table(columns)
    print(
        f"{sum(states.values())} exact states of {3 * count} passages from seed {seed}, "
        f"{states[BACK]} of them in hindcasts, all within their radii"
    )
    return 0


if __name__ == "__main__":
    sys.exit(main())
