"""Demand 3 run on random small passages whose terms repeat, swap their factors, cancel or are 0,
forecasts and hindcasts in turn: the printed rows are those of the gathered terms, and exact states from
the terms as read lie within every printed radius. Each is also the exact state from the gathered terms.
Prints what was met. Exits 1 at the first state outside, or where the two differ.

usage: like_terms.py REFERENCE SEED COUNT      (REFERENCE is the second program's path)
"""

import random
import sys
from collections import Counter
from itertools import combinations, cycle

from exact_sum import SCALE, lies_within
from measure import (
    BACK,
    FORWARD,
    exact_states,
    gathered,
    largest_size,
    longest_step,
    printed_rows,
    random_passage,
    sheet_text,
    trials,
)

MOST_COEF = 16 * SCALE
LIKE, SWAPPED, GONE = "like terms", "swapped factors", "terms that all cancel"
ZERO, BEYOND = "a lone term of 0", "a sum beyond the range of a coefficient"
LONGER = "a first step that would be too long by the terms as read"


def random_parts(rng, coef):
    """Coefficients of like terms: their sum is `coef`, 0, next to nothing or beyond the range; or a single 0."""
    part = rng.choice([SCALE // 10, SCALE, MOST_COEF])
    kind = rng.randrange(6)
    if kind == 0:
        return [coef]
    if kind == 1:
        return [0]
    if kind == 2:
        return rng.choice([[part, -part], [-part, part], [part, 0, -part]])
    if kind == 3:
        little = coef // 1000
        return [little + part, -part] if little < 0 else [little - part, part]
    if kind == 4:
        return [rng.choice([-1, 1]) * MOST_COEF] * rng.randint(2, 3)
    return [coef // 3, part // 7, coef - coef // 3 - part // 7]


def random_term(rng, to, coef, first, second):
    """The term, or as often the one with its two factors the other way round."""
    return (to, coef, second, first) if second and rng.random() < 0.5 else (to, coef, first, second)


def with_like_terms(rng, passage):
    """The passage with like terms for each of its terms, and a step that fits these."""
    all_cancel = rng.random() < 0.1
    terms = []
    for to, coef, first, second in passage["terms"]:
        parts = [coef, -coef] if all_cancel else random_parts(rng, coef)
        terms += [random_term(rng, to, part, first, second) for part in parts]
    rng.shuffle(terms)
    direction = BACK if passage["step"] < 0 else FORWARD
    length = longest_step(passage["starts"], terms, rng.uniform(0.01, 0.5))
    return passage | {"step": direction * length, "terms": terms}


def like(one, other):
    return one[0] == other[0] and sorted(one[2:]) == sorted(other[2:])


def kinds(passage, rows):
    """What the passage has of the things that gathering is about."""
    terms, sums = passage["terms"], gathered(passage["terms"])
    pairs = [(one, other) for one, other in combinations(terms, 2) if like(one, other)]
    size = largest_size(passage["starts"], terms)
    met = {
        LIKE: pairs,
        SWAPPED: [one for one, other in pairs if one[2:] != other[2:]],
        GONE: not sums,
        ZERO: [one for one in terms if not one[1] and sum(like(one, other) for other in terms) == 1],
        BEYOND: [one for one in sums if abs(one[1]) > MOST_COEF],
        LONGER: rows and size * abs(passage["step"]) > 0.501 * SCALE,
    }
    return [kind for kind, found in met.items() if found]


def both_states(rng, rows, passage, start):
    """The exact states from the terms as read, and from the gathered ones, at the same degrees."""
    seed = rng.random()
    sums = passage | {"terms": gathered(passage["terms"])}
    return zip(
        exact_states(random.Random(seed), rows, passage, start),
        exact_states(random.Random(seed), rows, sums, start),
    )


def main():
    reference, seed, count = sys.argv[1], int(sys.argv[2]), int(sys.argv[3])
    rng = random.Random(seed)
    states = {FORWARD: 0, BACK: 0}
    met = Counter()
    for _, direction in zip(range(count), cycle([FORWARD, BACK])):
        passage = with_like_terms(rng, random_passage(rng, direction))
        met.update(kinds(passage, printed_rows(reference, passage)))
        for title, passage, start in trials(rng, passage):
            rows = printed_rows(reference, passage)
            for (state, values, radii), (other, _, _) in both_states(rng, rows, passage, start):
                if state != other or not lies_within(state, values, radii):
                    what = "outside a printed radius" if state == other else "another exact state from the gathered terms"
                    print(f"{what} ({title}):\n{sheet_text(passage)}", end="")
                    return 1
                states[direction] += 1
    print(
        f"{sum(states.values())} exact states of {3 * count} passages with terms that repeat, from seed {seed}, "
        f"{states[BACK]} of them in hindcasts: all within their radii, each the same from the gathered terms"
    )
    print(
        f"of {count} passages: "
        + "; ".join(f"{met[kind]} with {kind}" for kind in (LIKE, SWAPPED, GONE, ZERO, BEYOND, LONGER))
    )
    return 0


if __name__ == "__main__":
    sys.exit(main())
