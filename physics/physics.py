"""The gallery's answers beside the physics they stand for: closed forms, or a fine integration of the
original equation, from the middle and the ends of the start's radii. Every printed row must hold
them within its radii at its own time, and between its lows and highs all through its step; and every
row that is certain to clear a need must see them clear it all through its step. Exits 1 otherwise.
"""

import itertools
import sys
from collections import namedtuple
from math import inf
from pathlib import Path

from forms import FORMS

SHEETS = Path(__file__).parent.parent / "sheets"
SCALE = 1 << 24
FLOATING_POINT_ERROR = 1e-2  # In units; the forms are computed in 64-bit floats.
FRACTIONS = 32  # Of each step, at which the physics is looked at.

Query = namedtuple("Query", "weights base need")  # In wholes, the weights by quantity.

QUERIES = {
    "approach-over-sill": [Query({5: 1}, 0, 1), Query({5: 1, 4: -0.5}, 0, 1), Query({5: 1}, 1, 2)],
    "mark-at-quay": [Query({5: 1}, 0, 2), Query({5: -1}, 0, -2)],
    "over-low-water": [Query({3: 1}, 0, 1.87), Query({3: 1}, 0, 2.19)],
    "ship-losing-way": [Query({1: -1}, 0, -3), Query({3: 3}, 0, 1)],
    "tide-over-sill": [Query({5: 1}, 0, 2), Query({5: 1}, 0, 6), Query({1: 1, 3: 1}, 4, 2)],
}


def margin(query, wholes):
    """By how much the clearance lies above the need where the quantities are these."""
    weighed = sum(weight * wholes[quantity - 1] for quantity, weight in query.weights.items())
    return query.base + weighed - query.need


def lines(path):
    pairs = (line.split("=") for line in path.read_text().splitlines())
    return [(key, int(number)) for key, number in pairs]


def numbers(pairs, key):
    return [number for name, number in pairs if name == key]


def ends(sheet):
    """The middle and the ends of the start's radii, of each quantity with a radius in each combination."""
    middles, widths = numbers(sheet, "start"), numbers(sheet, "radius")
    choices = itertools.product(*([-1, 0, 1] if width else [0] for width in widths))
    return [
        [(middle + end * width) / SCALE for middle, width, end in zip(middles, widths, choice)]
        for choice in choices
    ]


class Gallery:
    """A sheet of the gallery and its answer."""

    def __init__(self, name):
        self.form = FORMS[name]
        self.sheet, self.answer = lines(SHEETS / f"{name}.sheet"), lines(SHEETS / f"{name}.answer")
        [self.step], [self.n] = numbers(self.sheet, "step"), numbers(self.sheet, "n")
        self.coefs = [coef / SCALE for coef in numbers(self.sheet, "coef")]
        self.middle = [start / SCALE for start in numbers(self.sheet, "start")]
        self.starts = ends(self.sheet)

    def rows(self, key):
        """The answer's numbers with this key, row by row."""
        all_rows = numbers(self.answer, key)
        return [all_rows[place : place + self.n] for place in range(0, len(all_rows), self.n)]

    def time(self, row):
        """A row's own time, or that of a part of its step, by the sheet's unit of time."""
        return row * self.step / SCALE

    def error(self, row, quantity):
        """How far a row's value is from the physics, from the middle of the start's radii, in units."""
        physics = self.form(self.middle, self.coefs, self.time(row))
        return abs(SCALE * physics[quantity - 1] - self.rows("value")[row - 1][quantity - 1])

    def farthest(self, row, middles, widths):
        """The largest |physics - middle| / width at a row's time, over all starts and quantities."""
        largest = 0
        for start in self.starts:
            physics = self.form(start, self.coefs, self.time(row))
            for number, middle, width in zip(physics, middles, widths):
                off = abs(SCALE * number - middle) - FLOATING_POINT_ERROR
                largest = max(largest, off / width)
        return largest

    def reaches(self):
        """Of each row the middles between its lows and highs, and how far these are from them."""
        for lows, highs in zip(self.rows("low"), self.rows("high")):
            yield (
                [(low + high) / 2 for low, high in zip(lows, highs)],
                [(high - low) / 2 for low, high in zip(lows, highs)],
            )

    def part_of_radii(self):
        """The largest part of a radius that the physics uses, at the rows' own times."""
        rows = zip(itertools.count(1), self.rows("value"), self.rows("radius"))
        return max(self.farthest(row, values, radii) for row, values, radii in rows)

    def part_of_reaches(self):
        """The largest part of a reach that it uses, all through the steps."""
        return max(
            self.farthest(before + part / FRACTIONS, middles, reaches)
            for before, (middles, reaches) in enumerate(self.reaches())
            for part in range(FRACTIONS + 1)
        )

    def assured(self, query, downward, upward):
        """By how much each row lies above the need, where a positive weight takes a number of the one kind and a
        negative weight one of the other."""
        return [
            margin(query, [(down if query.weights.get(i, 0) > 0 else up) / SCALE for i, down, up in quantities])
            for quantities in (zip(itertools.count(1), *row) for row in zip(downward, upward))
        ]

    def certain_rows(self, query):
        """The rows that are certain to clear the need, by their lows and highs."""
        margins = self.assured(query, self.rows("low"), self.rows("high"))
        return {number for number, by in enumerate(margins, 1) if by >= 0}

    def rows_clear_at_end(self, query):
        """The rows that clear it at their own times, by values and radii."""
        pairs = [list(zip(*row)) for row in zip(self.rows("value"), self.rows("radius"))]
        below, above = ([[value + side * radius for value, radius in row] for row in pairs] for side in (-1, 1))
        margins = self.assured(query, below, above)
        return {number for number, by in enumerate(margins, 1) if by >= 0}

    def least_margin(self, query, rows):
        """The least margin of the physics all through the steps of some rows."""
        times = [self.time(row - 1 + part / FRACTIONS) for row in rows for part in range(FRACTIONS + 1)]
        forms = (self.form(start, self.coefs, time) for time in times for start in self.starts)
        return min((margin(query, physics) for physics in forms), default=inf)

    def widths(self):
        """How many times a reach is the radius at the end of its step: the least and the most."""
        pairs = zip(self.reaches(), self.rows("radius"))
        parts = [reach / radius for (_, reaches), radii in pairs for reach, radius in zip(reaches, radii)]
        return min(parts), max(parts)


def runs(rows):
    """Row numbers as ranges."""
    firsts = sorted(number for number in rows if number - 1 not in rows)
    lasts = sorted(number for number in rows if number + 1 not in rows)
    return ", ".join(f"{first} to {last}" for first, last in zip(firsts, lasts)) or "none"


def shown(query):
    weighed = "".join(f" + {weight} * quantity {quantity}" for quantity, weight in query.weights.items())
    return f"{query.base}{weighed} >= {query.need}"


def falls_short(name, gallery, query):
    """Whether the physics falls short of a need within the step of a row that is certain to clear it. Prints by how much
    it lies above the need at least, there and in the rows that clear the need by value and radius alone."""
    certain = gallery.certain_rows(query)
    alone = gallery.rows_clear_at_end(query) - certain
    least, least_alone = gallery.least_margin(query, certain), gallery.least_margin(query, alone)
    print(
        f"{name}, {shown(query)}: rows certain: {runs(certain)}, least margin of the physics {least:.4f}; "
        f"by value and radius alone: {runs(alone)}, {least_alone:.4f}"
    )
    return least < -FLOATING_POINT_ERROR / SCALE


def main():
    names = sorted(path.stem for path in SHEETS.glob("*.sheet"))
    outside = 0
    for name in names:
        gallery = Gallery(name)
        radius, reach = gallery.part_of_radii(), gallery.part_of_reaches()
        outside += radius > 1 or reach > 1
        print(
            f"{name}: the physics uses at most {radius:.5f} of a radius, and {reach:.5f} of a reach, "
            "which is {:.1f} to {:.1f} times the radius".format(*gallery.widths())
        )
        outside += sum(falls_short(name, gallery, query) for query in QUERIES.get(name, []))
    return 1 if outside else 0


if __name__ == "__main__":
    sys.exit(main())
