"""The range in which a quantity's equation means anything, `valid = "0 m to 8 m"`: how it is written, how many rows lie
within the ranges of all quantities, and what is said of those that do not. Once a row may have been outside, an
equation was used where it does not hold: nothing from that row on is called clear."""

import re
from dataclasses import dataclass
from fractions import Fraction
from math import floor

from units import NUMBER, shown, with_unit

FORMS = (
    re.compile(r"(?P<least>.+?)\s+to\s+(?P<most>.+)"),
    re.compile(r"(?P<least>.+?)\s+or\s+more"),
    re.compile(r"(?P<most>.+?)\s+or\s+less"),
)


@dataclass(frozen=True)
class Range:
    """From the least to the most, both in the quantity's unit and both within; None where there is no such end."""

    least: Fraction | None
    most: Fraction | None
    unit: str

    def holds(self, low, high):
        return (self.least is None or self.least <= low) and (self.most is None or high <= self.most)

    def words(self):
        if self.most is None:
            return f"for {self.amount(self.least)} or more"
        if self.least is None:
            return f"for {self.amount(self.most)} or less"
        return f"from {self.amount(self.least)} to {self.amount(self.most)}"

    def beyond(self, low):
        """At which end something that is not within, with such a low, may lie beyond."""
        if self.least is not None and low < self.least:
            return f"under {self.amount(self.least)}"
        return f"over {self.amount(self.most)}"

    def amount(self, number):
        return with_unit(shown(number), self.unit)


@dataclass(frozen=True)
class Within:
    """How many rows from the first on are within every range, and which quantity leaves its range then, at which end:
    None where all rows are within."""

    rows: int
    name: str | None = None
    beyond: str | None = None
    range: Range | None = None


def ends(text):
    """The texts of a range's two ends, None for one that is left out; None where the text is no range. An end without a
    unit has that of the other: "0 to 8 m"."""
    found = next((found for form in FORMS if (found := form.fullmatch(text.strip()))), None)
    if found is None:
        return None
    named = {"least": None, "most": None} | found.groupdict()
    units = [unit_of(end) for end in named.values() if end is not None and unit_of(end)]
    return tuple(
        end if end is None or unit_of(end) or not units else f"{end} {units[0]}" for end in named.values()
    )


def unit_of(end):
    """What stands behind an end's number."""
    found = NUMBER.match(end)
    return "" if found is None else end[found.end() :].strip()


def within(plan):
    """Asks every cell of every quantity that has a range: its low and high all through its step, and the start's."""
    ranged = [
        (quantity, subject)
        for quantity, subject in zip(plan.description.quantities, plan.subjects)
        if quantity.valid is not None
    ]
    for row in range(len(plan.answer.rows)):
        for quantity, subject in ranged:
            cells = subject.cells[row : row + 1] if row else (subject.start, subject.cells[0])
            for cell in cells:
                if not quantity.valid.holds(cell.low, cell.high):
                    return Within(row, quantity.name, quantity.valid.beyond(cell.low), quantity.valid)
    return Within(len(plan.answer.rows))


def cut(runs, prefix, rows):
    """What is left of runs of rows, each of so many rows at least, in the first rows up to a prefix."""
    shortened = ((first, min(last, prefix)) for first, last in runs)
    return tuple((first, last) for first, last in shortened if last - first + 1 >= rows)


def words(plan):
    """From when on nothing is called clear, and why; nothing where all rows are within."""
    found = within(plan)
    if found.name is None:
        return []
    back = plan.description.time.step < 0
    moment = plan.clock.told(found.rows, floor if not back else lambda number: -floor(-number))
    when, there = (f"before {moment}", "before that") if back else (f"from {moment} on", "from there on")
    return [
        f"{when} {found.name} may be {found.beyond}, and its equation holds {found.range.words()} only: nothing {there} is "
        "called clear"
    ]
