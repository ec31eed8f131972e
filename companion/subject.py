"""What a table or a picture is of: one quantity, or the clearance, row by row in its own unit: the planner's numbers,
exactly, and outward of them what the sheet's rounded step and coefficients can do."""

from dataclasses import dataclass
from fractions import Fraction
from itertools import zip_longest

from entries import Refused
from units import SCALE


@dataclass(frozen=True)
class Cell:
    """A subject in a row: its value and radius at the row's own time, and its low and high since the row before."""

    value: Fraction
    radius: Fraction
    low: Fraction
    high: Fraction

    @property
    def least(self):
        return self.value - self.radius

    @property
    def most(self):
        return self.value + self.radius


@dataclass(frozen=True)
class Subject:
    """A subject with its cells, row by row; the start is a cell too, None where there is no reading."""

    name: str
    about: str
    unit: str
    digits: int
    sill: Fraction | None
    start: Cell | None
    cells: tuple
    is_clearance: bool = False


def quantity_subject(quantity, start, parts, drifts):
    """A row for which there is no drift is left as the planner has it."""
    whole = quantity.scale.whole
    cells = tuple(
        widened(part, drift * SCALE, whole / SCALE) for part, drift in zip_longest(parts, drifts, fillvalue=Fraction(0))
    )
    given = None if start.value is None else at_start(start.value * whole / SCALE, start.radius * whole / SCALE)
    return Subject(quantity.name, quantity.about, quantity.scale.unit, quantity.digits, quantity.sill, given, cells)


def widened(part, drift, whole):
    return Cell(
        part.value * whole, (part.radius + drift) * whole, (part.low - drift) * whole, (part.high + drift) * whole
    )


def at_start(value, radius):
    """No step leads to the start: low and high are of its own time."""
    return Cell(value, radius, value - radius, value + radius)


def clearance_subject(clearance, quantities):
    """base + the sum of weight * quantity. Its low has each quantity's low where the weight is positive and its high
    where it is negative, its high the other way round."""
    weights = [clearance.weights.get(quantity.name, Fraction(0)) for quantity in quantities]
    starts = [quantity.start for quantity in quantities]
    start = None if None in starts else weighed(clearance.base, weights, starts)
    cells = tuple(weighed(clearance.base, weights, row) for row in zip(*(quantity.cells for quantity in quantities)))
    about = "" if clearance.about == "clearance" else clearance.about
    return Subject(
        "clearance", about, clearance.scale.unit, clearance.digits, clearance.sill, start, cells, is_clearance=True
    )


def weighed(base, weights, cells):
    pairs = list(zip(weights, cells))
    return Cell(
        base + sum(weight * cell.value for weight, cell in pairs),
        sum(abs(weight) * cell.radius for weight, cell in pairs),
        base + sum(weight * (cell.low if weight > 0 else cell.high) for weight, cell in pairs),
        base + sum(weight * (cell.high if weight > 0 else cell.low) for weight, cell in pairs),
    )


def all_subjects(description, sheet, answer, drifts):
    """Every quantity in the sheet's order, and the clearance last where the description has one."""
    quantities = [
        quantity_subject(
            quantity, start, [row.parts[place] for row in answer.rows], [drift[place] for drift in drifts]
        )
        for place, (quantity, start) in enumerate(zip(description.quantities, sheet.starts))
    ]
    if description.clearance is None:
        return quantities
    return [*quantities, clearance_subject(description.clearance, quantities)]


def chosen(subjects, names):
    """Those that are named, in that order; all where none is."""
    known = {subject.name: subject for subject in subjects}
    for name in names:
        if name not in known:
            raise Refused(None, f"there is no '{name}' here; there are {', '.join(known)}")
    return [known[name] for name in names] or subjects
