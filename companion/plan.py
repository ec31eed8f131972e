"""A passage as a person asks for it: a description, its sheet, the planner's answer, and where the search found water
enough."""

from dataclasses import dataclass
from fractions import Fraction
from itertools import groupby

import programs
import valid
from answer import Answer
from clock import Clock
from description import Description, rows_of
from drift import drifts
from entries import Refused
from query import query
from sheet import MOST_STEPS, Sheet, Writer
from subject import all_subjects


@dataclass(frozen=True)
class Plan:
    """The drifts are for the rows from the first on: of rows without one nothing is called certain."""

    description: Description
    sheet: Sheet
    answer: Answer
    drifts: tuple
    clock: Clock
    subjects: tuple


@dataclass(frozen=True)
class Search:
    """What was asked for, in the clearance's unit, and the runs of rows that are certain to have it; and each
    rounding."""

    need: Fraction
    rows: int
    runs: tuple
    said: tuple


def plan(description):
    """Runs a description's sheet through the planner."""
    sheet = Writer(description).sheet()
    return with_answer(description, sheet, programs.plan(sheet.text().encode()))


def with_answer(description, sheet, answer):
    """The plan that a sheet and its answer make."""
    drifted = drifts(description, sheet, answer)
    subjects = tuple(all_subjects(description, sheet, answer, drifted))
    return Plan(description, sheet, answer, drifted, Clock(description.time), subjects)


def wanted(description, need=None, length=None):
    """The need that is asked for, in the clearance's unit, and for how many rows. A need, and a length of time in the unit
    of time, take the place of the description's. None where there is nothing to ask."""
    clearance = description.clearance
    if clearance is None:
        return None
    need = clearance.need if need is None else need
    if need is None:
        return None
    rows = clearance.rows if length is None else rows_of(length, description.time)
    if rows > MOST_STEPS:
        raise Refused(
            description.lines.line("clearance", "for"), f"{rows} rows are past what a passage has, {MOST_STEPS}"
        )
    return need, rows


def search(plan, need=None, length=None):
    """Asks the proved search of a plan's clearance, for what is wanted. None where there is nothing to ask."""
    asked = wanted(plan.description, need, length)
    if asked is None or not plan.answer.rows:
        return None
    need, rows = asked
    questions, said = query(plan.description, need, plan.drifts)
    certain, ended = programs.search(plan.sheet.text().encode(), questions)
    if isinstance(certain, int) or ended != (plan.answer.result, plan.answer.at):
        raise programs.Failed(
            f"the search says {certain} of a passage that ended with {ended}, and the planner's ended with "
            f"{(plan.answer.result, plan.answer.at)}"
        )
    found = valid.cut(runs(certain, rows), valid.within(plan).rows, rows)
    return Search(need, rows, found, tuple(said))


def runs(certain, least):
    """Each run of at least so many rows, one after another, that no longer run holds: its first row and its last."""
    for _, group in groupby(enumerate(certain), lambda pair: pair[1] - pair[0]):
        rows = [row for _, row in group]
        if len(rows) >= least:
            yield rows[0], rows[-1]
