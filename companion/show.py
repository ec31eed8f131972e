"""An answer as a table in the description's names, units and clock time, as text and as CSV; where there is water
enough; and a refusal in words. Every number is rounded so that the table never says more than the planner does: a
radius and whatever lies above up, whatever lies below down."""

import csv
import io
from math import ceil, floor

import explain
import valid
from clock import length
from drift import shares
from refusals import ADVICE, MEANING, kept
from units import at_least, at_most, decimal, near, with_unit

OUTWARD = "rounded outward; a radius has in it what its value was rounded by"
ROUNDED = "the sheet's rounded step and coefficients"
FOOT = [
    "For certain means: by these equations, and within what the readings are good to. Not in it, unless the equations have it:",
    "surge, wind, air pressure, squat, and what the chart's datum or its depths are off by.",
]
COLUMNS = ("value", "radius", "at least", "at most", "at least", "at most")


def cell_texts(cell, digits):
    """A cell's numbers. The radius is widened by what the value was rounded by, so that the two hold what they held."""
    value = near(cell.value * 10**digits)
    moved = abs(value - cell.value * 10**digits)
    radius = ceil(cell.radius * 10**digits + moved)
    return (
        decimal(cell.value, digits),
        decimal(radius, digits, lambda number: number // 10**digits),
        decimal(cell.least, digits, floor),
        decimal(cell.most, digits, ceil),
        decimal(cell.low, digits, floor),
        decimal(cell.high, digits, ceil),
    )


def title(subject):
    told = f"{subject.name}, {subject.about}" if subject.about else subject.name
    return f"{told} ({subject.unit})" if subject.unit != "1" else told


def table(plan, subject, digits):
    """One subject's lines: the start, then a line for each row."""
    clock = plan.clock
    lines = [("", clock.heading(), "degree", *COLUMNS)]
    if subject.start is not None:
        lines.append(("0", clock.text(0), "", *cell_texts(subject.start, digits)[:4], "", ""))
    for number, (row, cell) in enumerate(zip(plan.answer.rows, subject.cells), 1):
        lines.append((str(number), clock.text(number), str(row.degree), *cell_texts(cell, digits)))
    widths = [max(map(len, column)) for column in zip(*lines)]
    laid = ["  ".join(word.rjust(width) for word, width in zip(line, widths)).rstrip() for line in lines]
    before = sum(widths[:3]) + 6
    own, since = sum(widths[3:7]) + 6, sum(widths[7:]) + 2
    heading = " " * before + "at the row's time".center(own) + "  " + "through the step".center(since)
    return [title(subject), heading.rstrip(), *laid]


def clear_words(plan, search):
    """Where there is water enough for certain, in sentences."""
    clearance, time = plan.description.clearance, plan.description.time
    about = f"{clearance.about}: at least {with_unit(at_least(search.need), clearance.scale.unit)}"
    if not search.runs:
        span = length(time, search.rows * abs(time.step))
        rows = "1 row" if search.rows == 1 else f"{search.rows} rows in a row"
        return [f"{about} nowhere for certain, for {span} ({rows})"]
    words = []
    for first, last in search.runs:
        begin, end = plan.clock.window(first, last)
        rows = f"row {first}" if first == last else f"rows {first} to {last}"
        words.append(f"{about} from {begin} to {end}, for certain and all the way ({rows})")
    return words


def remark(plan):
    """How the tables are to be read."""
    besides = f", and what {ROUNDED} can do" if any(map(any, plan.drifts)) else ""
    return f"({OUTWARD}{besides})"


def unbounded_words(plan):
    """From when on it is not known what the roundings of the sheet can do."""
    known = len(plan.drifts)
    if known == len(plan.answer.rows):
        return []
    begin = plan.clock.told(known)
    when = f"from {begin} on" if plan.description.time.step > 0 else f"before {begin}"
    return [
        f"{when}, what {ROUNDED} can do is not bounded: rows from {known + 1} on answer for the sheet's equations "
        "alone, and nothing in them is called certain"
    ]


def drift_words(plan):
    """What the roundings of the sheet can do to each quantity, up to the last row."""
    described, rows = plan.description, len(plan.answer.rows)
    if not any(each.moved for each in shares(described, plan.sheet)):
        return []
    if not rows:
        return [f"what {ROUNDED} can do is not known: the passage has no rows"]
    if not plan.drifts:
        return unbounded_words(plan)
    told = (
        f"{quantity.name} {with_unit(at_most(drift * quantity.scale.whole), quantity.scale.unit)}"
        for quantity, drift in zip(described.quantities, plan.drifts[-1])
    )
    until = f"up to row {len(plan.drifts)}, at most"
    return [f"what {ROUNDED} can do, {until}: {', '.join(told)}; show and draw add it outward", *unbounded_words(plan)]


def refusal_words(plan):
    """Why the sheet or the passage was refused, and what to do."""
    answer = plan.answer
    if answer.result == 0:
        return []
    where = ""
    if answer.at:
        begin, end = plan.clock.text(answer.at - 1), plan.clock.told(answer.at)
        where = f"step {answer.at}, from {begin} to {end}, is "
    return [
        f"{where}refused with {answer.result}: {MEANING[answer.result]}",
        *(explain.closer(plan.sheet.text().encode(), answer, plan.description) if answer.at else []),
        f"{kept(len(answer.rows))} {ADVICE[answer.result]}",
    ]


def window_words(plan, search):
    """Where there is water enough, with what there is to note; nothing where nothing was searched for."""
    if search is None:
        return []
    offset = plan.description.time.offset
    notes = [*search.said, *([f"the times are {offset}"] if offset else [])]
    return [*clear_words(plan, search), *(f"({words})" for words in notes)]


def foremost(plan, search):
    """What stands first: where there is water enough, from when on nothing is called so, and why a step is refused."""
    return [part for part in (window_words(plan, search), end_words(plan), refusal_words(plan)) if part]


def end_words(plan):
    """From when on nothing is called certain: no equation holds there, or what rounding can do is not bounded."""
    return [*valid.words(plan), *unbounded_words(plan)]


def brief(plan, search):
    """The windows and the refusal alone."""
    parts = foremost(plan, search)
    rows = "1 row" if len(plan.answer.rows) == 1 else f"{len(plan.answer.rows)} rows"
    return laid_out(parts or [[f"accepted: {rows}; no need is asked for"]])


def text(plan, search, subjects, digits=None):
    """The whole answer as text: what was asked first, the tables after it."""
    parts = [[plan.description.title]] if plan.description.title else []
    parts += foremost(plan, search)
    if plan.answer.rows:
        parts += [table(plan, subject, subject.digits if digits is None else digits) for subject in subjects]
        parts.append([remark(plan)])
    if search is not None and search.runs:
        parts.append(FOOT)
    return laid_out(parts)


def laid_out(parts):
    """Parts of lines, with an empty line between two."""
    return "\n\n".join("\n".join(lines) for lines in parts) + "\n"


def comma_separated(plan, search, subjects, digits=None):
    """The rows as CSV: a line each, with six columns for each subject, and whether the row is in a run that was
    searched for."""
    output = io.StringIO()
    writer = csv.writer(output, lineterminator="\n")
    columns = (*COLUMNS[:4], "at least since the row before", "at most since the row before")
    heading = ["row", plan.clock.heading(), "degree"]
    for subject in subjects:
        heading += [
            f"{subject.name} {column}" + (f" ({subject.unit})" if subject.unit != "1" else "") for column in columns
        ]
    writer.writerow(heading + (["clear"] if search is not None else []))
    clear = set() if search is None else {row for first, last in search.runs for row in range(first, last + 1)}
    for number, row in enumerate(plan.answer.rows, 1):
        cells = [
            word
            for subject in subjects
            for word in cell_texts(subject.cells[number - 1], subject.digits if digits is None else digits)
        ]
        told = ["yes" if number in clear else "no"] if search is not None else []
        writer.writerow([number, plan.clock.text(number), row.degree, *cells, *told])
    return output.getvalue()
