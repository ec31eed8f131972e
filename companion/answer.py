"""The planner's answer: rows, and what became of the passage."""

from dataclasses import dataclass


@dataclass(frozen=True)
class Part:
    """A quantity in a row, in units: at the row's own time, and between the row before and this one."""

    value: int
    radius: int
    low: int
    high: int


@dataclass(frozen=True)
class Row:
    degree: int
    parts: tuple


@dataclass(frozen=True)
class Answer:
    rows: tuple
    result: int
    at: int


KEYS = ("value", "radius", "low", "high")


def parsed(text):
    """An answer from the text that the planner printed."""
    fields = [line.split("=") for line in text.splitlines()]
    if [key for key, _ in fields[-2:]] != ["result", "at"]:
        raise ValueError("the planner's answer does not end with result and at")
    rows = []
    for key, number in fields[:-2]:
        if key == "row":
            rows.append([])
        else:
            rows[-1].append((key, int(number)))
    (_, result), (_, at) = fields[-2:]
    return Answer(tuple(row(fields) for fields in rows), int(result), int(at))


def row(fields):
    (key, degree), *parts = fields
    if key != "degree" or [key for key, _ in parts] != list(KEYS) * (len(parts) // len(KEYS)):
        raise ValueError("the planner's answer has a row that is none")
    numbers = [number for _, number in parts]
    return Row(degree, tuple(Part(*numbers[place : place + len(KEYS)]) for place in range(0, len(numbers), len(KEYS))))
