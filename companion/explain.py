"""Why a sheet or a passage is refused, in words: the line, what stands there and what would be right; the step, the
quantity and by how much. That it is refused, and with which number, is the planner's answer. What it was decided by is
the second program's reading. Where the two do not agree, there is no explanation, only that they differ."""

from dataclasses import dataclass
from fractions import Fraction
from math import ceil, floor

import programs
from advice import larger, with_wholes
from clock import Clock, length
from description import Scale
from entries import Refused
from refusals import ADVICE, MEANING, kept
from sheet import Writer
from units import SCALE, decimal, shown, with_unit

SPELLING = "one to nine digits without a leading zero, without plus, point, comma or space"
PLAIN = Scale("1", Fraction(1))
FEWEST_PLACES = 3
WHOLES_TRIED = 3


class Differ(Exception):
    """The planner and the second program do not say the same of a sheet."""


@dataclass(frozen=True)
class Reading:
    """What the second program says: result and step, then one or more groups of fields."""

    result: int
    at: int
    groups: tuple


def reading(text):
    (_, result), (_, at), *fields = (line.split("=", 1) for line in text.splitlines())
    groups = [{}]
    for key, value in fields:
        if key in groups[-1]:
            groups.append({})
        groups[-1][key] = value
    return Reading(int(result), int(at), tuple(groups))


def places_for(number):
    """How many places behind the point tell a number that is more than 0."""
    places = next((places for places in range(FEWEST_PLACES, 60) if number * 10**places >= 10), None)
    if places is None:
        raise Differ("the second program names a quantity that is not to blame, and nothing is explained")
    return places


class Names:
    """How a sheet's quantities and times are told: by the description's names and units where there is one, else by
    their numbers and in wholes."""

    def __init__(self, description=None):
        self.description = description
        self.clock = None if description is None else Clock(description.time)

    def quantity(self, number):
        return f"quantity {number}" if self.description is None else self.description.quantities[number - 1].name

    def amounts(self, number, *units):
        """Numbers of units of a quantity, in its own unit, with places enough to tell the last of them, which is more
        than 0."""
        scale = PLAIN if self.description is None else self.description.quantities[number - 1].scale
        whole = scale.whole / SCALE
        places = places_for(units[-1] * whole)
        told = (with_unit(decimal(each * whole, places), scale.unit) for each in units)
        return told if self.description else (f"{text} ({each} units)" for text, each in zip(told, units))

    def step(self, at):
        if self.clock is None:
            return f"step {at}"
        return f"step {at}, from {self.clock.text(at - 1)} to {self.clock.told(at)},"

    def length(self, units):
        """A length of time that is no longer than so many units."""
        if self.description is None:
            return f"{decimal(Fraction(units, SCALE), FEWEST_PLACES, floor)} ({units} units)"
        time = self.description.time
        told = length(time, units * time.scale.whole / SCALE, floor)
        return told if set(told) & set("123456789") else f"{units} units"


def line_words(names, fields):
    """Where the fault is in the sheet, what stands there, and what would be right."""
    line, key, found, why = fields["line"], fields["key"], fields["found"], fields["why"]
    of = ""
    if "quantity" in fields:
        of = f" of {names.quantity(int(fields['quantity']))}"
    elif "term" in fields:
        of = f" of term {fields['term']}"
    right = {
        "key": f"'{key}=' and a number",
        "missing": f"'{key}=' and a number",
        "number": f"'{key}=' and a number: {SPELLING}",
        "sign": "a number without a minus: only step, start and coef may have one",
        "unended": "the same line with a line feed at its end",
        "after": "nothing: the sheet is complete before it, by its n and terms",
        "reading": "a number: the reading",
    }
    if why == "range":
        least, most = fields["least"], fields["most"]
        right["range"] = f"a number from {least} to {most}" + (f", but not {fields['not']}" if "not" in fields else "")
    stands = "nothing" if why == "missing" else f"'{found}'"
    field = "after the last line" if key == "end" else f"{key}{of}"
    return [f"line {line} of the sheet, {field}: there stands {stands}", f"right would be {right[why]}"]


def step_words(names, at, result, groups):
    """Which quantity it was, and by how much."""
    yield f"{names.step(at)} is refused"
    for fields in groups:
        number = int(fields["quantity"])
        yield STEP_WORDS[result](
            names, number, names.quantity(number), {key: int(value) for key, value in fields.items()}
        )


def too_large(names, number, name, fields):
    keys = ("value", "radius", "size", "most")
    value, radius, size, most, over = names.amounts(
        number, *(fields[key] for key in keys), fields["size"] - fields["most"]
    )
    return f"{name} is {value} there, good to {radius}: together {size}, and the planner works with {most} at most: {over} too much"


def too_long(names, number, name, fields):
    ratio, most = fields["ratio"], fields["most"]
    return (
        f"its ratio is {decimal(Fraction(ratio, SCALE), 3)} ({ratio} units), and one half ({most}) is the most; the rate of "
        f"{name} sets it; from there a step of {names.length(fields['longest'])} would pass"
    )


def too_wide(names, number, name, fields):
    keys = ("before", "radius", "most")
    before, radius, most, over = names.amounts(
        number, *(fields[key] for key in keys), fields["radius"] - fields["most"]
    )
    return f"the radius of {name} would go from {before} to {radius}, and the tolerance is {most}: {over} too much"


STEP_WORDS = {6: too_large, 7: too_long, 8: too_wide}


def passing_words(names, at, result, groups):
    """What would let the step pass, where that can be told: of 7 the longest step is told already."""
    if result == 8:
        needed = max(int(fields["radius"]) for fields in groups)
        yield f"with {tolerance_words(names.description, needed, int(groups[0]['most']))} this step would pass"
    if result == 6 and names.description is not None:
        whole = whole_words(names.description, at, [int(fields["quantity"]) for fields in groups])
        if whole:
            yield f"with {whole} this step would pass"


def tolerance_words(description, needed, most):
    """The tolerances that take a radius of so many units, where the most was less: of each quantity that has a stricter
    one, rounded up."""
    if description is None:
        return f"tol={needed}"
    told = []
    for quantity in description.quantities:
        whole = quantity.scale.whole / SCALE
        if quantity.tolerance is not None and floor(quantity.tolerance * SCALE) < needed:
            allowed = decimal(needed * whole, places_for((needed - most) * whole), ceil)
            told.append(f"{with_unit(allowed, quantity.scale.unit)} for {quantity.name}")
    return f"a tolerance of {' and '.join(told)}"


def whole_words(description, at, numbers):
    """The 'whole' with which the quantities of these numbers are not too large before a step: tried with the planner.
    None where no round number near does it."""
    blamed = [description.quantities[number - 1] for number in numbers]
    scale = blamed[0].scale
    alike = {quantity.name for quantity in description.quantities if quantity.scale == scale}
    names = {quantity.name for quantity in blamed}
    choices = [(names, " and ".join(quantity.name for quantity in blamed)), (alike, f"every quantity in {scale.unit}")]
    for names, of in choices if names <= alike else []:
        for whole in larger(scale.whole + Fraction(1, SCALE))[:WHOLES_TRIED]:
            if passes(with_wholes(description, names, whole), at):
                return f"'whole = {shown(whole)}' for {of}"
    return None


def passes(description, at):
    """Whether the planner lets a description's step pass."""
    try:
        answer = programs.plan(Writer(description, advises=False).sheet().text().encode())
    except Refused:
        return False
    return answer.result == 0 or answer.at > at


def agreed(sheet, answer):
    """What the second program says of a sheet's bytes, where that is what the planner answers."""
    said = reading(programs.second("explain", sheet))
    if (answer.result, answer.at) != (said.result, said.at):
        raise Differ(
            f"the planner answers {answer.result} at {answer.at}, and the second program {said.result} at {said.at}: "
            "one of them is wrong, and nothing is explained"
        )
    return said


def words(sheet, description=None):
    """The lines that explain a sheet's bytes, and the planner's result."""
    answer = programs.plan(sheet)
    return told(answer, agreed(sheet, answer), Names(description)), answer.result


def closer(sheet, answer, description):
    """Of a step that the planner refused, which quantity it was, by how much, and what would pass. Where the second
    program does not tell it, that there is no closer explanation."""
    try:
        said, names = agreed(sheet, answer), Names(description)
        _, *lines = step_words(names, answer.at, answer.result, said.groups)
        return [*lines, *passing_words(names, answer.at, answer.result, said.groups)]
    except Differ as differ:
        return [f"(there is no closer explanation: {differ})"]
    except programs.Failed:
        return [
            "(there is no closer explanation: the second program could not be built or run; companion/passage explain "
            "says why)"
        ]


def told(answer, said, names):
    if answer.result == 0:
        return [f"accepted: {len(answer.rows)} rows of {len(answer.rows)}"]
    lines = [f"refused with {answer.result}: {MEANING[answer.result]}"]
    if answer.at:
        lines += step_words(names, answer.at, answer.result, said.groups)
        lines += passing_words(names, answer.at, answer.result, said.groups)
        lines.append(kept(len(answer.rows)))
    elif "line" in said.groups[0]:
        lines += line_words(names, said.groups[0])
    return [*lines, ADVICE[answer.result]]
