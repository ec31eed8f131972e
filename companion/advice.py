"""What would serve in the place of a number that a sheet does not take: another 'whole' or another step, a round
number, tried on the description before it is advised."""

from dataclasses import replace
from fractions import Fraction
from itertools import chain

from entries import Refused
from units import SCALE, shown, unit, with_unit

ROUND = (1, 2, 5)
MOST_TENS = 60
# Lengths that people take for a step, in seconds: of hours, of minutes, of seconds.
STEPS = [3600 * hours for hours in (24, 12, 6, 4, 3, 2, 1)]
STEPS += [60 * minutes for minutes in (30, 20, 15, 10, 5, 4, 3, 2, 1)] + [30, 20, 15, 10, 5, 2, 1]
TRIED = 30


def larger(number):
    """Round numbers, from a number upward."""
    found = (Fraction(each) * Fraction(10) ** tens for tens in range(-MOST_TENS, MOST_TENS) for each in ROUND)
    return [each for each in found if each >= number][:TRIED]


def smaller(number):
    """Round numbers, from a number downward."""
    tens = range(MOST_TENS, -MOST_TENS, -1)
    found = (Fraction(each) * Fraction(10) ** power for power in tens for each in reversed(ROUND))
    return [each for each in found if each <= number][:TRIED]


def rescaled(quantity, whole):
    """A quantity as the same description with another 'whole' has it."""
    factor = quantity.scale.whole / whole
    given = {entry: getattr(quantity, entry) for entry in ("start", "good_to", "tolerance")}
    changed = {
        entry: number * factor
        for entry, number in given.items()
        if number is not None and entry not in quantity.in_units
    }
    return replace(quantity, scale=replace(quantity.scale, whole=whole), **changed)


def with_wholes(description, names, whole):
    """The description with another 'whole' for the quantities that are named."""
    quantities = (rescaled(each, whole) if each.name in names else each for each in description.quantities)
    return replace(description, quantities=tuple(quantities))


def with_time(description, **changed):
    """The description with another 'whole' in [time], another step, or other steps."""
    time = description.time
    if "whole" in changed:
        changed["scale"] = replace(time.scale, whole=changed.pop("whole"))
    return replace(description, time=replace(time, **changed))


def tried(part):
    """The line on which a part of a sheet is refused, 0 where no line is to blame; None where it is not refused."""
    try:
        part()
    except Refused as refused:
        return refused.line or 0
    return None


def faults(writer):
    """The lines on which a sheet's parts are refused."""
    return {line for line in map(tried, writer.parts()) if line is not None}


class Adviser:
    """Looks for what serves a description that a writer refuses on a line. What serves mends that line, and no other
    line is refused that was not refused before. The first is told with which the first step may pass, too."""

    def __init__(self, writer, line, most_steps):
        self.description, self.make, self.line = writer.description, type(writer), line or 0
        self.most_steps = most_steps
        self.before = faults(self.writer(self.description))

    def writer(self, description):
        return self.make(description, advises=False)

    def serves(self, description):
        after = faults(self.writer(description))
        return self.line not in after and after <= self.before

    def words(self, *options):
        """The words of the best of the options, each a changed description and what to say of it."""
        words = ""
        for changed, told in chain(*options):
            if self.serves(changed):
                words = words or f": {told} would serve"
                if self.writer(changed).starts_well():
                    return f": {told} would serve"
        return words

    def quantity(self, quantity, wholes):
        """Another 'whole' for a quantity, or for all in its unit."""
        alike = {each.name for each in self.description.quantities if each.scale == quantity.scale}
        told = f"every quantity in {quantity.scale.unit}"
        for names, of in (({quantity.name}, quantity.name), (alike, told)):
            for whole in wholes:
                yield with_wholes(self.description, names, whole), f"'whole = {shown(whole)}' for {of}"

    def time(self, wholes):
        """Another 'whole' in [time]."""
        for whole in wholes:
            yield with_time(self.description, whole=whole), f"'whole = {shown(whole)}' in [time]"

    def step(self, wholes=()):
        """A shorter step, for the same time where that can be; with another 'whole' in [time] where some are given."""
        time = self.description.time
        past = abs(time.step) * time.steps
        lengths = sorted(step_lengths(time), key=lambda step: ((past / step).denominator != 1, -step))
        for step in lengths:
            count = -(-past // step)
            told = f"a shorter step, 'step = {step_text(time, step)}',"
            if count > self.most_steps:
                told += f" of which a sheet has {self.most_steps},"
            changed = {"step": step if time.step > 0 else -step, "steps": int(min(count, self.most_steps))}
            if not wholes:
                yield with_time(self.description, **changed), told
            for whole in wholes:
                more = f"{told} with 'whole = {shown(whole)}' in [time]"
                yield with_time(self.description, whole=whole, **changed), more


def step_lengths(time):
    """Lengths that are shorter than the step, in the unit of time, the longest first."""
    kind = unit(time.scale.unit)
    if kind is None or not kind.is_like(unit("s")):
        return smaller(abs(time.step))
    return [length for length in (Fraction(seconds) / kind.size for seconds in STEPS) if length < abs(time.step)]


def step_text(time, step):
    """A step as a description has it: in hours, minutes or seconds where the unit of time is one of these."""
    kind, sign = unit(time.scale.unit), "-" if time.step < 0 else ""
    if kind is None or not kind.is_like(unit("s")):
        return sign + shown(step)
    seconds = step * kind.size
    name = next(name for name in ("d", "h", "min", "s") if seconds % unit(name).size == 0)
    return f'"{sign}{seconds / unit(name).size} {name}"'


def search_range(clearance, base, need, most):
    """The search's range for a base and a need, in the clearance's unit, and which 'whole' serves. A whole less than the
    most leaves room for every rounding."""
    scale = clearance.scale
    end = with_unit(shown(scale.whole * most / SCALE), scale.unit)
    farthest = max(abs(base), abs(need)) * scale.whole
    whole = next(whole for whole in larger(scale.whole) if farthest <= whole * (most - SCALE))
    return f"-{end} to {end}: 'whole = {shown(whole)}' in [clearance] would serve"
