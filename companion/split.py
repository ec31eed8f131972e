"""A passage of more steps than a sheet takes, as several descriptions: each starts from the last row of the one before.
The texts are the long one's with other entries in the place of those that change; what each means is read back and
compared."""

import datetime
import json
import re
from copy import deepcopy
from dataclasses import dataclass, replace
from fractions import Fraction
from math import ceil

import description as descriptions
import programs
import show
import tide as tides
from clock import Clock
from entries import Lines, Refused, mended, parse
from plan import plan
from sheet import LIMIT, MOST_STEPS
from units import PI, SCALE, decimal, shown, unit, with_unit

KEY = re.compile(r"""(?P<before>\s*(?:[\w"'-]+\s*\.\s*)*)["']?(?P<key>\w+)["']?\s*=""", re.ASCII)
MOST_PARTS = 100
PHASES = ("phase", "highest", "lowest")
FINEST = 40  # Places of a phase that has no end.


@dataclass(frozen=True)
class Entry:
    """An entry in the place of another: its key, its value as TOML writes it, and a comment."""

    key: str
    value: str
    comment: str = ""

    def line(self, before):
        return f"{before}{self.key} = {self.value}" + (f" # {self.comment}" if self.comment else "")


class Ended(Exception):
    """A part whose passage is refused on the way, so that none can follow."""

    def __init__(self, made, number):
        super().__init__(number)
        self.made, self.number = made, number


def edited(text, entries):
    """The text with each entry in the place of the one at its path; one that goes in front has no place yet. A comment
    behind an entry goes with it, for it was about the old one. What TOML reads must have changed in nothing else."""
    lines, found = text.split("\n"), Lines(text).found
    meant = deepcopy(parse(text))
    places = sorted(((found[path], path) for path in entries if path in found), reverse=True)
    for (line, count), path in places:
        head = KEY.match(lines[line - 1])
        before = head["before"] if head is not None else ""
        lines[line - 1 : line - 1 + count] = [entries[path].line(before)]
    front = [entries[path].line("") for path in entries if path not in found and len(path) == 1]
    result = "\n".join(front + lines)
    for path, entry in entries.items():
        table = meant
        for name in path[:-1]:
            table = table[name]
        table.pop(path[-1], None)
        table |= parse(f"{entry.key} = {entry.value}")
    if not reads_as(result, meant):
        raise Refused(None, "this cannot be split as it is laid out: write each entry that changes on a line of its own")
    return result


def reads_as(text, meant):
    try:
        return parse(text) == meant
    except Refused:
        return False


class Splitter:
    """Splits one description into parts of so many rows."""

    def __init__(self, text, rows=MOST_STEPS):
        self.text, self.rows = mended(text), rows
        self.whole = descriptions.read(text)
        self.time = self.whole.time
        self.count = -(-self.time.steps // rows)
        if self.count > MOST_PARTS:
            raise Refused(None, f"{self.time.steps} steps would be {self.count} parts, and {MOST_PARTS} are the most")
        self.clock = Clock(self.time)
        reader = descriptions.Reader(text)
        self.tables, self.tides = reader.tables, reader.tides(self.time, reader.constants(self.time))

    def parts(self):
        """The texts of the parts, each read back and compared with what it should mean."""
        if self.count == 1:
            raise Refused(
                None, f"there is nothing to split: it has {self.time.steps} steps, and a part has up to {self.rows}"
            )
        texts, made = [], None
        for number in range(1, self.count + 1):
            if number > 1:
                self.check_end(made, number - 1)
            text = edited(self.text, dict(self.entries(number, made)))
            part = descriptions.read(text)
            if part != self.meant(number, made, part):
                raise programs.Failed(f"part {number} does not say what was meant")
            texts.append(text)
            made = plan(part) if number < self.count else None
        return texts

    def first(self, number):
        """The row of the long passage at which a part starts."""
        return (number - 1) * self.rows

    def steps(self, number):
        return min(self.rows, self.time.steps - self.first(number))

    def check_end(self, made, number):
        """A part can only follow where the one before comes to its last row, within the ranges of its equations."""
        if made.answer.result:
            raise Ended(made, number)
        for words in show.end_words(made):
            raise Refused(None, f"part {number}: {words}, and no part can follow")

    def advice(self):
        """What to do where a part is refused: a tide starts anew from its constants in each."""
        anew = "Parts of fewer rows let the tides start anew more often, as with --rows 36."
        return ["Nothing is written."] + ([anew] if self.tides else [])

    def words(self, number):
        """A part's rows of the long passage, and their times."""
        first, last = self.first(number), self.first(number) + self.steps(number)
        return f"rows {first} to {last}, from {self.clock.text(first)} to {self.clock.told(last)}"

    def title(self, number):
        words = f"part {number} of {self.count}"
        if number > 1:
            words += f", from {self.clock.told(self.first(number))} {'on' if self.time.step > 0 else 'back'}"
        return f"{self.whole.title}: {words}" if self.whole.title else words

    def begin(self, number):
        """The clock at a part's start. A clock without a day stays one."""
        if self.time.begin is None:
            return None
        parts = self.first(number) * self.time.step * unit(self.time.scale.unit).size * 10**6
        if parts.denominator != 1:
            raise Refused(
                self.whole.lines.line("time", "step"),
                f"the clock of part {number} has no end behind the second: take steps of whole microseconds",
            )
        moment = self.time.begin + datetime.timedelta(microseconds=int(parts))
        return moment if self.time.dated else datetime.datetime.combine(self.time.begin.date(), moment.time())

    def entries(self, number, made):
        """The entries of a part that differ, by the paths of those in whose place they stand."""
        yield ("title",), Entry("title", json.dumps(self.title(number), ensure_ascii=False))
        lasting = "length" if "length" in self.tables["time"] else "steps"
        yield ("time", lasting), Entry("steps", str(self.steps(number)))
        if number == 1:
            return
        begin = self.begin(number)
        if begin is not None:
            offset = {"UTC": "Z"}.get(self.time.offset, self.time.offset)
            yield ("time", "begin"), Entry("begin", (begin if self.time.dated else begin.time()).isoformat() + offset)
        for name in self.tides:
            entry = next(each for each in PHASES if each in self.tables["tide"][name])
            yield ("tide", name, entry), Entry("phase", f'"{degrees_text(self.phase(name, number))} deg"')
            if self.given(name):
                yield ("tide", name, "good_to"), Entry("good_to", f"{{ units = {self.turned(name, number)} }}")
        for quantity, (value, radius) in self.ends(made, number - 1):
            amount = with_unit(shown(Fraction(value, SCALE) * quantity.scale.whole), quantity.scale.unit)
            comment = f"{amount}: row {made.description.time.steps} of part {number - 1}"
            yield ("quantity", quantity.name, "start"), Entry("start", f"{{ units = {value} }}", comment)
            yield ("quantity", quantity.name, "good_to"), Entry("good_to", f"{{ units = {radius} }}")

    def ends(self, made, number):
        """The quantities that are no tide's, each with value and radius in units as the last row of a part has them. The
        radius is the table's, with all that a table widens it by."""
        for quantity, subject in zip(made.description.quantities, made.subjects):
            if quantity.name not in self.tidal():
                unit_size = quantity.scale.whole / SCALE
                value, radius = subject.cells[-1].value / unit_size, ceil(subject.cells[-1].radius / unit_size)
                if max(abs(value), radius) > LIMIT:
                    raise Refused(
                        None, f"part {number} ends with {quantity.name} past a sheet's range, and no part can follow"
                    )
                yield quantity, (int(value), radius)

    def tidal(self):
        """The names of the tides' own quantities."""
        return {word for name in self.tides for word in (name, tides.later(name))}

    def phase(self, name, number):
        """A tide's phase when a part begins: it starts anew from its constants."""
        return self.tides[name].phase - self.angle(name, number)

    def angle(self, name, number):
        """By how much a tide has turned when a part begins."""
        return self.tides[name].speed * self.first(number) * self.time.step

    def given(self, name):
        """How good a tide is said to be, in wholes."""
        quantity = next(each for each in self.whole.quantities if each.name == name)
        return quantity.good_to - self.tides[name].starts()[0][1]

    def turned(self, name, number):
        """How good a tide is when a part begins, in units. What it and the later one are off by turns with them, and
        half way to a quarter each may be off by both."""
        angle = self.angle(name, number)
        both = abs(tides.cosine(angle)) + abs(tides.cosine(angle - tides.QUARTER)) + tides.COSINE_OFF_BY
        return ceil(self.given(name) * both * SCALE)

    def meant(self, number, made, part):
        """What a part means: the long passage's description but for its title, its times and its starts."""
        time = replace(self.time, begin=self.begin(number), steps=self.steps(number))
        quantities = list(self.whole.quantities)
        starts = {} if number == 1 else dict(self.starts(number, made))
        for place, quantity in enumerate(quantities):
            if quantity.name in starts:
                start, good_to = starts[quantity.name]
                in_units = quantity.in_units | (set() if quantity.name in self.tidal() else {"start", "good_to"})
                quantities[place] = replace(quantity, start=start, good_to=good_to, in_units=in_units)
        return replace(
            self.whole, title=self.title(number), time=time, quantities=tuple(quantities), lines=part.lines
        )

    def starts(self, number, made):
        """The start and how good it is, in wholes, of each quantity of a part after the first."""
        for quantity, (value, radius) in self.ends(made, number - 1):
            yield quantity.name, (Fraction(value, SCALE), Fraction(radius, SCALE))
        for name, tide in self.tides.items():
            given = Fraction(self.turned(name, number), SCALE)
            anew = replace(tide, phase=self.phase(name, number)).starts()
            for word, (start, cut) in zip((name, tides.later(name)), anew):
                yield word, (start, given + cut)


def degrees_text(phase):
    """An angle in degrees from 0 to 360, to its last place, or to so many that no start can tell."""
    turned = phase / PI * 180 % 360
    places = next((places for places in range(FINEST) if (turned * 10**places).denominator == 1), FINEST)
    return decimal(turned, places)
