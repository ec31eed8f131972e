"""A description: what a person writes of a passage, in TOML, with names, metres, hours and degrees. README.md beside
this has every entry. It is read exactly, and what cannot be taken is refused with its line."""

import datetime
import re
from dataclasses import dataclass
from decimal import Decimal
from fractions import Fraction
from functools import reduce

import rates
import slips
import tide as tides
import valid
from entries import Lines, Refused, mended, parse
from units import KNOWN, MOST_LETTERS, OFF_BY, PI, SCALE, UNITS, UNSIGNED, Unit, comma_words, meant, measure, unit

ENTRIES = {
    (): {"title", "time", "accuracy", "constants", "tide", "quantity", "clearance"},
    ("time",): {"unit", "whole", "begin", "step", "steps", "length"},
    ("accuracy",): {"tail"},
    ("clearance",): {"about", "unit", "whole", "weights", "base", "need", "for", "digits", "sill"},
}
QUANTITY_ENTRIES = {"about", "unit", "whole", "start", "good_to", "tolerance", "rate", "digits", "sill", "valid"}
TIDE_ENTRIES = {"about", "unit", "whole", "amplitude", "speed", "good_to", "tolerance", "digits"}
TIDE_ENTRIES |= {"phase", "highest", "lowest"}  # One of these.
IN_WHOLES = ("start", "good_to", "tolerance")
NAME = re.compile(r"[A-Za-z_]\w*", re.ASCII)
LEAST_TAIL = 2
DIGITS = 3
MOST_DIGITS = 12
MOST_DECIMAL_EXPONENT = 60
MOST_SECONDS = 366 * 86400
YEARS = range(2, 9999)
NO_READING = NO_SILL = "none"


@dataclass(frozen=True)
class Scale:
    """In which unit a person writes a quantity, and how many of it make 1 of the sheet."""

    unit: str
    whole: Fraction


@dataclass(frozen=True)
class Quantity:
    """A quantity. Its start (None: no reading), how good that is and its tolerance (None: not given) are in wholes; its
    sill (None: it has none), which is only drawn, is in its unit, and so is the range in which its equation holds. Which of
    the first three were given in the sheet's own units is kept: no other 'whole' changes those."""

    name: str
    about: str
    scale: Scale
    start: Fraction | None
    good_to: Fraction
    tolerance: Fraction | None
    products: tuple
    digits: int
    sill: Fraction | None
    valid: valid.Range | None
    in_units: frozenset = frozenset()


@dataclass(frozen=True)
class Time:
    """The sheet's time, in the description's unit: the step, with a minus where it goes back, and how many steps there
    are; and the clock at the start (None: there is no clock), with its offset as it is told, empty where it has none."""

    scale: Scale
    begin: datetime.datetime | None
    dated: bool
    step: Fraction
    steps: int
    offset: str = ""


@dataclass(frozen=True)
class Clearance:
    """What a ship asks for: that base + the sum of weight * quantity is at least the need, for so many rows. All in the
    clearance's own unit, the quantities in theirs. The need is None where the description has none."""

    about: str
    scale: Scale
    weights: dict
    base: Fraction
    need: Fraction | None
    rows: int
    digits: int
    sill: Fraction | None


@dataclass(frozen=True)
class Description:
    title: str
    time: Time
    tail: int
    quantities: tuple
    clearance: Clearance | None
    lines: Lines

    def numbers(self):
        """Each quantity's number in the sheet, by its name."""
        return {quantity.name: number for number, quantity in enumerate(self.quantities, 1)}


class Reader:
    """Reads one description."""

    def __init__(self, text):
        text = mended(text)
        self.tables = parse(text)
        self.lines = Lines(text)

    def refuse(self, why, *path):
        raise Refused(self.lines.line(*path), why)

    def table(self, *path):
        """A table, empty where it is not there; what it holds must be known."""
        found = self.tables
        for name in path:
            found = found.get(name, {})
        if not isinstance(found, dict):
            self.refuse(f"'{path[-1]}' is a table: [{'.'.join(path)}]", *path)
        known = ENTRIES.get(path, found.keys())
        for name in found:
            if name not in known:
                of = ".".join(path) or "a description"
                self.refuse(f"'{name}' is no entry of {of}{meant(name, known)}", *path, name)
        return found

    def text(self, table, path, otherwise):
        found = table.get(path[-1], otherwise)
        if isinstance(found, str):
            found = re.sub(r"[\t\N{NO-BREAK SPACE}\N{NARROW NO-BREAK SPACE}]", " ", found)
        if not isinstance(found, str) or not found.isprintable():
            self.refuse(f"'{path[-1]}' is a text of one line", *path)
        return found

    def whole_number(self, table, path, otherwise, least, most):
        found = table.get(path[-1], otherwise)
        if type(found) is not int or not least <= found <= most:
            self.refuse(f"'{path[-1]}' is a whole number from {least} to {most}", *path)
        return found

    def number(self, found, path):
        """A plain number, exactly."""
        if type(found) is int and abs(found) < 10**MOST_DECIMAL_EXPONENT:
            return Fraction(found)
        if isinstance(found, Decimal) and found.is_finite() and abs(found.adjusted()) < MOST_DECIMAL_EXPONENT:
            return Fraction(found)
        return self.refuse(f"'{path[-1]}' is a number", *path)

    def in_unit(self, found, scale, path):
        """A number in a scale's unit: a plain number, or a text with a unit of the same kind, as '4 cm'."""
        if not isinstance(found, str):
            return self.number(found, path)
        parted = measure(found)
        if parted is None and comma_words(found):
            return self.refuse(f"'{path[-1]}': {comma_words(found)}", *path)
        if parted is None:
            return self.refuse(f"'{path[-1]}' is a number, or a text like '4 cm', and not '{found}'", *path)
        number, text = parted
        if text == scale.unit:
            return number
        given, wanted = unit(text), unit(scale.unit)
        if given is None and path[-1] == "start" and OFF_BY.search(text):
            return self.refuse("'start' is the reading alone: how good it is stands in 'good_to'", *path)
        if given is None:
            return self.refuse(
                f"'{path[-1]}': '{text}' is no unit that is known here; these are: {', '.join(UNITS)}, and m/s and "
                f"the like{meant(text, KNOWN) if len(text) > 1 else ''}",
                *path,
            )
        if wanted is None or not given.is_like(wanted):
            return self.refuse(f"'{path[-1]}': '{text}' cannot be turned into '{scale.unit}'", *path)
        return number * given.size / wanted.size

    def in_wholes(self, found, scale, path):
        """A number of the sheet's wholes: from a scale's unit, or from units, as { units = 671089 }."""
        if isinstance(found, dict):
            units = found.get("units")
            if found.keys() != {"units"} or type(units) is not int:
                self.refuse(f"'{path[-1]}' is a number, a text like '4 cm', or {{ units = 671089 }}", *path)
            return Fraction(units, SCALE)
        return self.in_unit(found, scale, path) / scale.whole

    def scale(self, table, path):
        text = self.text(table, (*path, "unit"), "1")
        whole = self.in_unit(table.get("whole", 1), Scale(text, Fraction(1)), (*path, "whole"))
        if whole <= 0:
            self.refuse("'whole' is more than 0", *path, "whole")
        return Scale(text, whole)

    def digits(self, table, path):
        return self.whole_number(table, (*path, "digits"), DIGITS, 0, MOST_DIGITS)

    def description(self):
        self.table()
        time = self.time()
        tail = self.whole_number(self.table("accuracy"), ("accuracy", "tail"), LEAST_TAIL, LEAST_TAIL, SCALE)
        constants = self.constants(time)
        found = self.tides(time, constants)
        quantities = (*self.tide_quantities(found), *self.quantities(constants, found))
        self.check_units(time, quantities)
        self.check_rises(found, quantities)
        title = self.text(self.tables, ("title",), "")
        return Description(title, time, tail, quantities, self.clearance(time, quantities), self.lines)

    def check_units(self, time, quantities):
        """Where a product of quantities is of the kind that its rate has, as a speed is for a distance, it must be so
        in its size too: a speed in kn brings no distance in m for each h, unless somebody has thought of the 1,852."""
        units = {quantity.name: unit(quantity.scale.unit) for quantity in quantities}
        tick = unit(time.scale.unit)
        for quantity in quantities:
            for product in quantity.products:
                kinds = [units[name] for name in (quantity.name, *product.factors)]
                if product.factors and tick is not None and None not in kinds:
                    wanted, brought = kinds[0].over(tick), reduce(Unit.times, kinds[1:])
                    if brought.is_like(wanted) and brought.size != wanted.size:
                        self.refuse(
                            f"'{product.text}' is no {quantity.scale.unit} for each {time.scale.unit}: choose units that fit, "
                            "so that no factor is needed to turn them",
                            "quantity",
                            quantity.name,
                            "rate",
                        )

    def time(self):
        table = self.table("time")
        scale = self.scale(table, ("time",))
        if "step" not in table:
            self.refuse("[time] has no 'step'", "time")
        step = self.in_wholes(table["step"], scale, ("time", "step")) * scale.whole
        if step == 0:
            self.refuse("'step' is 0: no time would pass", "time", "step")
        steps = self.steps(table, scale, step)
        begin, dated, offset = self.begin(table.get("begin"), scale)
        if begin is not None and abs(step) * steps * unit(scale.unit).size > MOST_SECONDS:
            self.refuse("a passage with a clock ends within a year", "time", "begin")
        if dated and begin.year not in YEARS:
            self.refuse(f"'begin' is in the years {YEARS[0]} to {YEARS[-1]}", "time", "begin")
        return Time(scale, begin, dated, step, steps, offset)

    def steps(self, table, scale, step):
        if ("steps" in table) == ("length" in table):
            self.refuse("[time] has either 'steps' or 'length'", "time")
        if "steps" in table:
            return self.whole_number(table, ("time", "steps"), None, 1, 10**9)
        length = self.in_unit(table["length"], scale, ("time", "length"))
        steps = length / abs(step)
        if length <= 0 or steps.denominator != 1:
            self.refuse("'length' is not a whole number of steps, one at least", "time", "length")
        return int(steps)

    def begin(self, found, scale):
        """The clock at the start, whether its day is given, and its offset as it is told."""
        if found is None:
            return None, False, ""
        found, dated = self.moment(found, ("time", "begin"))
        kind = unit(scale.unit)
        if kind is None or not kind.is_like(unit("s")):
            self.refuse(f"there is no clock in '{scale.unit}': the unit of time is s, min, h or d", "time", "begin")
        return found.replace(tzinfo=None), dated, offset_of(found)

    def moment(self, found, path):
        """A time of the clock, and whether its day is given."""
        if isinstance(found, str):
            found = clock_of(found)
        if isinstance(found, datetime.time):
            found, dated = datetime.datetime.combine(datetime.date(2000, 1, 1), found), False
        elif isinstance(found, datetime.datetime):
            dated = True
        else:
            self.refuse(
                f"'{path[-1]}' is a time, 08:00 or 08:00:00, or a day and a time, 2026-11-17T08:00, which may have an "
                "offset, +01:00 or Z",
                *path,
            )
        return found, dated

    def constants(self, time):
        return {name: self.constant(name, found, time) for name, found in self.table("constants").items()}

    def constant(self, name, found, time):
        """A plain number, or an angle for a time, as '28.9841042 deg/h', which becomes radians for the unit of time."""
        path = ("constants", name)
        if not NAME.fullmatch(name):
            self.refuse(f"'{name}' is no name: a name has letters from a to z, digits and _", *path)
        if not isinstance(found, str):
            return self.number(found, path)
        if comma_words(found):
            self.refuse(f"'{name}': {comma_words(found)}", *path)
        angle = angle_for_time(found, time)
        if angle is None:
            self.refuse(
                f"'{name}' is a number in the description's units, or an angle for a time like '28.98 deg/h'", *path
            )
        return angle

    def tides(self, time, constants):
        """The tides by their names, which are none of the constants', and nor are the names that they make."""
        taken = {*constants, "clearance"}
        for name in self.table("tide"):
            if not NAME.fullmatch(name):
                self.refuse(f"'{name}' is no name: a name has letters from a to z, digits and _", "tide", name)
            for word in (name, tides.later(name), tides.rise(name)):
                if word in taken:
                    self.refuse(f"'{word}' has a meaning already", "tide", name)
                taken.add(word)
        return {name: self.tide(name, time) for name in self.table("tide")}

    def tide(self, name, time):
        path = ("tide", name)
        table = self.table(*path)
        for entry in table.keys() - TIDE_ENTRIES:
            self.refuse(f"'{entry}' is no entry of a tide{meant(entry, TIDE_ENTRIES)}", *path, entry)
        for entry in ("amplitude", "speed"):
            if entry not in table:
                self.refuse(f"[tide.{name}] has no '{entry}'", *path)
        scale = self.scale(table, path)
        amplitude = self.in_unit(table["amplitude"], scale, (*path, "amplitude"))
        if amplitude <= 0:
            self.refuse("'amplitude' is more than 0", *path, "amplitude")
        speed = angle_for_time(table["speed"], time)
        if isinstance(table["speed"], str) and comma_words(table["speed"]):
            self.refuse(f"'speed': {comma_words(table['speed'])}", *path, "speed")
        if speed is None or speed <= 0:
            self.refuse("'speed' is an angle for a time, more than 0, like '28.9841042 deg/h'", *path, "speed")
        return tides.Tide(name, amplitude / scale.whole, speed, self.phase(table, path, speed, time))

    def phase(self, table, path, speed, time):
        """By how many radians the tide is before its highest when the passage begins: as it is given, or from the time
        at which the clock has the tide at its highest or its lowest."""
        given = [entry for entry in ("phase", "highest", "lowest") if entry in table]
        if len(given) != 1:
            self.refuse(f"[tide.{path[-1]}] has either 'phase', 'highest' or 'lowest'", *path)
        [entry] = given
        if entry == "phase":
            parted = measure(table[entry]) if isinstance(table[entry], str) else None
            kind = unit(parted[1]) if parted else None
            phase = parted[0] * kind.size if kind in (UNITS["deg"], UNITS["rad"]) else None
            if phase is None or abs(phase) > 2 * PI:
                self.refuse("'phase' is an angle from -360 to 360 deg, like '180 deg'", *path, entry)
            return phase
        since, dated = self.since_begin(table[entry], time, (*path, entry))
        if not dated:
            self.check_day(since, speed, time, (*path, entry))
        phase = speed * since
        if abs(phase) > tides.MOST_ANGLE:
            self.refuse(f"'{entry}' is too far from the beginning of the passage", *path, entry)
        return phase if entry == "highest" else phase + PI

    def since_begin(self, found, time, path):
        """How long after the beginning a time of the clock is, in the unit of time, and whether its day is given: else it
        is the one on which the passage begins."""
        moment, dated = self.moment(found, path)
        if moment.tzinfo is not None:
            self.refuse(f"'{path[-1]}' is told by the same clock as 'begin', and has no offset of its own", *path)
        if time.begin is None:
            self.refuse(f"'{path[-1]}' is a time of the clock, and [time] has no 'begin'", *path)
        if dated and not time.dated:
            self.refuse(f"'{path[-1]}' has a day, and 'begin' has none", *path)
        if not dated:
            moment = datetime.datetime.combine(time.begin.date(), moment.time())
        passed = (moment - time.begin) // datetime.timedelta(microseconds=1)
        return Fraction(passed, 10**6) / unit(time.scale.unit).size, dated

    def check_day(self, since, speed, time, path):
        """Refuses a time without a day that lies outside the passage and comes within it a day later or before: a tide
        that is highest at 03:00 of a night that begins at 22:00."""
        day = unit("d").size / unit(time.scale.unit).size
        first, last = sorted((0, time.step * time.steps))
        here, *beside = (first <= since + days * day <= last for days in (0, 1, -1))
        if not here and any(beside) and (speed * day / (2 * PI)).denominator != 1:
            self.refuse(
                f"'{path[-1]}' without a day is a time of the day on which the passage begins, and there it lies outside "
                "the passage, which comes to that time of another day: write a day for it and for 'begin', as "
                "2026-11-17T08:00",
                *path,
            )

    def tide_quantities(self, found):
        """The two quantities of each tide. Where a sheet cannot take one, the lines to blame are the tide's."""
        for name, tide in found.items():
            path = ("tide", name)
            table = self.table(*path)
            scale, about = self.scale(table, path), self.text(table, (*path, "about"), "")
            good_to, tolerance = self.good_to(table, scale, path), self.tolerance(table, scale, path)
            tellings = (name, about), (tides.later(name), f"{name} a quarter of its period later")
            for (own, told), (start, cut), (speed, factor, text) in zip(tellings, tide.starts(), tide.rates()):
                product = rates.Product(speed, (factor,), text)
                self.lines.found.setdefault(("quantity", own), (self.lines.line(*path), 1))
                for entry, source in TIDE_LINES.items():
                    self.lines.found[("quantity", own, entry)] = (self.lines.line(*path, source), 1)
                yield Quantity(
                    own, told, scale, start, good_to + cut, tolerance, (product,), self.digits(table, path), None, None
                )

    def check_rises(self, found, quantities):
        """In the rate of a quantity of a tide's kind, the tide itself is a slip for its rise, and its rise is in another
        unit where the tide is."""
        units = {quantity.name: quantity.scale.unit for quantity in quantities}
        for quantity in quantities:
            for name in found:
                given, wanted = unit(units[name]), unit(quantity.scale.unit)
                if given is None or wanted is None or not given.is_like(wanted):
                    continue
                path, rise = ("quantity", quantity.name, "rate"), tides.rise(name)
                texts = [product.text for product in quantity.products if len(product.factors) == 1]
                if name in (text.lstrip("+- ") for text in texts):
                    self.refuse(f"'{name}' is how high the tide is, and no rate: how fast it rises is '{rise}'", *path)
                if given.size != wanted.size and any(rise in re.findall(r"\w+", text) for text in texts):
                    self.refuse(
                        f"{name} is in {units[name]} and {quantity.name} in {quantity.scale.unit}: give both one unit",
                        *path,
                    )

    def quantities(self, constants, found):
        tables = self.table("quantity")
        if not tables and not found:
            self.refuse("there is no quantity: [quantity.NAME]", "quantity")
        names = [word for name in found for word in (name, tides.later(name))]
        rises = {tides.rise(name): (tide.speed, (tides.later(name),)) for name, tide in found.items()}
        for name in tables:
            if not NAME.fullmatch(name):
                self.refuse(f"'{name}' is no name: a name has letters from a to z, digits and _", "quantity", name)
            if name in constants or name in names or name in rises or name == "clearance":
                self.refuse(f"'{name}' has a meaning already", "quantity", name)
        return tuple(self.quantity(name, constants, (*names, *tables), rises) for name in tables)

    def quantity(self, name, constants, names, rises):
        path = ("quantity", name)
        table = self.table(*path)
        for entry in table:
            if entry not in QUANTITY_ENTRIES:
                self.refuse(f"'{entry}' is no entry of a quantity{meant(entry, QUANTITY_ENTRIES)}", *path, entry)
        scale = self.scale(table, path)
        start = self.start(table, scale, path)
        return Quantity(
            name,
            self.text(table, (*path, "about"), ""),
            scale,
            start,
            self.good_to(table, scale, path),
            self.tolerance(table, scale, path),
            self.products(table, path, constants, names, rises),
            self.digits(table, path),
            self.sill(table, scale, path, NO_SILL),
            self.valid(table, scale, path, start),
            frozenset(entry for entry in IN_WHOLES if isinstance(table.get(entry), dict)),
        )

    def start(self, table, scale, path):
        """The reading; None where it says 'none' or is missing: never 0."""
        found = table.get("start", NO_READING)
        return None if found == NO_READING else self.in_wholes(found, scale, (*path, "start"))

    def good_to(self, table, scale, path):
        if "good_to" not in table:
            self.refuse(f"'{path[-1]}' does not say how good its start is: good_to, 0 where it is known exactly", *path)
        found = self.in_wholes(either_way(table["good_to"]), scale, (*path, "good_to"))
        if found < 0:
            self.refuse("'good_to' is 0 or more", *path, "good_to")
        return found

    def tolerance(self, table, scale, path):
        if "tolerance" not in table:
            return None
        return self.in_wholes(either_way(table["tolerance"]), scale, (*path, "tolerance"))

    def sill(self, table, scale, path, otherwise):
        found = table.get("sill", otherwise)
        return None if found == NO_SILL else self.in_unit(found, scale, (*path, "sill"))

    def valid(self, table, scale, path, start):
        """The range in which the quantity's equation holds; its start, where there is a reading, lies within."""
        if "valid" not in table:
            return None
        entry = (*path, "valid")
        texts = valid.ends(self.text(table, entry, ""))
        if texts is None:
            self.refuse("'valid' is a range: \"0 m to 8 m\", \"0 m or more\" or \"8 m or less\"", *entry)
        least, most = (None if text is None else self.in_unit(plain(text), scale, entry) for text in texts)
        found = valid.Range(least, most, scale.unit)
        if None not in (least, most) and most < least:
            self.refuse(f"'valid' goes {found.words()}: the smaller number stands first", *entry)
        if start is not None and not found.holds(start * scale.whole, start * scale.whole):
            self.refuse(
                f"the start of {path[-1]} lies where its equation does not hold: 'valid' has it {found.words()}",
                *path,
                "start",
            )
        return found

    def products(self, table, path, constants, names, rises):
        if "rate" not in table:
            self.refuse(f"'{path[-1]}' has no rate: \"0\" where it stays as it is", *path)
        text = table["rate"]
        if not isinstance(text, str):
            self.refuse("'rate' is a text, as \"m2 * rise\"", *path, "rate")
        try:
            return tuple(rates.read(text, constants, names, rises))
        except rates.Unreadable as fault:
            raise Refused(self.lines.line_within((*path, "rate"), text, fault.place), fault.why) from fault

    def clearance(self, time, quantities):
        path = ("clearance",)
        table = self.table(*path)
        if "clearance" not in self.tables:
            return None
        scale = self.scale(table, path)
        weights = table.get("weights")
        if not isinstance(weights, dict) or not weights:
            self.refuse("[clearance] has 'weights', as { water = 1 }", "clearance", "weights")
        names = {quantity.name for quantity in quantities}
        for name in weights.keys() - names:
            known = meant(name, names)
            self.refuse(f"'{name}' is no quantity of this description{known}", "clearance", "weights", name)
        for quantity in quantities:
            given, wanted = unit(quantity.scale.unit), unit(scale.unit)
            if quantity.name in weights and given and wanted and given.is_like(wanted) and given.size != wanted.size:
                self.refuse(
                    f"{quantity.name} is in {quantity.scale.unit} and the clearance in {scale.unit}: give both one unit",
                    "clearance",
                    "weights",
                    quantity.name,
                )
        return Clearance(
            self.text(table, (*path, "about"), "clearance"),
            scale,
            {name: self.number(weight, (*path, "weights", name)) for name, weight in weights.items()},
            self.in_unit(table.get("base", 0), scale, (*path, "base")),
            self.in_unit(table["need"], scale, (*path, "need")) if "need" in table else None,
            self.rows(table.get("for"), time),
            self.digits(table, path),
            self.sill(table, scale, path, 0),
        )

    def rows(self, found, time):
        """How many rows in a row a time takes, one where there is none."""
        if found is None:
            return 1
        length = self.in_unit(found, time.scale, ("clearance", "for"))
        if length <= 0:
            self.refuse("'for' is more than 0", "clearance", "for")
        return rows_of(length, time)


UNIT_OF_NUMBERS = unit("1")
# Where the entries of a tide's quantities stand.
TIDE_LINES = {"start": "amplitude", "good_to": "good_to", "tolerance": "tolerance", "rate": "speed"}


def angle_for_time(found, time):
    """An angle for a time, as '28.9841042 deg/h', in radians for the unit of time; None where it is no such text."""
    parted, tick = measure(found) if isinstance(found, str) else None, unit(time.scale.unit)
    given = unit(parted[1]) if parted else None
    if given is None or tick is None or not given.is_like(UNIT_OF_NUMBERS.over(tick)):
        return None
    return parted[0] * given.size * tick.size


def plain(word):
    """A word as TOML would have it: a number without a unit is a number."""
    try:
        return Decimal(word)
    except ArithmeticError:
        return word


def clock_of(text):
    """The time, or the day and the time, of a text like 20:30 or 2026-11-17 08:00+01:00; None where it is none."""
    found = slips.CLOCK.fullmatch(text.strip())
    if found is None:
        return None
    told = f"{found['hour']:0>2}:{found['rest']}{found['offset'] or ''}"
    kind = datetime.datetime if found["day"] else datetime.time
    try:
        return kind.fromisoformat((found["day"] or "") + told)
    except ValueError:
        return None


def offset_of(begin):
    """The offset of a clock as it is told, empty where it has none."""
    if begin.tzinfo is None:
        return ""
    return begin.isoformat()[-len("+01:00") :] if begin.utcoffset() else "UTC"


def either_way(found):
    """What stands behind a plus-minus sign; anything else as it is."""
    mark = OFF_BY.match(found) if isinstance(found, str) else None
    if mark is None:
        return found
    rest = found[mark.end() :]
    return Decimal(rest) if re.fullmatch(UNSIGNED, rest, re.ASCII) and len(rest) <= MOST_LETTERS else rest


def rows_of(length, time):
    """The rows whose steps together are at least so long, in the description's unit of time."""
    return -(-length // abs(time.step))


def read(text):
    """The description that a text is. Raises Refused."""
    if slips.other_file(text):
        raise Refused(None, slips.other_file(text))
    return Reader(text).description()
