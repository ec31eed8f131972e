"""The sheet that a description comes to: its whole numbers, each rounding on the safe side and said; its text; and
whether a sheet that was read back says what the description means."""

from dataclasses import dataclass
from fractions import Fraction
from functools import partial
from math import ceil, floor

from advice import Adviser, larger, smaller
from clock import length
from entries import Refused
from units import SCALE, decimal, near, shown, with_unit

MOST_WHOLES = 32
LIMIT = MOST_WHOLES * SCALE
MOST_QUANTITIES, MOST_STEPS, MOST_TERMS = 8, 240, 32
MOST_STEP, MOST_COEF, MOST_RATIO = SCALE, 16 * SCALE, SCALE // 2
FINEST_PART = 1000  # Of a step, by no more than which a rounded step may move a row from its time.


@dataclass(frozen=True)
class Start:
    value: int | None
    radius: int


@dataclass(frozen=True)
class Term:
    to: int
    coef: int
    first: int
    second: int


@dataclass(frozen=True)
class Sheet:
    steps: int
    step: int
    tail: int
    tol: int
    starts: tuple
    terms: tuple

    def text(self):
        lines = [
            ("n", len(self.starts)),
            ("steps", self.steps),
            ("step", self.step),
            ("tail", self.tail),
            ("tol", self.tol),
        ]
        for start in self.starts:
            lines += [("start", "none" if start.value is None else start.value), ("radius", start.radius)]
        lines.append(("terms", len(self.terms)))
        for term in self.terms:
            lines += [("to", term.to), ("coef", term.coef), ("first", term.first), ("second", term.second)]
        return "".join(f"{key}={number}\n" for key, number in lines)


def parsed(text):
    """A sheet from its text, which is known to be one."""
    fields = iter(line.split("=") for line in text.splitlines())

    def number(key):
        name, value = next(fields)
        assert name == key, (name, key)
        return None if value == "none" else int(value)

    n, steps, step, tail, tol = (number(key) for key in ("n", "steps", "step", "tail", "tol"))
    starts = tuple(Start(number("start"), number("radius")) for _ in range(n))
    terms = range(number("terms"))
    return Sheet(steps, step, tail, tol, starts, tuple(Term(*map(number, TERM_KEYS)) for _ in terms))


TERM_KEYS = ("to", "coef", "first", "second")


def in_units(number):
    """Units with as many places as are worth reading."""
    return decimal(number, 0 if number.denominator == 1 else 2)


class Writer:
    """Works out a description's sheet, and says each rounding. What it refuses it advises on, unless it is itself on
    trial."""

    def __init__(self, description, advises=True):
        self.description, self.advises = description, advises
        self.said = []

    def refuse(self, why, *path):
        raise Refused(self.description.lines.line(*path), why)

    def adviser(self, *path):
        return Adviser(self, self.description.lines.line(*path), MOST_STEPS)

    def within(self, number, least, most, what, *path):
        """A coefficient of the sheet, which is refused outside its range. It is for each whole of time and of its own
        quantity: so a smaller one of the first serves, or a larger one of the second."""
        if least <= number <= most:
            return number
        size = Fraction(near(Fraction(number, SCALE) * 10**6), 10**6)
        told = f"{what} is {shown(size)} for the sheet's wholes, and a sheet takes {most // SCALE} at most"
        if not self.advises:
            return self.refuse(told, *path)
        adviser, time = self.adviser(*path), self.description.time
        quantity = next(each for each in self.description.quantities if each.name == path[1])
        finer = smaller(time.scale.whole)
        options = adviser.time(finer), adviser.quantity(quantity, larger(quantity.scale.whole)), adviser.step(finer[:9])
        return self.refuse(told + adviser.words(*options), *path)

    def past(self, quantity, entry, wholes, least, most):
        """Refuses a number of a quantity that is past its range, in the quantity's own unit."""
        path = ("quantity", quantity.name, entry)
        told = f"{quantity.name}, {entry}: {self.amount(quantity, wholes)}"
        if least <= wholes <= most:
            told += " with what the start is moved by"
        told += f" is past the sheet's range, {self.amount(quantity, least)} to {self.amount(quantity, most)}"
        if self.advises:
            adviser, whole = self.adviser(*path), quantity.scale.whole
            wholes = smaller(whole) if wholes < least and least > 0 else larger(whole)
            told += adviser.words(adviser.quantity(quantity, wholes))
        self.refuse(told, *path)

    def sheet(self):
        described = self.description
        if len(described.quantities) > MOST_QUANTITIES:
            extra = described.quantities[MOST_QUANTITIES].name
            self.refuse(f"'{extra}' is one quantity too many: a sheet has {MOST_QUANTITIES} at most", "quantity", extra)
        steps, step, tail, tol = self.steps(), self.step(), described.tail, self.tol()
        starts = tuple(self.start(quantity) for quantity in described.quantities)
        self.check_radii(starts, tol)
        terms = tuple(self.terms())
        if len(terms) > MOST_TERMS:
            self.refuse(f"the rates have {len(terms)} products, and a sheet has {MOST_TERMS} terms at most", "quantity")
        return Sheet(steps, step, tail, tol, starts, terms)

    def parts(self):
        """What a sheet is made of, each to be worked out by itself, so that every part's refusal is met."""
        starts = [partial(self.start, quantity) for quantity in self.description.quantities]
        return [self.steps, self.step, self.tol, *starts, self.sheet_radii, lambda: list(self.terms())]

    def sheet_radii(self):
        self.check_radii([self.start(quantity) for quantity in self.description.quantities], self.tol())

    def starts_well(self):
        """Whether the planner's questions 4 and 5 let the first step pass; not where there is no sheet."""
        try:
            sheet = self.sheet()
        except Refused:
            return False
        return largest_size(sheet) <= LIMIT and ratio(sheet) <= MOST_RATIO

    def steps(self):
        steps = self.description.time.steps
        if steps > MOST_STEPS:
            self.refuse(
                f"{steps} steps are past the sheet's range, 1 to {MOST_STEPS}: take longer steps, or let "
                "'companion/passage split' make several descriptions of this one",
                "time",
                "length" if self.has_length() else "steps",
            )
        return steps

    def has_length(self):
        return ("time", "length") in self.description.lines.found

    def step(self):
        time = self.description.time
        exact = time.step / time.scale.whole * SCALE
        step = near(exact)
        if step == 0 or abs(step) > MOST_STEP:
            fault, end = "longer than the whole", time.scale.whole
            if step == 0:
                fault, end = "shorter than a unit", end / SCALE
            given, end = (with_unit(shown(number), time.scale.unit) for number in (abs(time.step), end))
            self.refuse(
                f"a step of {given} is {fault} of the sheet's time, {end}{self.step_advice(step)}", "time", "step"
            )
        if abs(beside_its_time(time, step)) * FINEST_PART > abs(time.step):
            self.refuse(
                f"the {in_units(abs(exact))} units of a step cannot be rounded without moving row {time.steps} by more than a "
                f"thousandth of a step{self.step_advice(step)}",
                "time",
                "step",
            )
        if step != exact:
            beside = length(time, abs(beside_its_time(time, step)), ceil)
            self.say(
                f"step: {length(time, abs(time.step))}{' back' if step < 0 else ''} are {in_units(exact)} units, written {step}; row "
                f"{time.steps} stands {beside} or less beside its time"
            )
        return step

    def step_advice(self, step):
        """What serves a step that is too long for the sheet's time, or too short."""
        if not self.advises:
            return ""
        adviser, time = self.adviser("time", "step"), self.description.time
        if abs(step) > MOST_STEP:
            return adviser.words(adviser.time(larger(abs(time.step))), adviser.step())
        return adviser.words(adviser.time(smaller(time.scale.whole)))

    def tol(self):
        """The least tolerance, rounded down: the sheet has one for all quantities."""
        given = [quantity for quantity in self.description.quantities if quantity.tolerance is not None]
        if not given:
            self.refuse("no quantity has a tolerance, the largest radius that a row may have", "quantity")
        strictest = self.strictest()
        exact = strictest.tolerance * SCALE
        tol = floor(exact)
        if not 1 <= tol <= LIMIT:
            self.past(strictest, "tolerance", strictest.tolerance, Fraction(1, SCALE), MOST_WHOLES)
        if tol != exact:
            self.say(
                f"tol: {self.amount(strictest, strictest.tolerance)} of {strictest.name} are {in_units(exact)} units, "
                f"rounded down to {tol}"
            )
        for quantity in self.description.quantities:
            if quantity.scale != strictest.scale:
                self.say(
                    f"tol: for {quantity.name} the same {tol} units are {self.amount(quantity, Fraction(tol, SCALE))}"
                )
        return tol

    def strictest(self):
        """The quantity whose tolerance is the sheet's."""
        given = [quantity for quantity in self.description.quantities if quantity.tolerance is not None]
        return min(given, key=lambda quantity: quantity.tolerance)

    def check_radii(self, starts, tol):
        """Refuses a start that is less certain than a row may be: no step makes a radius smaller."""
        strictest = self.strictest()
        for quantity, start in zip(self.description.quantities, starts):
            if start.radius > tol:
                allowed = self.amount(strictest, strictest.tolerance)
                if quantity is not strictest:
                    allowed += f" of {strictest.name}, the strictest"
                if quantity.scale != strictest.scale:
                    allowed += f", for {quantity.name} {self.amount(quantity, Fraction(tol, SCALE))}"
                self.refuse(
                    f"{quantity.name}, good_to: {self.amount(quantity, quantity.good_to)} ({start.radius} units) is more "
                    f"than the sheet's tolerance, {allowed} ({tol} units), and no step would pass: take a better reading, "
                    "or allow a larger tolerance if the ship can bear it",
                    "quantity",
                    quantity.name,
                    "good_to",
                )

    def start(self, quantity):
        name = quantity.name
        good_to = quantity.good_to * SCALE
        if quantity.start is None:
            self.say(
                f"{name}: there is no reading, written none; the planner refuses the sheet with 4 until there is one"
            )
            return Start(None, self.radius(quantity, 0))
        exact = quantity.start * SCALE
        value = near(exact)
        if abs(value) > LIMIT:
            self.past(quantity, "start", quantity.start, -MOST_WHOLES, MOST_WHOLES)
        moved = abs(value - exact)
        radius = self.radius(quantity, moved)
        if moved:
            self.say(
                f"{name}: the start {self.amount(quantity, quantity.start)} is {in_units(exact)} units, written {value}"
            )
        if radius != good_to:
            besides = f" and the {in_units(moved)} that the start was moved by" if moved else ""
            self.say(
                f"{name}: good to {self.amount(quantity, quantity.good_to)}, {in_units(good_to)} units{besides}, rounded up: {radius}"
            )
        return Start(value, radius)

    def radius(self, quantity, moved):
        """How good a start is, and what it was moved by, rounded up."""
        radius = ceil(quantity.good_to * SCALE + moved)
        if radius > LIMIT:
            self.past(quantity, "good_to", quantity.good_to, 0, MOST_WHOLES)
        return radius

    def terms(self):
        numbers = self.description.numbers()
        for quantity, product in meant(self.description):
            exact = coefficient(self.description, quantity, product) * SCALE
            what = f"{quantity.name}, the rate's '{product.text}'"
            path = ("quantity", quantity.name, "rate")
            coef = self.within(near(exact), -MOST_COEF, MOST_COEF, what, *path)
            if coef == 0 and exact != 0:
                kept = self.keeping(quantity, product)
                self.refuse(f"{what}: {in_units(exact)} units would be written as 0{kept}", *path)
            if coef != exact:
                self.say(f"{what}: {in_units(exact)} units in the sheet, written {coef}")
            first, second = (*(numbers[name] for name in product.factors), 0, 0)[:2]
            yield Term(numbers[quantity.name], coef, first, second)

    def keeping(self, quantity, product):
        """What keeps a coefficient that would be written as 0: a larger 'whole' of time or of a factor, or a smaller one of
        its own quantity."""
        if not self.advises:
            return ""
        adviser = self.adviser("quantity", quantity.name, "rate")
        factors = [each for each in self.description.quantities if each.name in product.factors]
        return adviser.words(
            adviser.time(larger(self.description.time.scale.whole)),
            adviser.quantity(quantity, smaller(quantity.scale.whole)),
            *(adviser.quantity(factor, larger(factor.scale.whole)) for factor in factors),
        )

    def amount(self, quantity, wholes):
        return with_unit(shown(wholes * quantity.scale.whole), quantity.scale.unit)

    def say(self, words):
        self.said.append(words)


def beside_its_time(time, step):
    """How far the last row of a sheet with this step stands from where the description has it, in the unit of time."""
    return (Fraction(step, SCALE) * time.scale.whole - time.step) * time.steps


def meant(description):
    """The products of the rates, each with the quantity whose rate it is in, in the order of the sheet's terms."""
    return [(quantity, product) for quantity in description.quantities for product in quantity.products]


def largest_size(sheet):
    """The largest start with its radius, without its sign, in units."""
    return max(abs(start.value or 0) + start.radius for start in sheet.starts)


def ratio(sheet):
    """The ratio of a sheet's first step, by docs/SHEET.md. It serves to try what is advised; what is refused is the
    planner's to say."""
    scale = max(SCALE, largest_size(sheet))
    like = {}
    for term in sheet.terms:
        key = term.to, *sorted((term.first, term.second))
        like[key] = like.get(key, 0) + term.coef
    sizes = {}
    for (to, *factors), coef in like.items():
        sizes.setdefault(to, [0, 0, 0])[sum(factor > 0 for factor in factors)] += abs(coef)
    rates = (up(SCALE * none, scale) + one + up(scale * two, SCALE) for none, one, two in sizes.values())
    largest = max(rates, default=0)
    return up(largest * abs(sheet.step), SCALE)


def up(number, divisor):
    """A whole number divided by another, rounded up."""
    return -(-number // divisor)


def coefficient(description, quantity, product):
    """A product's coefficient in the sheet, in wholes: the description's is for its own units of time and
    quantities."""
    scales = {each.name: each.scale.whole for each in description.quantities}
    number = product.coefficient * description.time.scale.whole / quantity.scale.whole
    for name in product.factors:
        number *= scales[name]
    return number


def differences(description, sheet):
    """In what a sheet does not say what a description means; nothing where it does. Asked of a sheet that was read
    back."""
    return [words for holds, words in comparisons(description, sheet) if not holds]


def comparisons(description, sheet):
    """Each thing that a description means, and whether the sheet says it."""
    time, quantities = description.time, description.quantities
    yield len(sheet.starts) == len(quantities), "the quantities are not as many"
    yield sheet.steps == time.steps, "the steps are not as many"
    yield is_nearest(sheet.step, time.step / time.scale.whole), "the step is not the nearest"
    yield sheet.tail == description.tail, "the tail is another"
    tolerances = [quantity.tolerance for quantity in quantities if quantity.tolerance is not None]
    yield all(
        Fraction(sheet.tol, SCALE) <= tolerance for tolerance in tolerances
    ), "the tolerance is wider than one that was given"
    yield Fraction(sheet.tol + 1, SCALE) > min(tolerances), "the tolerance is stricter than it need be"
    for quantity, start in zip(quantities, sheet.starts):
        yield from start_comparisons(quantity, start)
    products = meant(description)
    yield len(sheet.terms) == len(products), "the terms are not as many"
    for (quantity, product), term in zip(products, sheet.terms):
        words = f"a term of {quantity.name} is another"
        factors = tuple(quantities[number - 1].name for number in (term.first, term.second) if number)
        yield quantities[term.to - 1] is quantity and factors == product.factors, words
        yield is_nearest(term.coef, coefficient(description, quantity, product)), words


def start_comparisons(quantity, start):
    name = quantity.name
    if quantity.start is None:
        yield start.value is None, f"{name} has no reading, but the sheet has one"
        return
    yield start.value is not None, f"{name} has a reading, but the sheet has none"
    if start.value is not None:
        value, radius = Fraction(start.value, SCALE), Fraction(start.radius, SCALE)
        yield is_nearest(start.value, quantity.start), f"the start of {name} is not the nearest"
        lowest, highest = quantity.start - quantity.good_to, quantity.start + quantity.good_to
        yield value - radius <= lowest and highest <= value + radius, f"the radius of {name} does not cover what was meant"
        narrower = radius - Fraction(1, SCALE)
        yield value - narrower > lowest or highest > value + narrower, f"the radius of {name} is wider than it need be"


def is_nearest(units, wholes):
    return abs(units - wholes * SCALE) <= Fraction(1, 2)
