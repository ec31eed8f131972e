"""Units of measure as people write them, and the sheet's own units, of which 2^24 make a whole. All exact."""

import re
from dataclasses import dataclass
from difflib import get_close_matches
from fractions import Fraction
from math import ceil, floor

SCALE = 1 << 24

# To 64 places: no coefficient of a sheet comes near enough to a half for a later one to matter.
PI = Fraction(31415926535897932384626433832795028841971693993751058209749445923, 10**64)
PI_ROUNDED_BY = Fraction(1, 10**60)  # Its part that is left out, at most, and that of any product of a rate with it.


@dataclass(frozen=True)
class Unit:
    """A unit of measure: how many metres, seconds or radians it is, and the powers of metre and second in it."""

    size: Fraction
    metres: int
    seconds: int

    def times(self, other):
        return Unit(self.size * other.size, self.metres + other.metres, self.seconds + other.seconds)

    def over(self, other):
        return Unit(self.size / other.size, self.metres - other.metres, self.seconds - other.seconds)

    def is_like(self, other):
        return (self.metres, self.seconds) == (other.metres, other.seconds)


UNITS = {
    "1": Unit(Fraction(1), 0, 0),
    "mm": Unit(Fraction(1, 1000), 1, 0),
    "cm": Unit(Fraction(1, 100), 1, 0),
    "dm": Unit(Fraction(1, 10), 1, 0),
    "m": Unit(Fraction(1), 1, 0),
    "km": Unit(Fraction(1000), 1, 0),
    "nmi": Unit(Fraction(1852), 1, 0),
    "ft": Unit(Fraction(3048, 10000), 1, 0),
    "fathom": Unit(Fraction(18288, 10000), 1, 0),
    "s": Unit(Fraction(1), 0, 1),
    "min": Unit(Fraction(60), 0, 1),
    "h": Unit(Fraction(3600), 0, 1),
    "d": Unit(Fraction(86400), 0, 1),
    "kn": Unit(Fraction(1852, 3600), 1, -1),
    "rad": Unit(Fraction(1), 0, 0),
    "deg": Unit(PI / 180, 0, 0),
}


DEGREE = "\N{DEGREE SIGN}"
# Other names of the same units.
NAMES = {
    "m": ("metre", "metres", "meter", "meters"),
    "ft": ("foot", "feet"),
    "fathom": ("fathoms",),
    "s": ("sec", "second", "seconds"),
    "min": ("minute", "minutes"),
    "h": ("hour", "hours"),
    "d": ("day", "days"),
    "kn": ("kt", "knot", "knots"),
    "deg": (DEGREE, "\N{MASCULINE ORDINAL INDICATOR}", "degree", "degrees"),
}
KNOWN = UNITS | {name: UNITS[short] for short, names in NAMES.items() for name in names}


def single(text):
    """The unit of a name. Capital letters do not matter but in a single one: M is a nautical mile to many, and no m."""
    return KNOWN.get(text if len(text) == 1 else text.lower())


def unit(text):
    """The unit of measure that a text names, as `cm`, `m/s` or `deg/h`; None where it names none."""
    above, slash, below = text.partition("/")
    over, under = single(above.strip()), single(below.strip())
    if not slash:
        return over
    return over.over(under) if over and under else None


SHORT = 9
MOST_LETTERS = 80  # Of a number that is written out.
UNSIGNED = r"(?:\d+\.?\d*|\.\d+)(?:[eE][+-]?\d{1,2})?"
NUMBER = re.compile(rf"[+-]?{UNSIGNED}", re.ASCII)
MINUS = "\N{MINUS SIGN}"  # As it is printed; people copy it.
COMMA = re.compile(r"(?<![\w.,])[+-]?\d+(?:,\d+)+(?:\.\d+)?", re.ASCII)
OFF_BY = re.compile(r"\s*(?:\N{PLUS-MINUS SIGN}|\+/?-)\s*")


def measure(text):
    """A text like `4 cm` as its number and the text of its unit; None where it is no such text."""
    text = text.strip().replace(MINUS, "-", 1)
    found = NUMBER.match(text)
    if found is None or len(text) > MOST_LETTERS:
        return None
    rest = text[found.end() :].strip()
    return (Fraction(found.group()), rest) if rest[:1].isalpha() or rest.startswith(DEGREE) else None


def comma_words(text):
    """What to say of a number with a comma; None where there is none. It is never read as a point: in 1,852 it may part
    thousands."""
    found = COMMA.search(text.replace(MINUS, "-"))
    if found is None:
        return None
    number = found.group()
    whole, *parts = number.split(",")
    if len(parts) > 1 or "." in number:
        return f"{number} has commas: write {number.replace(',', '')}, with a point for the places behind it alone"
    thousands = f", or {whole}{parts[0]} if thousands are meant" if len(parts[0]) == 3 and whole.strip("+-0") else ""
    return f"{number} has a comma: write {whole}.{parts[0]}{thousands}"


def meant(name, known):
    """A question after a name that is not known, where one that is known is much like it."""
    found = get_close_matches(name.lower(), sorted(known), 1)
    return f": is '{found[0]}' meant?" if found else ""


def near(number):
    """The nearest whole number, of two the one away from 0."""
    size = floor(abs(number) + Fraction(1, 2))
    return size if number >= 0 else -size


def decimal(number, digits, rounded=near):
    """A number with so many places behind the point."""
    whole = rounded(number * 10**digits)
    sign, size = ("-", -whole) if whole < 0 else ("", whole)
    if digits == 0:
        return f"{sign}{size}"
    return f"{sign}{size // 10**digits}.{size % 10**digits:0{digits}}"


def shown(number):
    """A number as people write it: exactly where nine places suffice, else to about eight figures, with a mark."""
    if is_short(number):
        return decimal(number, places(number))
    digits = SHORT
    while abs(number) * 10**digits < 10**7 and digits < 40:
        digits += 1
    return "about " + decimal(number, digits)


def at_least(number):
    """A number that something is no less than: exactly where nine places suffice, else rounded down."""
    return decimal(number, places(number) if is_short(number) else SHORT, floor)


def at_most(number):
    """A number that something is no more than, as 0.0000034: its first two figures, rounded up."""
    digits = 0
    while 0 < number * 10**digits < 10:
        digits += 1
    return decimal(number, digits, ceil)


def is_short(number):
    return (number * 10**SHORT).denominator == 1


def places(number):
    """How many places behind the point tell a short number exactly."""
    return next(digits for digits in range(SHORT + 1) if (number * 10**digits).denominator == 1)


def with_unit(text, unit):
    """A number's text and its unit; a plain number has none."""
    return text if unit == "1" else f"{text} {unit}"
