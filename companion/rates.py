"""A rate as a person writes it, `2 * m2 * rise - 0.5 * speed^2`: a sum of products of numbers, constants and
quantities."""

import re
from dataclasses import dataclass
from fractions import Fraction

from units import MINUS, MOST_LETTERS, UNSIGNED, comma_words, meant, unit

# Signs as they are printed, and what they are in a rate.
ALIKE = {MINUS: "-", "\N{MULTIPLICATION SIGN}": "*", "\N{MIDDLE DOT}": "*", "\N{DOT OPERATOR}": "*"}
RAISED = {"\N{SUPERSCRIPT TWO}": "2", "\N{SUPERSCRIPT THREE}": "3"}
SPACE = r"[\s\N{NO-BREAK SPACE}\N{NARROW NO-BREAK SPACE}]"
TOKEN = re.compile(
    rf"{SPACE}*(?:(?P<number>{UNSIGNED})|(?P<name>[A-Za-z_]\w*)|(?P<sign>[-+*^{''.join(ALIKE)}])"
    rf"|(?P<raised>[{''.join(RAISED)}]))",
    re.ASCII,
)
MEASURED = re.compile(r"(?<![\w.])[\d.]+\s*([A-Za-z]+)\s*$", re.ASCII)
NO_UNITS = "a number in a rate has no unit behind it: it is in the description's own, as 0.1 for 0.1 m in each h"
MOST_FACTORS = 2
POWERS = "123456789"
MOST_BITS = 4000


@dataclass(frozen=True)
class Product:
    """A coefficient times up to two quantities, by their names, and its text in the rate."""

    coefficient: Fraction
    factors: tuple
    text: str


class Unreadable(Exception):
    """A rate that cannot be taken: why, and at which place of it."""

    def __init__(self, place, why):
        super().__init__(why)
        self.place, self.why = place, why


def tokens(text):
    """The rate's numbers, names and signs, each with its place, and at the end an empty one."""
    place, end = 0, len(text.rstrip())
    while place < end:
        found = TOKEN.match(text, place)
        if found is None:
            raise Unreadable(place, odd_sign(text, place))
        kind, word, at = found.lastgroup, found.group(found.lastgroup), found.start(found.lastgroup)
        if kind == "raised":
            yield "sign", "^", at
        yield ("number", RAISED[word], at) if kind == "raised" else (kind, ALIKE.get(word, word), at)
        place = found.end()
    yield "end", "", end


def odd_sign(text, place):
    """What to say of a sign that is none of a rate's."""
    sign = text[place:].strip()[:1]
    before = re.search(r"\d+$", text[:place])
    if sign == "," and before and comma_words(text[before.start() :]):
        return comma_words(text[before.start() :])
    if sign in "\N{EN DASH}\N{EM DASH}":
        return f"'{sign}' is a dash and no minus: write a plain -"
    if sign == "/" and is_measured(text[:place]):
        return NO_UNITS
    if sign in "/\N{DIVISION SIGN}":
        return f"'{sign}' has no place in a rate: in the place of dividing, multiply, as 0.5 * rise for rise / 2"
    return f"'{sign}' has no place in a rate: it is a sum of products, as in 2 * m2 * rise - 0.5 * speed^2"


def is_measured(text):
    """Whether a text ends with a number and a unit."""
    found = MEASURED.search(text)
    return found is not None and unit(found.group(1)) is not None


class Reader:
    """Reads one rate, given the constants' numbers, the quantities' names, and of each tide's rise the number and the
    quantities."""

    def __init__(self, text, constants, quantities, rises):
        self.text, self.constants, self.quantities, self.rises = text, constants, quantities, rises
        self.tokens = list(tokens(text))

    def next_is(self, *signs):
        kind, word, _ = self.tokens[0]
        return kind == "sign" and word in signs

    def take(self):
        return self.tokens.pop(0)

    def products(self):
        """rate = [sign] product {sign product}; 0 alone is no product at all."""
        found = [self.product()]
        while self.next_is("+", "-"):
            found.append(self.product())
        kind, word, place = self.take()
        known = {*self.constants, *self.quantities, *self.rises}
        if kind == "name" and word not in known and is_measured(self.text[: place + len(word)]):
            raise Unreadable(place, NO_UNITS)
        if kind != "end":
            raise Unreadable(place, f"before '{word}' a sign is missing")
        if len(found) == 1 and not found[0].factors and found[0].coefficient == 0:
            return []
        return found

    def product(self):
        """[sign] factor {* factor}, of which at most two are quantities."""
        place = self.tokens[0][2]
        coefficient, factors = Fraction(1), ()
        if self.next_is("+", "-"):
            coefficient = Fraction(-1 if self.take()[1] == "-" else 1)
        while True:
            number, quantities = self.factor()
            coefficient, factors = coefficient * number, factors + quantities
            if max(coefficient.numerator.bit_length(), coefficient.denominator.bit_length()) > MOST_BITS:
                raise Unreadable(place, "the numbers of the product are too large or too small")
            if not self.next_is("*"):
                break
            self.take()
        if len(factors) > MOST_FACTORS:
            raise Unreadable(
                place,
                f"the product {' * '.join(factors)} has {len(factors)} factors, and a sheet takes two at "
                "most: give a product of two of them a name and a rate of its own",
            )
        return Product(coefficient, factors, " ".join(self.text[place : self.tokens[0][2]].split()))

    def factor(self):
        """factor = number | name [^ power]: the number that it brings to the coefficient, and its quantities."""
        kind, word, place = self.take()
        if kind == "number" and len(word) > MOST_LETTERS:
            raise Unreadable(place, f"a number of more than {MOST_LETTERS} letters is none of a rate")
        if kind == "number":
            number, quantities = Fraction(word), ()
        elif kind == "name" and word in self.constants:
            number, quantities = self.constants[word], ()
        elif kind == "name" and word in self.quantities:
            number, quantities = Fraction(1), (word,)
        elif kind == "name" and word in self.rises:
            number, quantities = self.rises[word]
        elif kind == "name":
            known = meant(word, {*self.constants, *self.quantities, *self.rises})
            raise Unreadable(place, f"'{word}' is neither a quantity nor a constant of this description{known}")
        else:
            what = f"'{word}'" if word else "the end"
            raise Unreadable(place, f"at {what} a number or a name is missing")
        power = self.power()
        return number**power, quantities * power

    def power(self):
        if not self.next_is("^"):
            return 1
        self.take()
        kind, word, place = self.take()
        if kind != "number" or len(word) > 1 or word not in POWERS:
            raise Unreadable(place, "behind ^ stands a power, from 1 to 9")
        return int(word)


def read(text, constants, quantities, rises=()):
    return Reader(text, constants, quantities, rises).products()
