"""A tide from its constants, `[tide.m2]`: h = amplitude * cos(speed * t - phase), t from the passage's beginning. In a
sheet it is two quantities, the tide and the same a quarter of its period later, each of which is the other's rate."""

from dataclasses import dataclass
from fractions import Fraction

from units import PI, near

QUARTER = PI / 2
PLACES = 9  # Behind the point of a whole, of a start that had to be cut. A unit is 60 times as large as the last.
FINE = 60  # Places of an angle whose cosine is worked out.
ORDERS = 35  # pi^70 / 70! is less than 10^-60.
COSINE_OFF_BY = Fraction(1, 10**50)
MOST_ANGLE = 10**6  # Up to which pi's 64 places are more than enough.


def later(name):
    return f"{name}_later"


def rise(name):
    """What a tide's own rate is called in other rates."""
    return f"rise_of_{name}"


@dataclass(frozen=True)
class Tide:
    """A tide's amplitude in wholes, its speed in radians for the unit of time, and its phase in radians."""

    name: str
    amplitude: Fraction
    speed: Fraction
    phase: Fraction

    def starts(self):
        """Of the tide and of its later one: the start in wholes, and how far off it may be for having been cut."""
        return start(self.amplitude, self.phase), start(self.amplitude, self.phase - QUARTER)

    def rates(self):
        """Of the tide and of its later one: the coefficient, the quantity that it goes with, and the rate in words."""
        companion = later(self.name)
        return (self.speed, companion, f"speed * {companion}"), (-self.speed, self.name, f"-speed * {self.name}")


def start(amplitude, angle):
    """amplitude * cos(angle), exactly at whole quarters of a turn and else cut, and how far off that may be."""
    quarters = angle / QUARTER
    if quarters.denominator == 1:
        return amplitude * (1, 0, -1, 0)[int(quarters) % 4], Fraction(0)
    return Fraction(near(amplitude * cosine(angle) * 10**PLACES), 10**PLACES), Fraction(1, 10**PLACES)


def cosine(angle):
    """The cosine by its series, off by less than half of COSINE_OFF_BY."""
    turns = near(angle / (2 * PI))
    rest = Fraction(near((angle - turns * 2 * PI) * 10**FINE), 10**FINE)
    term = total = Fraction(1)
    for order in range(2, 2 * ORDERS, 2):
        term *= -rest * rest / ((order - 1) * order)
        total += term
    return total
