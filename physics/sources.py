"""The gallery beside the sources that its equations come from, as the lines of the table of docs/SOURCES.md. A figure
that its source prints is typed in as it stands there; one for which the source has a formula is worked out here. What
the planner says is taken from the stored answers, the true error from the physics. Exits 1 where a true error is beyond
its radius, or where source 002's methods or estimates do not come out as it says.
"""

import sys
from collections import namedtuple
from math import e, exp, factorial

from adams import Adams, Equation
from physics import FLOATING_POINT_ERROR, SCALE, Gallery, numbers

QUANTITY = 1  # The sources' figures are for this one, or for all together.


def geometric(ratio, degree):
    """Corollary 4 of source 000 where no start is beyond 1, by M times t."""
    return ratio ** (degree + 1) / (1 - ratio)


def majorant(t, degree, m, bound, size=1):
    """Theorem 3 of source 000 for products of m factors, by M and the largest start."""
    z, partial = 1, 0
    for k in range(degree + 1):
        partial += z * t**k
        z *= ((m - 1) * k + 1) / (k + 1) * bound / (m - 1)
    return size * ((1 - bound * t) ** (-1 / (m - 1)) - partial)


def third_order(h, time, m0, m1, m2, m3):
    """Theorem 1 of source 001, by the largest |f|, |f'|, |f''| and |f'''|."""
    l0 = 5 * m0**2 * m1 * m2 + m0 * m1**3 + m0**3 * m3
    l1 = (m0**3 * m2**2 + 4 * m0**3 * m1 * m3 + 9 * m0**2 * m1**2 * m2) / 4
    l2 = (m0**4 * m2 * m3 + m0**3 * m1**2 * m3 + 2 * m0**3 * m1 * m2**2 + 2 * m0**2 * m1**3 * m2) / 2
    return (exp(m1 * time) - 1) / (6 * m1) * (l0 + l1 * h + l2 * h**2) * h**3


def lagrange(x, degree):
    """The remainder of source 003, section 4.1.1, where no derivative is beyond 1."""
    return x ** (degree + 1) / factorial(degree + 1)


def local_errors(x, h):
    """The local error of source 003, section 4.2.1, where no second derivative is beyond 1, at each step to x."""
    return x / h * lagrange(h, 1)


BELL = Equation(lambda x, y: -2 * x * y**2, lambda x, y: -4 * x * y, lambda x: 1 / (1 + x**2), 0)
CUBE = Equation(lambda x, y: 3 * y / x, lambda x, y: 3 / x, lambda x: x**3 / 8, 1)
GROWTH = Equation(lambda x, y: y - y**2, lambda x, y: 1 - 2 * y, lambda x: 1 / (1 + exp(-x)), 0)
SPHERE = 3 / 2 * 3 ** (1 / 3)  # Its first r, the largest start.
DOUBLE = "smaller than double precision can capture"
LOGISTIC = third_order(1 / 10, 1, 1 / 4, 1, 2, 0)  # f is x - x^2, from 0 to 1.

# The bound and the true error are the source's: text where it prints them, a number where it has a formula. The row is
# the one that they are compared with, the last one where none is said.
Figure = namedtuple("Figure", "sheet place bound error row", defaults=[None])


def benchmark(sheet, place, error):
    """A line of Table 1 of source 004, which has relative errors and no bounds."""
    return Figure(sheet, f"004, Table 1: {place}", None, f"{error} relative")


def adams(sheet, equation, p, x, row):
    """Algorithm 5.1 of source 002 with steps of 1/10 to x, an estimate and no bound, and the method's error."""
    method, steps = Adams(equation, p, 1 / 10), round((x - equation.begin) * 10)
    place = f"002, Algorithm 5.1: p = {p}, h = 1/10, x = {x}"
    return Figure(sheet, place, method.estimate(steps), method.error(steps), row)


ADAMS = [
    adams("logistic", GROWTH, 3, 1, 10),
    adams("logistic-fine", GROWTH, 5, 1, 10),
    adams("bell", BELL, 4, 1, 10),
    adams("bell", BELL, 4, 4, 40),
    adams("cube", CUBE, 2, 2, 10),
]

FIGURES = [
    Figure("square", "000, Table 1: t = 0.5, k = 10", "0.000978", "0.000978"),
    Figure("logarithm", "000, Table 2: t = 0.1, k = 10", "0.111E-10", "0.833E-12", 2),
    Figure("logarithm", "000, Table 2: t = 0.5, k = 10", "0.00098", "0.00003", 10),
    Figure("logarithm", "000, Table 2: t = 0.9, k = 10", "3.1381", "0.0157", 18),
    Figure("logarithm", "000, Table 2: t = 0.95, k = 10", "11.376", "0.0277", 19),
    Figure("growing-oscillation", "000, Table 3: t = 0.25, k = 60", geometric(5 / 2 * 0.25, 60), "< 2^-52", 5),
    Figure("growing-oscillation", "000, Table 4: t = 5, 93 steps, k = 53 on average", None, "0.222E-14"),
    Figure("nested-sine", "000, (61): t = 1.026, k = 7", majorant(0.026, 7, 4, 9), None, 4),
    Figure("nested-sine", "000, (61): t = 1.0455, k = 12", majorant(0.0455, 12, 4, 9), None, 7),
    Figure("nested-sine", "000, (41) from x4(1) = e: t = 1.026, k = 7", majorant(0.026, 7, 4, 9 * e, e), None, 4),
    Figure("cavitating-sphere", "000, (67): R = 1.95, k = 16", SPHERE * geometric(9.5 * 0.05, 16), DOUBLE, 2),
    Figure("cavitating-sphere", "000, (67): R = 1.9, k = 16", SPHERE * geometric(9.5 * 0.1, 16), DOUBLE, 4),
    Figure("logistic", "001, Theorem 1: h = 1/10, T = 1", LOGISTIC, None),
    Figure("logistic-fine", "001, Theorem 1: h = 1/10, T = 1", LOGISTIC, None),
    *ADAMS,
    Figure("cube", "002, section 3, Remark: p = 3, x = 2", "vanishes", "vanishes", 10),
    Figure("sine-3", "003, section 4.1.1: N = 3, x = 1/2", lagrange(1 / 2, 3), None),
    Figure("sine-5", "003, section 4.1.1: N = 5, x = 1/2", lagrange(1 / 2, 5), None),
    Figure("sine-7", "003, section 4.1.1: N = 7, x = 1/2", lagrange(1 / 2, 7), None),
    Figure("euler", "003, section 4.2.2: h = 1/16 to x = 1/2", local_errors(1 / 2, 1 / 16), None),
    Figure("euler-half", "003, section 4.2.2: h = 1/32 to x = 1/2", local_errors(1 / 2, 1 / 32), None),
    benchmark("simplest", "SIMPLEST, t to 0.9999, LocErr < 10^-15, T12, 134 steps", "7.02·10^-11"),
    benchmark("simplest", "SIMPLEST, t to 0.99999, LocErr < 10^-10, T12, 66 steps", "2.60·10^-5"),
    benchmark("jacobi", "JACOB, t to 4K, LocErr < 10^-15, T12, 95 steps", "1.69·10^-16"),
    benchmark("van-der-pol", "VDPL, t to T, LocErr < 10^-20, T12, 1126 steps", "2.24·10^-16"),
    benchmark("brusselator", "BRUS, t to 20, LocErr < 10^-15, T12, 10912 steps", "2.89·10^-16"),
]

HEAD = [
    "sheet",
    "source",
    "its bound",
    "its true error",
    "compared at",
    "value",
    "degree",
    "radius",
    "true error",
    "refused",
]


def shown(figure):
    """A source's figure, and how it was come by."""
    if figure is None:
        return "none"
    return f"{figure}, printed" if isinstance(figure, str) else f"{figure:.2e}, by formula"


def line(cells):
    return f"| {' | '.join(cells)} |"


def adams_fails():
    """Whether an estimate of source 002 is off by more than a hundredth, or a method misses what its Remark says."""
    off = any(abs(line.bound - line.error) > line.error / 100 for line in ADAMS)
    return off or any(Adams(CUBE, p, 1 / 10).error(10) > FLOATING_POINT_ERROR / SCALE for p in (3, 4, 5))


class Compared:
    """A figure of a source, and the row of its sheet's answer that it is compared with."""

    def __init__(self, figure):
        self.figure, self.gallery = figure, Gallery(figure.sheet)
        self.degrees = numbers(self.gallery.answer, "degree")[: figure.row]
        self.row = len(self.degrees)
        self.radius = self.gallery.rows("radius")[self.row - 1][QUANTITY - 1]
        self.error = self.gallery.error(self.row, QUANTITY)

    def outside(self):
        return self.error > self.radius + FLOATING_POINT_ERROR

    def cells(self):
        least, most = min(self.degrees), max(self.degrees)
        value = self.gallery.rows("value")[self.row - 1][QUANTITY - 1]
        [result], [at] = numbers(self.gallery.answer, "result"), numbers(self.gallery.answer, "at")
        return [
            self.figure.sheet,
            self.figure.place,
            shown(self.figure.bound),
            shown(self.figure.error),
            f"quantity {QUANTITY}, row {self.row}, t = {self.gallery.time(self.row):.4g}",
            f"{value / SCALE:.6f}",
            f"{least}" if least == most else f"{least} to {most}",
            f"{self.radius / SCALE:.2e}",
            f"{self.error / SCALE:.2e}",
            f"{result} at {at}" if result else "no",
        ]


def main():
    compared = [Compared(figure) for figure in FIGURES]
    print(line(HEAD))
    print(line(["---"] * 5 + ["---:"] * 4 + ["---"]))
    for comparison in compared:
        print(line(comparison.cells()))
    return 1 if adams_fails() or any(comparison.outside() for comparison in compared) else 0


if __name__ == "__main__":
    sys.exit(main())
