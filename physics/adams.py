"""The Adams predictor-corrector methods of source 002, corrected to convergence, and its estimate of their error by
Algorithm 5.1, for a single equation y' = f(x, y) whose solution is known. The numbers in brackets are the source's.
"""

from collections import namedtuple
from fractions import Fraction
from math import comb, factorial

# f, its derivative by y, the solution, and where x begins.
Equation = namedtuple("Equation", "f f_y solution begin")

# A_ppn of Theorem 4.1, which takes all of d_v to d_(v+p-1), in that order: the weights and what divides them. For p = 4
# the source prints its first weight, 191, as one of d_(v+1); it is that of d_(v+3), as the order of the others has it.
LOCAL = {
    2: ([1, 1], 12),
    3: ([11, 60, -11], 600),
    4: ([191, 3925, -1115, 191], 45360),
    5: ([2497, 175066, -55440, 16454, -2497], 2530080),
}

CORRECTIONS = 60  # More than it takes until nothing changes.


def integral(roots):
    """Of the product of all s - root, from 0 to 1."""
    powers = [Fraction(1)]
    for root in roots:
        powers = [a - root * b for a, b in zip([0, *powers], [*powers, 0])]
    return sum(number / (place + 1) for place, number in enumerate(powers))


def weights(p, first_root):
    """By (3.9) and (3.12), or (3.10) and (3.13): the formula's weights of the p newest f, from the newest back."""
    gammas = [integral(range(first_root, first_root - j, -1)) / factorial(j) for j in range(p)]
    return [float(sum((-1) ** i * comb(j, i) * gammas[j] for j in range(i, p))) for i in range(p)]


def newest_first(numbers, count):
    return numbers[: -count - 1 : -1]


def weighed(factors, numbers):
    return sum(factor * number for factor, number in zip(factors, numbers))


class Adams:
    """The method of order p with the step h, from p starting values of the solution itself."""

    def __init__(self, equation, p, h):
        self.equation, self.p, self.h = equation, p, h
        self.predictor, self.corrector = weights(p, 0), weights(p, 1)
        self.xs = [equation.begin + v * h for v in range(p)]
        self.ys = [equation.solution(x) for x in self.xs]
        self.slopes = [equation.f(x, y) for x, y in zip(self.xs, self.ys)]
        self.differences = [0.0] * p  # d_v of (4.1), the predictor less the corrector.

    def step(self):
        """(2.4), and (2.5) until it stays as it is."""
        x, last = self.equation.begin + len(self.xs) * self.h, self.ys[-1]
        predicted = last + self.h * weighed(self.predictor, newest_first(self.slopes, self.p))
        known = last + self.h * weighed(self.corrector[1:], newest_first(self.slopes, self.p - 1))
        y = predicted
        for _ in range(CORRECTIONS):
            y = known + self.h * self.corrector[0] * self.equation.f(x, y)
        self.xs.append(x)
        self.ys.append(y)
        self.slopes.append(self.equation.f(x, y))
        self.differences.append(predicted - y)

    def local(self, v):
        """A_ppn of Theorem 4.1, the estimate of the local error of the step to x_v."""
        numbers, divisor = LOCAL[self.p]
        return weighed(numbers, self.differences[v : v + self.p]) / divisor

    def run(self, steps):
        """To x after so many steps, and as many more as the last estimate takes."""
        while len(self.ys) < steps + self.p:
            self.step()

    def estimate(self, steps):
        """The error after so many steps, by Algorithm 5.1."""
        self.run(steps)
        slopes = [self.equation.f_y(x, y) for x, y in zip(self.xs, self.ys)]
        errors = [0.0] * self.p
        for v in range(self.p, steps + 1):
            carried = [slope * error for slope, error in zip(slopes, errors)]
            known = errors[-1] + self.h * weighed(self.corrector[1:], newest_first(carried, self.p - 1)) - self.local(v)
            errors.append(known / (1 - self.h * self.corrector[0] * slopes[v]))
        return abs(errors[steps])

    def error(self, steps):
        """The error itself."""
        self.run(steps)
        return abs(self.ys[steps] - self.equation.solution(self.xs[steps]))
