"""Wrong rules that demand 3 refuses: exactness/wrong_rules.py

For each kind a rule with one fault, the row that it writes and an exact sum that lies outside the row's radius. The rows are those of
crates/enclosure/proofs/Distrust.antt, where each is proved not to be trusted. Prints a line for each; the exit status is 1 where a row
is another there, or where its exact sum lies within.
"""

import pathlib
import re
import sys
from fractions import Fraction
from math import ceil, floor

import rounded_step as rule
from exact_sum import SCALE, exact_sum

PROOFS = pathlib.Path(__file__).resolve().parent.parent / "crates/enclosure/proofs/Distrust.antt"
QUARTER, SQUARE = SCALE // 4, [(1, SCALE, 1, 1)]


class Sheet:
    """Values and radii, terms, a step and a tail, in units; most are case A, x' = x * x from one whole."""

    def __init__(self, values=(SCALE,), radii=(0,), terms=SQUARE, step=QUARTER, tail=349526):
        self.values, self.radii, self.terms, self.step, self.tail = list(values), list(radii), terms, step, tail

    def row(self, **faults):
        """The row of a rule in which these functions are others."""
        right = {name: getattr(rule, name) for name in faults}
        try:
            for name, fault in faults.items():
                setattr(rule, name, fault)
            degree, values, radii, _, _ = rule.rounded_step(self.values, self.radii, self.terms, self.step, self.tail)
        finally:
            for name, function in right.items():
                setattr(rule, name, function)
        return degree, values, radii


def tailed(tail):
    """The least degree whose tail is at most the sheet's, and that tail, for this tail of a power and q."""

    def degree_and_tail(scale, q, most):
        power, degree = ceil(Fraction(scale * q, SCALE)), 0
        while tail(power, q) > most:
            power, degree = ceil(Fraction(power * q, SCALE)), degree + 1
        return degree, tail(power, q)

    return degree_and_tail


def without_tail(scale, q, most, right=rule.degree_and_tail):
    return right(scale, q, most)[0], 0


def nearest_ratio(scale, n, terms, step):
    """The ratio to the nearest, where G is s."""
    return rule.near(Fraction(sum(abs(coef) for _, coef, _, _ in terms) * abs(step), SCALE))


def forecast_ratio(scale, n, terms, step, right=rule.ratio):
    """The ratio by H and not |H|: none for a step back."""
    return right(scale, n, terms, max(step, 0))


def without_one(by, value, error, right=rule.times):
    value, error = right(by, value, error)
    return value, error - 1


def forecast_radii(by, value, error, right=rule.times):
    """By the sheet's step, a quarter back, an error is 1 whatever it was."""
    return right(by, value, 0 if by == -QUARTER else error)


A, BACK, UNIT = Sheet(), Sheet(step=-QUARTER), Sheet(step=1)
STEEPER = Sheet(terms=[(1, SCALE + 1024, 1, 1)], step=4095)
WIDE = Sheet([0], [2 * SCALE], step=SCALE // 8, tail=SCALE)
BACKWARD = Sheet([0], [SCALE], [(1, -SCALE, 1, 0)], -QUARTER, 1398102)
SEVEN = Sheet([SCALE] * 6, [0] * 6, [(1, 8220835, first, 0) for first in range(7)], 1, 2)
STILL = Sheet([0], [5], [], 1, 2)
A_ROW = A.row()

# a theorem's name: the sheet, the row that the wrong rule writes, the start in wholes and the degree of the exact sum
ROWS = {
    "forward_row": (BACK, A_ROW, [1], 2),
    "value_alone": (A, (*A_ROW[:2], [0]), [1], 3),
    "without_tail": (A, A.row(degree_and_tail=without_tail), [1], 3),
    "tail_of_one_order": (A, A.row(degree_and_tail=tailed(lambda power, q: power)), [1], 4),
    "tail_rounded_down": (UNIT, UNIT.row(degree_and_tail=tailed(lambda power, q: floor(Fraction(power * SCALE, SCALE - q)))), [1], 2),
    "ratio_to_nearest": (STEEPER, STEEPER.row(ratio=nearest_ratio), [1], 2),
    "ratio_of_a_forecast_alone": (BACK, BACK.row(ratio=forecast_ratio), [1], 1),
    "greatest_from_values_alone": (WIDE, WIDE.row(common_scale=lambda values, radii: max([SCALE, *map(abs, values)])), [2], 1),
    "radii_of_a_forecast_alone": (BACKWARD, BACKWARD.row(times=forecast_radii), [1], 1),
    "next_step_from_radius_0": (STILL, Sheet([0], [0], [], 1, 2).row(), [Fraction(5, SCALE)], 0),
    "without_its_one": (SEVEN, SEVEN.row(times=without_one), [1] * 6, 1),
}


def stands(text, name, degree, value, radius):
    """Whether the theorem of this name is about a row with these numbers."""
    statement = re.search(rf"^pub {name} : (.*)$", text, re.M)[1]
    if "row_of" in statement:
        return re.findall(r"row_of (\d+) \(pos (\d+)\) (\d+)", statement)[-1] == (str(degree), str(value), str(radius))
    about = re.search(r"^about_one = record \{ value = pos (\d+); radius = (\d+) \}$", text, re.M)
    return f"degree = {degree};" in statement and about.groups() == (str(value), str(radius))


def main():
    text, good = PROOFS.read_text(), 0
    for name, (sheet, (degree, values, radii), start, high) in ROWS.items():
        reached = exact_sum([Fraction(number) for number in start], sheet.terms, sheet.step, high)[0] if high else start[0]
        outside = abs(SCALE * reached - values[0]) - radii[0]
        same = stands(text, name, degree, values[0], radii[0])
        good += same and outside > 0
        print(f"{name}: degree {degree}, value {values[0]}, radius {radii[0]}; of degree {high} the exact sum lies {float(outside):.9g} units outside{'' if same else ': ANOTHER ROW THERE'}")
    proved = re.findall(r"^pub (\w+) : TrustedOf .* → ⊥$", text, re.M)
    print(f"{good} of {len(proved)} rows that are not trusted")
    return 0 if good == len(ROWS) == len(proved) else 1


if __name__ == "__main__":
    sys.exit(main())
