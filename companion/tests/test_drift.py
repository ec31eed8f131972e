"""What is shown is true of the description, not only of its sheet: closed forms with coefficients and steps that are
rounded as badly as they can be."""

import random
import unittest
from decimal import Decimal, localcontext
from fractions import Fraction
from math import floor
from unittest import mock

import description
import draw
import drift
import show
from drift import FINE, Share, after_step, drifts, grown
from plan import plan, search, with_answer
from samples import SHEETS, TIDE, planned
from sheet import Writer
from units import SCALE

PLACES = 60
HALF = Fraction(1, 2)


def written(number):
    """A number that is so many parts of two, written out as a decimal."""
    with localcontext() as context:
        context.prec = 200
        return format(Decimal(number.numerator) / Decimal(number.denominator), "f")


def exponential(number):
    with localcontext() as context:
        context.prec = PLACES
        return Fraction((Decimal(number.numerator) / Decimal(number.denominator)).exp())


def turned(angle):
    """The cosine and the sine, by their series."""
    cosine, sine, order, term = Fraction(0), Fraction(0), 0, Fraction(1)
    while order < 8 or abs(term) > Fraction(1, 10**PLACES):
        if order % 2 == 0:
            cosine += term if order % 4 == 0 else -term
        else:
            sine += term if order % 4 == 1 else -term
        order += 1
        term = Fraction(floor(term * angle / order * 10 ** (2 * PLACES)), 10 ** (2 * PLACES))
    return cosine, sine


def half_a_unit_off(rng, least, most):
    """A number half a unit away from any number of units."""
    return Fraction(2 * rng.randint(floor(least * SCALE), floor(most * SCALE)) + 1, 2 * SCALE)


ONE_RATE = """\
[time]
step = 0.1
steps = 3
[quantity.x]
start = 1
good_to = 0
tolerance = 1
rate = "{rate}"
[quantity.y]
start = 1
good_to = 0
rate = "0"
"""


class Form:
    """A random description with the truth about it: what its quantities are at a time."""

    def __init__(self, rng):
        self.step = rng.choice([-1, 1]) * half_a_unit_off(rng, Fraction(1, 8), Fraction(7, 8))
        self.steps = rng.randint(1, 16)
        self.kind = rng.choice([self.carried, self.speeding, self.growing, self.turning, self.slowing])
        self.starts, self.rates = {}, {}
        self.truth = self.kind(rng)

    def carried(self, rng):
        """x' = c v with a speed v that stays; now and then as two like terms."""
        c, v, x = half_a_unit_off(rng, 0, Fraction(1, 32)), rng.choice([-31, 31]), rng.randint(-2, 2)
        more = half_a_unit_off(rng, 0, 15)
        rate = rng.choice([f"{written(c)} * v", f"{written(c + more)} * v - {written(more)} * v"])
        self.starts, self.rates = {"v": v, "x": x}, {"v": "0", "x": rate}
        return lambda t: {"v": v, "x": x + c * v * t}

    def speeding(self, rng):
        """The same with v' = a."""
        c, a, v = half_a_unit_off(rng, 0, Fraction(1, 32)), rng.choice([-1, 1]) * HALF, rng.randint(8, 20)
        self.starts, self.rates = {"v": v, "x": 1}, {"v": written(a), "x": f"{written(c)} * v"}
        return lambda t: {"v": v + a * t, "x": 1 + c * (v * t + a * t * t / 2)}

    def growing(self, rng):
        """x' = c x."""
        c, x = half_a_unit_off(rng, Fraction(-1, 8), Fraction(1, 8)), rng.choice([-1, 1]) * rng.randint(1, 3)
        self.starts, self.rates = {"x": x}, {"x": f"{written(c)} * x"}
        return lambda t: {"x": x * exponential(c * t)}

    def turning(self, rng):
        """x' = c y, y' = -c x."""
        c, x, y = half_a_unit_off(rng, Fraction(1, 32), Fraction(1, 2)), rng.randint(1, 20), rng.randint(-20, 20)
        self.starts, self.rates = {"x": x, "y": y}, {"x": f"{written(c)} * y", "y": f"-{written(c)} * x"}

        def truth(t):
            cosine, sine = turned(c * t)
            return {"x": x * cosine + y * sine, "y": y * cosine - x * sine}

        return truth

    def slowing(self, rng):
        """v' = -c v^2, and what is left of the speed as part of 8, p' = -c v p."""
        c, v = half_a_unit_off(rng, 0, Fraction(1, 256)), rng.randint(4, 16)
        self.starts = {"v": v, "p": 8}
        self.rates = {"v": f"-{written(c)} * v^2", "p": f"-{written(c)} * v * p"}
        return lambda t: {"v": v / (1 + c * v * t), "p": 8 / (1 + c * v * t)}

    def text(self):
        quantities = (
            f'[quantity.{name}]\nstart = {start}\ngood_to = 0\ntolerance = 1\nrate = "{self.rates[name]}"\n'
            for name, start in self.starts.items()
        )
        return f"[time]\nstep = {written(self.step)}\nsteps = {self.steps}\n" + "".join(quantities)


def shown(cell):
    """What a table says of a cell, with as many places as there can be."""
    return [Fraction(text) for text in show.cell_texts(cell, description.MOST_DIGITS)]


class ClosedForms(unittest.TestCase):
    COUNT = 400

    def test_the_truth_of_the_description_lies_in_all_that_is_shown(self):
        rng = random.Random(1)
        kinds, beyond, rows = set(), 0, 0
        for _ in range(self.COUNT):
            form = Form(rng)
            kinds.add(form.kind.__name__)
            made = plan(description.read(form.text()))
            self.assertEqual(len(made.drifts), len(made.answer.rows))
            rows += len(made.answer.rows)
            for place, subject in enumerate(made.subjects):
                for row, cell in enumerate(subject.cells, 1):
                    value, radius, least, most, low, high = shown(cell)
                    truth = form.truth(row * form.step)[subject.name]
                    self.assertTrue(abs(truth - value) <= radius and least <= truth <= most, form.text())
                    for part in (0, rng.random(), 1):
                        within = form.truth((row - 1 + Fraction(part)) * form.step)[subject.name]
                        self.assertTrue(low <= within <= high, form.text())
                    told = made.answer.rows[row - 1].parts[place]
                    beyond += abs(truth * SCALE - told.value) > told.radius
        self.assertEqual(len(kinds), 5)
        self.assertGreater(beyond, rows // 20, "the sheet's own radii would do: nothing is tried here")


class Clearances(unittest.TestCase):
    COUNT = 60

    def test_whatever_is_called_clear_is_so_by_the_description(self):
        """x' = c v and z' = -c v with a few units and a half for c, weights of both signs, a whole of its own, true starts
        at both ends of what they are good to, and a need that is met exactly at a row."""
        rng = random.Random(3)
        clear = beyond = 0
        for _ in range(self.COUNT):
            c = half_a_unit_off(rng, Fraction(1, SCALE), Fraction(9, SCALE))
            v, step, steps = rng.choice([-31, 31]), rng.choice([-1, 1]) * Fraction(1, 2), rng.randint(100, 240)
            good = Fraction(rng.choice([0, 5]), 1000)
            weights = [Fraction(rng.randint(-2000, 2000), 1000) for _ in range(2)]

            def least(t):
                return weights[0] * (1 + c * v * t) + weights[1] * (2 - c * v * t) - good * sum(map(abs, weights))

            need = Fraction(floor(least(rng.randint(50, steps) * step) * 10**9), 10**9)
            text = f"[time]\nstep = {written(step)}\nsteps = {steps}\n"
            for name, start, off, rate in (
                ("v", v, 0, "0"),
                ("x", 1, good, f"{written(c)} * v"),
                ("z", 2, good, f"-{written(c)} * v"),
            ):
                text += f'[quantity.{name}]\nstart = {start}\ngood_to = {written(Fraction(off))}\n'
                text += f'tolerance = 1\nrate = "{rate}"\n'
            text += f"[clearance]\nwhole = {rng.choice([1, 2, 4])}\nneed = {written(need)}\n"
            text += f"weights = {{ x = {written(weights[0])}, z = {written(weights[1])} }}\n"
            made = plan(description.read(text))
            for first, last in search(made).runs:
                clear += last + 1 - first
                for row in (first - 1, last):
                    self.assertGreaterEqual(least(row * step), need, text)
            lows = (
                sum(weight * (part.low if weight > 0 else part.high) for weight, part in zip(weights, row.parts[1:]))
                for row in made.answer.rows
            )
            beyond += any(low >= need * SCALE > least(row * step) * SCALE for row, low in enumerate(lows, 1))
        self.assertGreater(clear, 1000)
        self.assertGreater(beyond, 3, "the sheet's own lows would do: nothing is tried here")


class Bounds(unittest.TestCase):
    def test_one_quantity_is_bounded_by_its_exponential_and_hardly_wider(self):
        """u' = m u + e from u: u e^m + e (e^m - 1) / m, for small and large m."""
        rng = random.Random(2)
        for _ in range(100):
            m, e, u = (Fraction(rng.randint(1, 10**6), 10 ** rng.choice([5, 6, 8])) for _ in range(3))
            [found] = grown({(0, 0): drift.up(m)}, [drift.up(e)], [drift.up(u)])
            truth = u * exponential(m) + e * (exponential(m) - 1) / m
            self.assertTrue(truth <= Fraction(found, FINE) <= truth * (1 + Fraction(1, 10**9)), (m, e, u))

    def test_what_nothing_reaches_stays_0_and_what_is_reached_last_does_not(self):
        chain = {(place + 1, place): FINE // 4 for place in range(6)}
        found = grown(chain, [FINE, 0, 0, 0, 0, 0, 0, 0], [0] * 8)
        self.assertEqual([number > 0 for number in found], [True] * 7 + [False])

    def test_a_margin_that_is_never_wide_enough_gives_no_bound(self):
        blowing_up = (Share(0, (0, 0), 8 * FINE, FINE // 100),)
        self.assertIsNone(after_step(blowing_up, [FINE], [0]))
        self.assertIsNotNone(after_step((Share(0, (0, 0), FINE // 8, FINE // 100),), [FINE], [0]))

    def test_an_exact_sheet_has_no_drift(self):
        made = planned("square")
        self.assertEqual(made.drifts, ((0,),))
        self.assertEqual(show.drift_words(made), [])
        self.assertEqual(show.remark(made), f"({show.OUTWARD})")

    def test_like_terms_are_added_first(self):
        """x' = -1.9 x y + 1.8 y x grows as x' = -0.1 x y does, and is off by both roundings, with their signs."""
        plain = ONE_RATE.format(rate="-0.1 * x * y")
        [like], [alone] = (
            list(drift.shares(read, Writer(read).sheet()))
            for read in map(description.read, (ONE_RATE.format(rate="-1.9 * x * y + 1.8 * y * x"), plain))
        )
        self.assertEqual((like.to, like.factors), (alone.to, alone.factors))
        self.assertLess(abs(like.size - alone.size), 2 * FINE // SCALE)
        self.assertLess(like.moved, 2 * FINE // SCALE)
        self.assertGreater(like.moved, 0)

    def test_the_gallery_drifts_by_less_than_its_radii(self):
        """But for some units, which a quantity that starts exactly may have less of."""
        names = sorted(path.stem for path in SHEETS.glob("*.toml"))
        for name in names:
            made = planned(name)
            self.assertEqual(len(made.drifts), len(made.answer.rows), name)
            for row, found in zip(made.answer.rows, made.drifts):
                for part, each in zip(row.parts, found):
                    self.assertLess(each * SCALE, 2 * part.radius + 8, name)

    def test_the_drift_is_outward_of_every_cell(self):
        made = planned("tide-over-sill")
        for place, subject in enumerate(made.subjects[:-1]):
            for row, cell, each in zip(made.answer.rows, subject.cells, made.drifts):
                part, whole = row.parts[place], made.description.quantities[place].scale.whole
                self.assertGreater(each[place], 0)
                self.assertEqual(cell.radius, (Fraction(part.radius, SCALE) + each[place]) * whole)
                self.assertEqual(cell.low, (Fraction(part.low, SCALE) - each[place]) * whole)
                self.assertEqual(cell.high, (Fraction(part.high, SCALE) + each[place]) * whole)


# A ship at 31 m/s with 7,440 m to the quay: after 240 s she has no room at all.
QUAY = """\
[time]
unit = "s"
begin = 08:00:00
step = 1
steps = 240
[quantity.speed]
unit = "m/s"
start = 31
good_to = 0
rate = "0"
[quantity.room]
unit = "m"
whole = 700
start = 7440
good_to = 0
tolerance = 1
rate = "-speed"
[clearance]
unit = "m"
whole = 700
weights = { room = 1 }
need = 0.04
"""


class Quay(unittest.TestCase):
    def test_no_room_is_called_room(self):
        made = plan(description.read(QUAY))
        last = made.subjects[1].cells[-1]
        self.assertGreater(made.answer.rows[-1].parts[1].low * 700, SCALE * Fraction(4, 100), "the sheet alone says so")
        self.assertTrue(last.least <= 0 <= last.most and last.low <= 0 <= last.high)
        found = search(made)
        self.assertEqual(found.runs, ((1, 239),))
        self.assertIn("the need is higher by what the sheet's rounded step and coefficients can do, 0.15 m at most", found.said)

    def test_the_bound_is_told(self):
        [words] = show.drift_words(plan(description.read(QUAY)))
        self.assertIn("up to row 240, at most: speed 0 m/s, room 0.15 m;", words)


class Unbounded(unittest.TestCase):
    """Rows for which there is no bound are shown as the planner has them, and nothing in them is called certain."""

    def setUp(self):
        known = planned("tide-over-sill")
        cut = mock.patch("plan.drifts", lambda *given: drifts(*given)[:12])
        with cut:
            self.plan = with_answer(known.description, known.sheet, known.answer)
        self.known = known

    def test_only_bounded_rows_are_searched(self):
        step = self.plan.description.time.step
        self.assertEqual(search(self.known, Fraction(2), step).runs, ((10, 36),))
        self.assertEqual(search(self.plan, Fraction(2), step).runs, ((10, 12),))

    def test_it_is_said(self):
        words = "rows from 13 on answer for the sheet's equations alone, and nothing in them is called certain"
        self.assertIn(words, show.text(self.plan, None, self.plan.subjects[:1]))
        self.assertIn(words, show.brief(self.plan, None))
        self.assertIn(words, show.drift_words(self.plan)[-1])

    def test_a_picture_says_it_too(self):
        self.assertIn(*show.unbounded_words(self.plan), draw.Picture(self.plan, None, self.plan.subjects[4]).notes())

    def test_back_in_time(self):
        text = TIDE.replace('step = "10 min"', 'step = "-10 min"')
        with mock.patch("plan.drifts", lambda *given: drifts(*given)[:2]):
            [words] = show.unbounded_words(plan(description.read(text)))
        self.assertTrue(words.startswith("before 07:40, what the sheet's rounded"), words)

    def test_the_cells(self):
        mine, whole = self.plan.subjects[4].cells, self.known.subjects[4].cells
        self.assertEqual(mine[:12], whole[:12])
        self.assertLess(mine[12].radius, whole[12].radius)

    def test_without_any(self):
        with mock.patch("plan.drifts", lambda *given: ()):
            made = with_answer(self.known.description, self.known.sheet, self.known.answer)
        self.assertEqual(search(made, Fraction(-30), made.description.time.step).runs, ())
        [words] = show.drift_words(made)
        self.assertIn("rows from 1 on answer", words)


class Rows(unittest.TestCase):
    def test_no_rows_no_bound(self):
        text = TIDE.replace("start = 1.60\n", "")
        read = description.read(text)
        [words] = show.drift_words(plan(read))
        self.assertIn("is not known: the passage has no rows", words)
        self.assertIsNotNone(Writer(read).sheet())
