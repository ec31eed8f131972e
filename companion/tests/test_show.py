"""Tables and times: nothing that is told says more than the planner does."""

import csv
import io
import random
import unittest
from fractions import Fraction
from math import ceil, floor

import description
import show
from answer import Answer, Part, Row, parsed
from clock import Clock, length
from plan import Search
from refusals import ADVICE, MEANING
from samples import ANSWER, TIDE, edited, plan_of
from subject import Cell, chosen
from units import SCALE


def clock(**changed):
    edits = {"unit": "h", "begin": "08:00:00", "step": '"10 min"', "steps": 12} | changed
    lines = "".join(
        f"{key} = {value}\n" if key != "unit" else f'unit = "{value}"\n' for key, value in edits.items() if value
    )
    text = f'[time]\n{lines}[quantity.x]\nstart = 0\ngood_to = 0\ntolerance = 1\nrate = "0"\n'
    return Clock(description.read(text).time)


class Cells(unittest.TestCase):
    def test_every_number_is_rounded_outward(self):
        rng = random.Random(1)
        for _ in range(2000):
            digits, unit = rng.randint(0, 8), Fraction(rng.choice([1, 100, 3]), SCALE)
            value, radius = rng.randint(-(1 << 30), 1 << 30) * unit, rng.randint(0, 1 << rng.randint(1, 29)) * unit
            low, high = value - rng.randint(0, 1 << 29) * unit, value + rng.randint(0, 1 << 29) * unit
            told = [Fraction(text) for text in show.cell_texts(Cell(value, radius, low, high), digits)]
            self.assertLessEqual(told[0] - told[1], value - radius)
            self.assertGreaterEqual(told[0] + told[1], value + radius)
            self.assertTrue(told[2] <= value - radius and value + radius <= told[3])
            self.assertTrue(told[4] <= low and high <= told[5])
            last = Fraction(1, 10**digits)
            near = [value, radius, value - radius, value + radius, low, high]
            self.assertTrue(all(abs(text - exact) < 2 * last for text, exact in zip(told, near)), (told, near))

    def test_digits(self):
        cell = Cell(Fraction(16, 10), Fraction(4, 100), Fraction(3, 2), Fraction(-17, 10))
        self.assertEqual(show.cell_texts(cell, 2), ("1.60", "0.04", "1.56", "1.64", "1.50", "-1.70"))
        self.assertEqual(show.cell_texts(cell, 1), ("1.6", "0.1", "1.5", "1.7", "1.5", "-1.7"))
        self.assertEqual(show.cell_texts(cell, 0), ("2", "1", "1", "2", "1", "-1"))


class Times(unittest.TestCase):
    def test_whole_minutes_and_midnight(self):
        told = clock(begin="23:50:00")
        self.assertEqual([told.text(row) for row in (0, 1, 2, 12)], ["23:50", "00:00 +1 d", "00:10 +1 d", "01:50 +1 d"])

    def test_days(self):
        told = clock(begin="2026-11-30T23:50:00")
        self.assertEqual([told.text(row) for row in (0, 1)], ["2026-11-30 23:50", "2026-12-01 00:00"])

    def test_without_a_clock_a_sentence_has_the_unit_and_no_more_places_than_it_takes(self):
        told = clock(unit="h", begin=None, step="0.025")
        self.assertEqual(told.text(2), "0.050")
        self.assertEqual((told.told(2), told.window(1, 2)), ("0.050 h", ("0.000", "0.050 h")))
        self.assertEqual(clock(unit="1", begin=None, step="0.5").window(1, 2), ("0.0", "1.0"))

    def test_a_window_on_one_day_has_its_date_once(self):
        told = clock(begin="2026-11-30T23:00:00")
        self.assertEqual(told.window(1, 5), ("2026-11-30 23:00", "23:50"))
        self.assertEqual(told.window(1, 6), ("2026-11-30 23:00", "2026-12-01 00:00"))
        self.assertEqual(clock(begin="23:00:00").window(7, 8), ("00:00 +1 d", "00:20 +1 d"))

    def test_seconds_and_parts(self):
        self.assertEqual(clock(step='"20 s"').text(2), "08:00:40")
        self.assertEqual(clock(step='"7.5 s"').text(1), "08:00:07.5")
        self.assertEqual(clock(begin="08:00:00.25", step='"1 h"').text(1), "09:00:00.25")

    def test_a_time_that_is_never_told_exactly_is_rounded_into_the_window(self):
        told = clock(unit="min", step="0.1234567", steps=9)
        self.assertEqual(told.text(1), "08:00:07.407")
        self.assertEqual(told.window(2, 3), ("08:00:07.408", "08:00:22.222"))

    def test_however_short_a_step_is_a_window_begins_before_it_ends(self):
        for step, first, window in [
            ('"0.0000001 s"', "08:00:00.0000001", ("08:00:00.0000005", "08:00:00.0000010")),
            ("0.00000001", "08:00:00.000036", ("08:00:00.000180", "08:00:00.000360")),
        ]:
            told = clock(step=step)
            self.assertEqual((told.text(1), told.window(6, 10)), (first, window))
        plain = clock(unit="1", begin=None, step="0.0000001")
        self.assertEqual(plain.window(6, 6), ("0.0000005", "0.0000006"))

    def test_back(self):
        told = clock(step='"-10 min"')
        self.assertEqual([told.text(row) for row in (0, 1, 12)], ["08:00", "07:50", "06:00"])
        self.assertEqual(told.window(1, 3), ("07:30", "08:00"))

    def test_without_a_clock(self):
        told = clock(unit="1", begin=None, step="0.25")
        self.assertEqual((told.heading(), told.text(0), told.text(3)), ("time", "0.00", "0.75"))
        self.assertEqual(clock(unit="h", begin=None, step="0.5").heading(), "time, h")
        third = clock(unit="1", begin=None, step="0.123456789")
        self.assertEqual(
            (third.text(1), third.text(1, floor), third.text(1, ceil)), ("0.123457", "0.123456", "0.123457")
        )


class Lengths(unittest.TestCase):
    def test_hours_minutes_and_seconds(self):
        time = clock().time
        told = [length(time, Fraction(seconds, 3600)) for seconds in (0, 1, 60, 61, 3600, 5400, Fraction(3, 2), 36001)]
        self.assertEqual(told, ["0 s", "1 s", "1 min", "1 min 1 s", "1 h", "1 h 30 min", "1.5 s", "10 h 1 s"])
        self.assertEqual([length(time, Fraction(1, 3), rounded) for rounded in (floor, ceil)], ["20 min", "20 min"])
        self.assertEqual(
            [length(time, Fraction(1, 7), rounded) for rounded in (floor, ceil)], ["8 min 34.285 s", "8 min 34.286 s"]
        )
        self.assertEqual(length(clock(unit="1", begin=None, step="0.5").time, Fraction(1, 3)), "0.333333")


class Answers(unittest.TestCase):
    def test_parsed(self):
        answer = parsed(ANSWER)
        self.assertEqual((answer.result, answer.at, len(answer.rows)), (8, 2, 1))
        self.assertEqual(answer.rows[0].parts[2], Part(33554432, 838860, 30000000, 36000000))

    def test_what_is_no_answer_is_not_taken(self):
        rows, _ = ANSWER.split("result")
        for text in ("", "result=0\n", rows, ANSWER.replace("low=0", "lo=0"), ANSWER.replace("degree=2\n", "")):
            with self.assertRaises(ValueError):
                parsed(text)


class Tables(unittest.TestCase):
    def setUp(self):
        self.plan = plan_of(TIDE, parsed(ANSWER))
        self.search = Search(Fraction(1, 2), 1, ((1, 1),), ("a word",))

    def text(self, *names, **options):
        return show.text(self.plan, self.search, chosen(self.plan.subjects, names), **options)

    def test_the_foot_stands_where_something_is_called_certain(self):
        self.assertTrue(self.text("water").endswith("\n\n" + "\n".join(show.FOOT) + "\n"))
        nowhere = Search(Fraction(1, 2), 1, (), ())
        for found in (nowhere, None):
            self.assertNotIn(show.FOOT[1], show.text(self.plan, found, self.plan.subjects))

    def test_names_units_and_times(self):
        told = self.text("water")
        self.assertIn("a tide\n", told)
        self.assertIn("water, over the sill (m)\n", told)
        self.assertIn("0  08:00          1.600   0.041     1.559    1.641\n", told)
        self.assertIn("1  08:10       2  2.000   0.050     1.950    2.050     1.788    2.146\n", told)

    def test_the_clearance_has_lows_and_highs_by_the_signs_of_its_weights(self):
        cell = self.plan.subjects[-1].cells[0]
        rise, _, water = self.plan.answer.rows[0].parts
        [(rise_drift, _, water_drift)] = self.plan.drifts
        drift = water_drift + rise_drift / 2
        self.assertEqual(cell.value, -1 + Fraction(2 * water.value - rise.value, 2 * SCALE))
        self.assertEqual(cell.radius, Fraction(2 * water.radius + rise.radius, 2 * SCALE) + drift)
        self.assertEqual(cell.low, -1 + Fraction(2 * water.low - rise.high, 2 * SCALE) - drift)
        self.assertEqual(cell.high, -1 + Fraction(2 * water.high - rise.low, 2 * SCALE) + drift)

    def test_water_enough(self):
        told = "clearance: at least 0.5 m from 08:00 to 08:10, for certain and all the way (row 1)\n(a word)\n"
        self.assertIn(told, self.text("water"))
        self.search = Search(Fraction(1, 2), 2, ((1, 2), (4, 5)), ())
        both = "at least 0.5 m from 08:00 to 08:20, for certain and all the way (rows 1 to 2)\n"
        both += "clearance: at least 0.5 m from 08:30 to 08:50, for certain and all the way (rows 4 to 5)\n"
        self.assertIn(both, self.text("water"))
        self.search = Search(Fraction(1, 2), 4, (), ())
        nowhere = "clearance: at least 0.5 m nowhere for certain, for 40 min (4 rows in a row)\n"
        self.assertIn(nowhere, self.text("water"))
        self.plan = plan_of(edited(('step = "10 min"', 'step = "-10 min"')), parsed(ANSWER))
        self.assertIn(nowhere, self.text("water"))
        self.search = None
        self.assertNotIn("at least 0.5", self.text("water"))

    def test_what_was_asked_stands_first(self):
        told = self.text("water")
        parts = ["a tide\n", "\n\nclearance: at least", "\n(a word)\n\nstep 2, ", "\n\nwater, over the sill (m)\n"]
        parts.append("\n\n(rounded outward")
        places = [told.index(part) for part in parts]
        self.assertEqual(places, sorted(places))
        self.assertTrue(told.startswith("a tide\n\nclearance"))

    def test_brief(self):
        told = show.brief(self.plan, self.search)
        self.assertTrue(told.startswith("clearance: at least 0.5 m from 08:00 to 08:10,"))
        self.assertIn("(a word)\n\nstep 2, from 08:10 to 08:20, is refused with 8", told)
        for words in ("a tide", "degree", "rounded outward"):
            self.assertNotIn(words, told)
        self.plan = plan_of(TIDE, Answer(self.plan.answer.rows, 0, 0))
        self.assertEqual(show.brief(self.plan, None), "accepted: 1 row; no need is asked for\n")

    def test_an_offset_is_told_with_the_windows(self):
        self.plan = plan_of(edited(("begin = 08:00:00", 'begin = "08:00-03:30"')), parsed(ANSWER))
        told = self.text("water")
        self.assertIn("(a word)\n(the times are -03:30)\n", told)
        self.assertIn("time (-03:30)  degree", told)

    def test_without_a_closer_explanation_the_answer_is_told_all_the_same(self):
        """Here the answer is made up, and the second program takes all steps."""
        told = self.text("water")
        self.assertIn("(there is no closer explanation: the planner answers 8 at 2, and the second program 0", told)
        self.assertIn("The row before it holds. Allow a larger tolerance", told)
        self.assertIn("2.000   0.050", told)

    def test_a_refusal_in_words_with_what_to_do(self):
        told = self.text("water")
        self.assertIn(
            "step 2, from 08:10 to 08:20, is refused with 8: after the step, a radius would pass the tolerance\n", told
        )
        self.assertIn("The row before it holds. Allow a larger tolerance only if the ship can bear it.", told)

    def test_every_refusal_has_words_and_advice(self):
        for result in range(1, 9):
            self.plan = plan_of(TIDE, Answer((), result, 1 if result > 5 else 0))
            self.search = None
            told = self.text()
            self.assertIn(f"refused with {result}: ", told)
            self.assertIn("There are no rows. ", told)
            self.assertNotIn("degree", told)

    def test_what_is_outward_is_told(self):
        told = "(rounded outward; a radius has in it what its value was rounded by{})"
        self.assertIn(told.format(", and what the sheet's rounded step and coefficients can do"), self.text("water"))
        self.plan = plan_of(TIDE.replace("m2 * ", "0.5 * ").replace('"10 min"', '"15 min"'), parsed(ANSWER))
        self.assertIn(told.format(""), self.text("water"))

    def test_comma_separated(self):
        told = show.comma_separated(self.plan, self.search, chosen(self.plan.subjects, ["water", "rise"]))
        heading, row = csv.reader(io.StringIO(told))
        self.assertEqual(heading[:5], ["row", "time", "degree", "water value (m)", "water radius (m)"])
        self.assertEqual(row[:5], ["1", "08:10", "2", "2.000", "0.050"])
        self.assertEqual((len(heading), len(row), heading[-1], row[-1]), (16, 16, "clear", "yes"))
        self.assertEqual(dict(zip(heading, row))["rise at least since the row before (m)"], "-1.001")

    def test_which_rows_are_clear_and_each_subject_by_its_own_digits(self):
        rows = parsed(ANSWER).rows * 5
        plan = plan_of(edited(("start = 1.60", "start = 1.60\nwhole = 3\ndigits = 1")), Answer(rows, 0, 0))
        found = Search(Fraction(1, 2), 2, ((2, 3), (5, 5)), ())
        told = show.comma_separated(plan, found, chosen(plan.subjects, ["rise", "water"]))
        lines = list(csv.reader(io.StringIO(told)))
        self.assertEqual([line[-1] for line in lines], ["clear", "no", "yes", "yes", "no", "yes"])
        self.assertEqual((lines[1][3], lines[1][9]), ("-1.000", "6.0"))

    def test_the_refusals_are_told_by_their_numbers(self):
        """Words of docs/SHEET.md's table, for each number: what it says, and what to do."""
        words = {
            1: ("4,096", "file"),
            2: ("misspelt", "n and terms"),
            3: ("range", "ranges"),
            4: ("reading", "reading"),
            5: ("buffer", "7,920"),
            6: ("32", "larger"),
            7: ("step is too long", "shorter steps"),
            8: ("tolerance", "smaller tail"),
        }
        self.assertEqual(words.keys(), MEANING.keys())
        for number, (meaning, advice) in words.items():
            self.assertIn(meaning, MEANING[number])
            self.assertIn(advice, ADVICE[number])

    def test_comma_separated_without_a_search(self):
        told = show.comma_separated(self.plan, None, chosen(self.plan.subjects, ["water"]), digits=1)
        heading, row = csv.reader(io.StringIO(told))
        self.assertEqual((heading[-1], row[3:5]), ("water at most since the row before (m)", ["2.0", "0.1"]))


class Long(unittest.TestCase):
    def test_widths_hold_for_wide_numbers(self):
        part = Part(-(1 << 30), 1 << 29, -(1 << 31), 1 << 31)
        plan = plan_of(TIDE, Answer((Row(28, (part,) * 3),), 0, 0))
        heading, start, row = show.table(plan, plan.subjects[0], 3)[2:]
        self.assertEqual(len(row), len(heading))
        self.assertEqual(
            row.split(), ["1", "08:10", "28", "-64.000", "32.001", "-96.001", "-31.999", "-128.001", "128.001"]
        )
