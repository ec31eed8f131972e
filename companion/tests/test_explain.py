"""Explanations: the line, the step, the quantity and by how much, from the planner and the second program; never a
verdict where the two differ."""

import re
import unittest
from unittest import mock

import description
import explain
import programs
from answer import Answer
from samples import SHEETS, edited
from sheet import Writer

CASES = programs.ROOT / "cases"

# A sheet of cases/, and what its explanation must say.
TOLD = {
    "bytes-4097": ["refused with 1", "See whether it is the right file."],
    "empty": ["refused with 2", "line 1 of the sheet, n: there stands nothing", "right would be 'n=' and a number"],
    "step-leading-zeros": [
        "refused with 2",
        "line 3 of the sheet, step: there stands 'step=00",
        "without a leading zero",
    ],
    "radius-minus-one": [
        "line 7 of the sheet, radius of quantity 1: there stands 'radius=-1'",
        "a number without a minus",
    ],
    "no-last-line-feed": ["line 12 of the sheet, second of term 1", "a line feed at its end"],
    "line-feed-too-many": ["line 13 of the sheet, after the last line: there stands ''", "right would be nothing"],
    "carriage-returns": ["line 1 of the sheet, n: there stands 'n=1\\x0d'"],
    "step-zero": ["refused with 3", "there stands 'step=0'", "a number from -16777216 to 16777216, but not 0"],
    "steps-241": ["refused with 3", "line 2 of the sheet, steps", "a number from 1 to 240"],
    "second-without-first": ["refused with 3", "second of term 1", "a number from 0 to 0"],
    "start-none": [
        "refused with 4",
        "line 6 of the sheet, start of quantity 1: there stands 'start=none'",
        "Take a reading",
    ],
    "g-too-large": [
        "refused with 6",
        "step 1 is refused",
        "quantity 1 is 32.000000000 (536870912 units)",
        "0.000000060 (1 units) too much",
    ],
    "d-too-long": [
        "refused with 7",
        "its ratio is 0.500 (8388609 units), and one half (8388608) is the most",
        "a step of 0.500 (8388608 units) would pass",
    ],
}


def words(sheet, described=None):
    lines, result = explain.words(sheet, described)
    return "\n".join(lines), result


class Sheets(unittest.TestCase):
    def test_what_is_told(self):
        for name, parts in TOLD.items():
            with self.subTest(name=name):
                told, result = words((CASES / f"{name}.sheet").read_bytes())
                self.assertEqual(result, int((CASES / f"{name}.answer").read_text().split("result=")[1].split()[0]))
                for part in parts:
                    self.assertIn(part, told)

    def test_every_refused_case_has_the_planners_number_and_a_place(self):
        for path in sorted(CASES.glob("*.answer")):
            result, at = (int(part.split("=")[1]) for part in path.read_text().splitlines()[-2:])
            if result and path.stem not in TOLD:
                with self.subTest(name=path.stem):
                    told, found = words(path.with_suffix(".sheet").read_bytes())
                    self.assertEqual(found, result)
                    self.assertIn(f"refused with {result}: ", told)
                    self.assertIn(f"step {at} is refused" if at else "line ", told)

    def test_every_quantity_that_is_to_blame(self):
        told, _ = words((SHEETS / "tide-by-feedback.sheet").read_bytes())
        for number in (1, 2):
            self.assertIn("with tol=864285 this step would pass\n", told)
            self.assertIn(
                f"the radius of quantity {number} would go from 0.0473 (794387 units) to 0.0515 (864285", told
            )
        large = (CASES / "g-too-large.sheet").read_text().replace("n=1\n", "n=2\n")
        start, end = large.index("start="), large.index("terms=")
        told, _ = words((large[:end] + large[start:end] + large[end:]).encode())
        self.assertIn("quantity 1 is 32.0", told)
        self.assertIn("quantity 2 is 32.0", told)

    def test_a_longest_step_is_never_rounded_up(self):
        sheet = (SHEETS / "tide-over-sill.sheet").read_text().replace("step=2796203\n", "step=16777216\n")
        told, _ = words(sheet.encode())
        self.assertIn("from there a step of 0.485 (8148497 units) would pass", told)

    def test_accepted(self):
        self.assertEqual(words((SHEETS / "square.sheet").read_bytes()), ("accepted: 1 rows of 1", 0))


class Descriptions(unittest.TestCase):
    def told(self, *edits):
        read = description.read(edited(*edits))
        return words(Writer(read).sheet().text().encode(), read)

    def test_a_radius_in_the_descriptions_names_units_and_times(self):
        told, result = self.told(('tolerance = "5 cm"', 'tolerance = "4.0002 cm"'))
        self.assertEqual(result, 8)
        self.assertRegex(told, r"step \d, from 08:\d\d to 0\d:\d\d, is refused\n")
        self.assertRegex(
            told,
            r"the radius of water would go from 0\.0400\d+ m to 0\.0400\d+ m, and the tolerance is 0\.0400\d+ m: 0\.0+\d\d m too much",
        )

    def test_the_tolerance_that_is_told_lets_the_step_pass(self):
        for more in ([], [("start = -1.8", 'start = -1.8\nwhole = 3\ntolerance = "12.0006 cm"')]):
            edits = [*more, ('tolerance = "5 cm"', 'tolerance = "4.0002 cm"')]
            read = description.read(edited(*edits))
            sheet = Writer(read).sheet().text().encode()
            told, _ = words(sheet, read)
            at = programs.plan(sheet).at
            tolerances = dict(
                reversed(found) for found in re.findall(r"(0\.\d+ m) for (\w+)", told.split("with a tolerance of")[1])
            )
            self.assertEqual(set(tolerances), {"water", "rise"} if more else {"water"})
            wider = edited(
                *((old, re.sub('tolerance = ".*"', f'tolerance = "{tolerances["rise"]}"', new)) for old, new in more),
                ('tolerance = "5 cm"', f'tolerance = "{tolerances["water"]}"'),
            )
            answer = programs.plan(Writer(description.read(wider)).sheet().text().encode())
            self.assertTrue(answer.result == 0 or answer.at > at, (answer.result, answer.at, at))

    def test_the_whole_that_is_told_lets_the_step_pass(self):
        told, result = self.told(("start = 1.60", "start = 31.99"))
        self.assertEqual(result, 6)
        self.assertIn("with 'whole = 2' for water this step would pass\n", told)
        _, result = self.told(("start = 1.60", "start = 31.99\nwhole = 2"))
        self.assertEqual(result, 0)

    def test_a_whole_that_does_not_help_is_not_told(self):
        """The tolerance in the sheet's own units is too strict for the larger whole, or every step is too long."""
        told, result = self.told(("start = 1.60", "start = 31.99"), ("m2 * fall\n", "m2 * fall + 3 * water\n"))
        self.assertEqual(result, 6)
        self.assertNotIn("this step would pass", told)

    def test_a_step_that_is_too_long(self):
        told, result = self.told(('step = "10 min"', 'step = "1 h"'))
        self.assertEqual(result, 7)
        self.assertIn("step 1, from 08:00 to 09:00, is refused", told)
        self.assertIn("its ratio is 0.506", told)
        self.assertIn("from there a step of 59 min 18.239 s would pass", told)
        longest = self.told(('step = "10 min"', 'step = "59 min"'), ('length = "1 h"', "steps = 1"))
        self.assertEqual(longest[1], 0)

    def test_a_quantity_that_is_too_large(self):
        told, result = self.told(("start = 1.60", "start = 31.99"))
        self.assertEqual(result, 6)
        self.assertIn(
            "water is 31.990 m there, good to 0.040 m: together 32.030 m, and the planner works with 32.000 m at most: 0.030 m too much",
            told,
        )

    def test_a_longest_step_shorter_than_any_clock_is_told_in_units(self):
        edits = [
            ('unit = "h"', 'unit = "h"\nwhole = "0.1 s"'),
            ('step = "10 min"', 'step = "0.1 s"'),
            ('length = "1 h"', "steps = 1"),
        ]
        told, result = self.told(*edits, ('rate = "m2 * fall"', 'rate = "400000 * fall"'))
        self.assertEqual(result, 7)
        self.assertRegex(told, r"from there a step of (\d+ units|0\.0\d+ s) would pass")

    def test_wholes(self):
        wide = ("start = 1.60", "start = 1.60\nwhole = 4")
        told, _ = self.told(wide, ('tolerance = "5 cm"', 'tolerance = "4.0002 cm"'))
        self.assertIn("and the tolerance is 0.0400", told)
        told, _ = self.told(('unit = "h"', 'unit = "h"\nwhole = 2'), ('step = "10 min"', 'step = "1 h"'))
        self.assertIn("from there a step of 59 min 18.239 s would pass", told)

    def test_no_reading(self):
        told, result = self.told(("start = 1.60\n", ""))
        self.assertEqual(result, 4)
        self.assertIn("start of water: there stands 'start=none'", told)


class Disagreement(unittest.TestCase):
    def test_nothing_is_explained_where_the_two_programs_differ(self):
        sheet = (SHEETS / "square.sheet").read_bytes()
        with mock.patch.object(programs, "second", lambda *_: "result=7\nat=1\nratio=1\n"):
            with self.assertRaises(explain.Differ) as caught:
                explain.words(sheet)
        self.assertIn("the planner answers 0 at 0, and the second program 7 at 1", str(caught.exception))

    def test_nor_where_a_quantity_is_not_to_blame(self):
        said = "result=8\nat=3\nquantity=1\nradius=5\nbefore=1\nmost=5\n"
        with mock.patch.object(programs, "second", lambda *_: said):
            with self.assertRaises(explain.Differ):
                explain.words((SHEETS / "tide-by-feedback.sheet").read_bytes())

    def test_nor_where_only_the_step_is_another(self):
        with mock.patch.object(programs, "plan", lambda _: Answer((), 8, 2)):
            with self.assertRaises(explain.Differ):
                explain.words((SHEETS / "tide-by-feedback.sheet").read_bytes())

    def test_nor_where_the_planner_refuses_alone(self):
        with mock.patch.object(programs, "plan", lambda _: Answer((), 8, 1)):
            with self.assertRaises(explain.Differ):
                explain.words((SHEETS / "square.sheet").read_bytes())
