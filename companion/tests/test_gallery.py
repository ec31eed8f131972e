"""The gallery's descriptions, through the planner, the search and the second program."""

import random
import subprocess
import unittest
from fractions import Fraction
from unittest import mock

import description
import programs
from answer import parsed as parsed_answer
from entries import Refused
from plan import plan, runs, search
from query import Query, exact_weights, query
from samples import SHEETS, edited, planned, read
from sheet import Writer, differences, parsed
from units import SCALE

NAMES = sorted(path.stem for path in SHEETS.glob("*.sheet"))


def stored_answer(name):
    return parsed_answer((SHEETS / f"{name}.answer").read_text())


# An oscillation that goes round more than twice before its radii are refused.
SWINGING = """\
[time]
step = 0.1
steps = 240
[quantity.s]
start = 0
good_to = 0
tolerance = 30
rate = "c"
[quantity.c]
start = 0.5
good_to = 0
rate = "-s"
"""


def least(row, weights):
    """The sum of weight * low, or high where the weight is negative."""
    return sum(weight * (part.low if weight >= 0 else part.high) for weight, part in zip(weights, row.parts))


def certain(rows, asked):
    """The rows that are certain by document 02's rule, worked out here."""
    return [
        number
        for number, (row, need) in enumerate(zip(rows, asked.needs), 1)
        if asked.base * SCALE + least(row, asked.weights) >= need * SCALE
    ]


class Descriptions(unittest.TestCase):
    def test_every_sheet_has_a_description_and_every_description_a_sheet(self):
        self.assertEqual(NAMES, sorted(path.stem for path in SHEETS.glob("*.toml")))
        self.assertGreater(len(NAMES), 20)

    def test_the_sheets_are_written_from_them_byte_for_byte(self):
        for name in NAMES:
            with self.subTest(name=name):
                self.assertEqual(Writer(read(name)).sheet().text(), (SHEETS / f"{name}.sheet").read_text())

    def test_the_second_program_reads_them_as_meant(self):
        for name in NAMES:
            with self.subTest(name=name):
                back = programs.second("read", (SHEETS / f"{name}.sheet").read_bytes())
                self.assertEqual(differences(read(name), parsed(back)), [])

    def test_the_planner_answers_them_as_stored(self):
        for name in NAMES:
            with self.subTest(name=name):
                self.assertEqual(planned(name).answer, stored_answer(name))


class Searches(unittest.TestCase):
    """The runs that search.c prints are those of the rule."""

    def test_the_gallerys_own_answers(self):
        """sheets/README.md, 'When is there water enough?'."""
        for name, need, rows, runs in [
            ("approach-over-sill", "1", 1, [(30, 30)]),
            ("approach-over-sill", "1", 2, []),
            ("approach-over-sill", "2", 1, []),
            ("approach-over-sill", "0.95", 1, [(28, 30)]),
            ("tide-over-sill", "2", 6, [(10, 36)]),
            ("tide-over-sill", "6", 4, [(33, 36)]),
            ("tide-over-sill", "6", 5, []),
            ("mark-at-quay", "2", 28, [(1, 28)]),
            ("mark-at-quay", "2", 29, []),
            ("over-low-water", "2.19", 1, []),
        ]:
            with self.subTest(name=name, need=need, rows=rows):
                made = planned(name)
                found = search(made, Fraction(need), rows * abs(made.description.time.step))
                self.assertEqual((found.rows, list(found.runs)), (rows, runs))

    def test_random_queries(self):
        """Each row by its own need, and none of those for which there is no need."""
        rng = random.Random(1)
        some = 0
        swinging = plan(description.read(SWINGING))
        names = [name for name in NAMES if stored_answer(name).rows]
        for _ in range(200):
            made = rng.choice([swinging, planned(rng.choice(names))])
            rows = made.answer.rows
            weights = tuple(rng.choice([0, SCALE, -SCALE, rng.randint(-4 * SCALE, 4 * SCALE)]) for _ in rows[0].parts)
            base, other = rng.randint(-SCALE, SCALE), rng.choice(rows)
            needs = (
                base + rng.choice([-1, 0, 1]) + least(rng.choice([row, row, other]), weights) // SCALE
                for row in rows[: rng.randint(1, len(rows))]
            )
            asked = Query(base, weights, tuple(max(-32 * SCALE, min(32 * SCALE, need)) for need in needs))
            expected = certain(rows, asked)
            some += 0 < len(expected) < len(asked.needs)
            ended = (made.answer.result, made.answer.at)
            self.assertEqual(programs.search(made.sheet.text().encode(), asked), (expected, ended), asked)
        self.assertGreater(some, 100)

    def test_rows_joined(self):
        """Each run of at least so many rows that no longer one holds, against every window of rows."""
        self.assertEqual(list(runs([], 1)), [])
        self.assertEqual(list(runs([1, 2, 5, 7, 8, 9], 2)), [(1, 2), (7, 9)])
        rng = random.Random(3)
        for _ in range(200):
            rows = sorted(rng.sample(range(1, 13), rng.randint(0, 12)))
            least = rng.randint(1, 4)
            windows = [(a, b) for a in range(1, 13) for b in range(a, 13) if set(range(a, b + 1)) <= set(rows)]
            longest = [(a, b) for a, b in windows if (a - 1, b) not in windows and (a, b + 1) not in windows]
            self.assertEqual(list(runs(rows, least)), [(a, b) for a, b in longest if b - a + 1 >= least])

    def test_a_query_out_of_range_is_refused_with_9(self):
        made = planned("square")
        for asked in (Query(0, (1,), (1 << 30,)), Query(1 << 30, (1,), (0,)), Query(0, (1 << 27,), (0,))):
            self.assertEqual(programs.search(made.sheet.text().encode(), asked), (9, (0, 0)))

    def test_more_rows_than_a_passage_has(self):
        made = planned("tide-over-sill")
        with self.assertRaisesRegex(Refused, "241 rows are past what a passage has, 240"):
            search(made, Fraction(1), 241 * made.description.time.step)
        self.assertEqual(search(made, Fraction(1), 240 * made.description.time.step).runs, ())

    def test_nothing_is_told_of_other_rows_than_the_planners(self):
        made = planned("tide-over-sill")
        for told in ([1, 36], (8, 3)), (9, (0, 0)):
            with mock.patch.object(programs, "search", lambda *_: told), self.assertRaises(programs.Failed):
                search(made)

    def test_the_numbers_of_a_query(self):
        """By hand: wholes scale weights, base and need; the base goes down and the need up, by 128 for each unit of a weight too."""
        scaled = description.read(
            edited(
                ("start = 1.60", "start = 1.60\nwhole = 10"),
                ("weights = { water = 1, rise = -0.5 }", "whole = 100\nweights = { water = 5, rise = -50 }"),
            )
        )
        asked, said = query(scaled, Fraction(1, 4), [(0, 0, 0)])
        self.assertEqual(asked, Query(-167773, (-SCALE // 2, 0, SCALE // 2), (41944,)))
        self.assertEqual(
            said, ["the base is rounded down to -167773 units", "the need 0.25 m is rounded up to 41944 units"]
        )
        third = description.read(edited(("weights = { water = 1, rise = -0.5 }", "weights = { water = 0.3 }")))
        moved = Fraction(3, 10) * SCALE - 5033165
        self.assertEqual(abs(moved), Fraction(1, 5))
        asked, said = query(third, Fraction(1, 2), [(0, 0, 0)])
        self.assertEqual((asked.needs, asked.weights), ((SCALE // 2 + 26,), (0, 0, 5033165)))
        self.assertIn("a weight had to be rounded, and the need is higher by all that this could matter", said)

    def test_the_need_of_each_row_is_higher_by_its_drift(self):
        """By hand: a drift of 3 units of water and 2 of rise, weighed 1/2 each way, is 2.5 units, and up it is 3."""
        read = description.read(edited(("weights = { water = 1, rise = -0.5 }", "weights = { water = 0.5, rise = -0.5 }")))
        drifts = [(0, 0, 0), *((Fraction(2, SCALE), Fraction(9, SCALE), Fraction(3, SCALE)),) * 2, (40, 0, 40)]
        asked, said = query(read, Fraction(1, 2), drifts)
        self.assertEqual(asked.needs, (SCALE // 2, SCALE // 2 + 3, SCALE // 2 + 3))
        self.assertEqual(
            said, ["the need is higher by what the sheet's rounded step and coefficients can do, 40 m at most"]
        )

    def test_nothing_is_asked_without_a_need(self):
        made = plan(description.read(edited(("need = 0.5\n", ""))))
        self.assertIsNone(search(made))
        self.assertEqual(search(made, Fraction(1, 2)).need, Fraction(1, 2))

    def test_roundings_of_a_query_are_safe(self):
        """Where the rounded query finds a row certain, the exact one does, with weights that no number of units is."""
        text = (SHEETS / "approach-over-sill.toml").read_text()
        rng = random.Random(2)
        tried = 0
        for _ in range(40):
            weight, other = (Fraction(rng.randint(-3000, 3000), 1000) for _ in range(2))
            need = Fraction(rng.randint(-2000, 2000), 1000)
            changed = text[: text.index("[clearance]")] + (
                f'[clearance]\nunit = "m"\nweights = {{ under_keel = {float(weight)}, squat = {float(other)} }}\n'
                f"base = 0.1\nneed = {float(need)}\n"
            )
            described = description.read(changed)
            drifts = planned("approach-over-sill").drifts
            asked, said = query(described, described.clearance.need, drifts)
            exact = exact_weights(described)
            moved = any(weight * SCALE != units for weight, units in zip(exact, asked.weights))
            self.assertEqual(moved, any("a weight had to be rounded" in words for words in said))
            rows = planned("approach-over-sill").answer.rows
            for number in certain(rows, asked):
                tried += 1
                ends = (part.low if weight >= 0 else part.high for weight, part in zip(exact, rows[number - 1].parts))
                least = described.clearance.base + sum(
                    weight * Fraction(end, SCALE) - abs(weight) * drift
                    for weight, end, drift in zip(exact, ends, drifts[number - 1])
                )
                self.assertGreaterEqual(least, described.clearance.need)
        self.assertGreater(tried, 100)


class Programs(unittest.TestCase):
    def test_the_search_takes_numbers_alone_and_one_weight_for_each_quantity(self):
        sheet = (SHEETS / "jacobi.sheet").read_bytes()
        for words in (
            "",
            "0",
            "0 1 1 1",
            "0 1 1 : 0",
            "0 1 1 1 1 : 0",
            "0 1 1 1x : 0",
            "x 1 1 1 : 0",
            "0 1 1 1 : x",
            "0 1 1 1 : 0 :",
            "0 1 1 1 ; 0",
            f"0 1 1 1 : {'9' * 30}",
            f"0 1 1 1 : {'0 ' * 241}",
            f"0 {'1 ' * 9} : 0",
        ):
            with self.subTest(words=words):
                done = subprocess.run([programs.SEARCH, *words.split()], input=sheet, capture_output=True)
                self.assertEqual((done.returncode, done.stdout), (64, b""))

    def test_a_status_that_is_not_expected_fails(self):
        with self.assertRaises(programs.Failed):
            programs.second("read", b"n=0\n")
