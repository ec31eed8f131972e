"""Reading a description: what is taken, and what is refused, with its line."""

import random
import unittest
from fractions import Fraction

import description
import rates
from entries import Lines, Refused, mended
from samples import TIDE, edited
from units import PI, at_least, decimal, measure, near, shown, unit

KNOTS = '[quantity.rush]\nunit = "kn"\nstart = 1\ngood_to = 0\nrate = "0"\n'


def refusal(*edits):
    """The line and the words with which the edited description is refused."""
    try:
        description.read(edited(*edits))
    except Refused as refused:
        return refused.line, refused.why
    return None, "not refused"


# What is changed, the line that must be named, and a part of what is said.
REFUSALS = [
    ([('rate = "m2 * fall"', 'rate = "m2 * fal"')], 19, "'fal' is neither a quantity nor a constant"),
    ([('rate = "m2 * fall"', 'rate = "m2 * fall * rise * water"')], 19, "3 factors"),
    ([('rate = "m2 * fall"', 'rate = "fall^3"')], 19, "3 factors"),
    ([('rate = "m2 * fall"', 'rate = "m2 * (fall + rise)"')], 19, "'(' has no place"),
    ([('rate = "m2 * fall"', 'rate = "m2 fall"')], 19, "before 'fall' a sign is missing"),
    ([('rate = "m2 * fall"', 'rate = "m2 *"')], 19, "a number or a name is missing"),
    ([('rate = "m2 * fall"', 'rate = ""')], 19, "a number or a name is missing"),
    ([('rate = "m2 * fall"', "rate = 5")], 19, "'rate' is a text"),
    ([('rate = "m2 * fall"', 'rate = "fall^1000000000"')], 19, "a power, from 1 to 9"),
    ([("m2 * fall\n'''", "m2 * fall\n + m2 * tide\n'''")], 35, "'tide' is neither"),
    ([("m2 * fall\n'''", "m2 * fal\n'''")], 34, "'fal' is neither"),
    ([('rate = "-m2 * rise"\n', "")], 21, "'fall' has no rate"),
    ([('good_to = "4 cm"\n', "")], 27, "'water' does not say how good its start is"),
    ([('good_to = "4 cm"', "good_to = -0.04")], 31, "'good_to' is 0 or more"),
    ([('good_to = "4 cm"', 'good_to = "4 kg"')], 31, "'kg' is no unit that is known here"),
    ([('good_to = "4 cm"', 'good_to = "4 min"')], 31, "'min' cannot be turned into 'm'"),
    ([('good_to = "4 cm"', 'good_to = "four cm"')], 31, "not 'four cm'"),
    ([('good_to = "4 cm"', "good_to = { unit = 4 }")], 31, "{ units = 671089 }"),
    ([('good_to = "4 cm"', "good_to = { units = 4.5 }")], 31, "{ units = 671089 }"),
    ([("start = 1.60", "start = nan")], 30, "'start' is a number"),
    ([("start = 1.60", "start = inf")], 30, "'start' is a number"),
    ([("start = 1.60", "start = true")], 30, "'start' is a number"),
    ([("start = 1.60", "start = 1e999999999")], 30, "'start' is a number"),
    ([("start = 1.60", "stat = 1.60")], 30, "'stat' is no entry of a quantity"),
    ([("start = 1.60", "start = [1.60]")], 30, "'start' is a number"),
    ([("start = 1.60", 'start = "1.60"')], 30, "not '1.60'"),
    ([("start = 1.60", "start = 1.60\nwhole = 0")], 31, "'whole' is more than 0"),
    ([("start = 1.60", "start = 1.60\nwhole = -1")], 31, "'whole' is more than 0"),
    ([("start = 1.60", "start = 1e61")], 30, "'start' is a number"),
    ([("start = 1.60", "start = 1e-61")], 30, "'start' is a number"),
    ([("start = 1.60", f"start = 1{'0' * 61}")], 30, "'start' is a number"),
    ([('rate = "m2 * fall"', 'rate = "1e999 * fall"')], 19, "before '9' a sign is missing"),
    ([("start = 1.60", "start = 1.60\ndigits = 13")], 31, "'digits' is a whole number from 0 to 12"),
    ([('step = "10 min"', 'step = "0 min"')], 6, "'step' is 0"),
    ([('step = "10 min"\n', "")], 3, "[time] has no 'step'"),
    ([('length = "1 h"', 'length = "55 min"')], 7, "not a whole number of steps"),
    ([('length = "1 h"', "length = -1")], 7, "not a whole number of steps"),
    ([('length = "1 h"\n', "")], 3, "either 'steps' or 'length'"),
    ([('length = "1 h"', 'length = "1 h"\nsteps = 6')], 3, "either 'steps' or 'length'"),
    ([('length = "1 h"', "steps = 0")], 7, "'steps' is a whole number"),
    ([('length = "1 h"', "steps = 2.5")], 7, "'steps' is a whole number"),
    ([("begin = 08:00:00", 'begin = "eight"')], 5, "'begin' is a time"),
    ([("begin = 08:00:00", "begin = 20.30")], 5, "'begin' is a time"),
    ([("begin = 08:00:00", 'begin = "2026-02-30 08:00"')], 5, "'begin' is a time"),
    (
        [('unit = "h"', 'unit = "m"'), ('step = "10 min"', "step = 0.1"), ('length = "1 h"', "steps = 3")],
        5,
        "no clock in 'm'",
    ),
    ([("tail = 10", "tail = 2.5")], 10, "'tail' is a whole number"),
    ([("tail = 10", "tails = 10")], 10, "'tails' is no entry of accuracy"),
    ([('m2 = "28.9841042 deg/h"', 'm2 = "28.9841042 deg"')], 13, "'m2' is a number"),
    ([('m2 = "28.9841042 deg/h"', 'm2 = "28.9841042 m/h"')], 13, "'m2' is a number"),
    ([('m2 = "28.9841042 deg/h"', 'm2 = "28.9841042 deg/h"\n"m-3" = 3')], 14, "'m-3' is no name"),
    ([("[quantity.rise]", "[quantity.m2]")], 15, "'m2' has a meaning already"),
    ([("[quantity.rise]", "[quantity.clearance]")], 15, "'clearance' has a meaning already"),
    ([("[quantity.rise]", '[quantity."r-s"]')], 15, "'r-s' is no name"),
    ([("weights = { water = 1, rise = -0.5 }", "weights = { watr = 1 }")], 38, "'watr' is no quantity"),
    ([("weights = { water = 1, rise = -0.5 }\n", "")], 37, "[clearance] has 'weights'"),
    ([('for = "25 min"', 'for = "0 min"')], 42, "'for' is more than 0"),
    ([("need = 0.5", 'need = "0.5 h"')], 41, "'h' cannot be turned into 'm'"),
    ([('title = "a tide"', 'titel = "a tide"')], 1, "'titel' is no entry of a description"),
    ([("start = 1.60", "start = 1e99999999999999999999")], None, "a number too long"),
    ([("start = 1.60", 'start = "4 1"')], 30, "not '4 1'"),
    ([('rate = "m2 * fall"', 'rate = "2^12 * fall"')], 19, "a power, from 1 to 9"),
    ([('rate = "m2 * fall"', f'rate = "{"1e99^9 * " * 6}fall"')], 19, "too large or too small"),
    ([('rate = "m2 * fall"', r'rate = "m2 * fall\n + yy"')], 19, "'yy' is neither"),
    ([('rate = "m2 * fall"', 'rate = """m2 * fall \\\n\n + yy"""')], 19, "'yy' is neither"),
    ([("[quantity.fall]", "[quantites.fall]")], 21, "'quantites' is no entry"),
    ([("start = 1.60\n", ""), ('good_to = "4 cm"\n', "")], 27, "'water' does not say how good its start is"),
    ([("begin = 08:00:00", "begin = 9999-12-31T08:00:00")], 5, "'begin' is in the years"),
    ([('length = "1 h"', "steps = 60000")], 5, "ends within a year"),
    ([('title = "a tide"', r'title = "a \u001b[31mtide"')], 1, "'title' is a text of one line"),
    (
        [('weights = { water = 1, rise = -0.5 }\nunit = "m"', 'weights = { water = 1, rise = -0.5 }\nunit = "cm"')],
        38,
        "rise is in m and the clearance in cm",
    ),
    (
        [('rate = "m2 * fall"', 'rate = "rush"'), ("[clearance]", KNOTS + "[clearance]")],
        19,
        "'rush' is no m for each h",
    ),
    ([("start = 1.60", f"start = {'1' * 5000}")], None, "a number too long"),
    ([("start = 1.60", f"start = {'[' * 5000}{']' * 5000}")], None, "tables too deep"),
    ([("start = 1.60", f'start = "{"1" * 5000} m"')], 30, "'start' is a number, or a text"),
    ([('rate = "m2 * fall"', f'rate = "{"1" * 5000} * fall"')], 19, "a number of more than 80 letters"),
    ([('title = "a tide"', "title = 3")], 1, "'title' is a text of one line"),
    ([('title = "a tide"', "accuracy = 3"), ("[accuracy]\ntail = 10\n", "")], 1, "'accuracy' is a table"),
    ([("start = 1.60", "stat = 1.60\nzzz = 1")], 30, "'stat' is no entry of a quantity: is 'start' meant?"),
    ([("start = 1.60", "Good_To = 0")], 30, "'Good_To' is no entry of a quantity: is 'good_to' meant?"),
    ([("[accuracy]", "[Accuracy]")], 9, "'Accuracy' is no entry of a description: is 'accuracy' meant?"),
    ([('rate = "m2 * fall"', 'rate = "m2 * fal"')], 19, "of this description: is 'fall' meant?"),
    ([("start = 1.60", 'start = "1,6 m"')], 30, "'start': 1,6 has a comma: write 1.6"),
    ([("start = 1.60", 'start = "1,852 m"')], 30, "1,852 has a comma: write 1.852, or 1852 if thousands are meant"),
    ([("start = 1.60", 'start = "0,852 m"')], 30, "'start': 0,852 has a comma: write 0.852"),
    ([("start = 1.60", 'start = "1,000,000 mm"')], 30, "1,000,000 has commas: write 1000000"),
    ([("start = 1.60", 'start = "±1 m"')], 30, "not '±1 m'"),
    ([("start = 1.60", 'start = "1 M"')], 30, "'M' is no unit that is known here"),
    ([('step = "10 min"', 'step = "10 mins"')], 6, "and m/s and the like: is 'min' meant?"),
    ([("start = 1.60", 'start = "1.60 m ± 4 cm"')], 30, "'start' is the reading alone: how good it is stands in 'good_to'"),
    ([("weights = { water = 1,", "weights = { Water = 1,")], 38, "'Water' is no quantity of this description: is 'water' meant?"),
    ([("[quantity.water]", "[quantity.höhe]")], 27, "a name has letters from a to z, digits and _"),
    ([("start = 1.60", "start = 16:00")], 30, "16:00 is a time, and 'start' is none: times are begin, highest and lowest"),
    ([('good_to = "4 cm"', 'good_to = "±-4 cm"')], 31, "'good_to' is 0 or more"),
    ([('good_to = "4 cm"', 'good_to = "± 0,04"')], 31, "0,04 has a comma: write 0.04"),
    ([('m2 = "28.9841042 deg/h"', 'm2 = "28,98 °/h"')], 13, "'m2': 28,98 has a comma: write 28.98"),
    ([('rate = "m2 * fall"', 'rate = "0,5 * fall"')], 19, "0,5 has a comma: write 0.5"),
    ([('rate = "m2 * fall"', 'rate = "m2 \N{EN DASH} fall"')], 19, "is a dash and no minus"),
    ([('rate = "m2 * fall"', 'rate = "fall / 2"')], 19, "in the place of dividing, multiply"),
    ([('rate = "m2 * fall"', 'rate = "2 * m2 / 2"')], 19, "in the place of dividing, multiply"),
    ([('rate = "m2 * fall"', 'rate = "0.1 m/h"')], 19, "a number in a rate has no unit behind it"),
    ([('rate = "m2 * fall"', 'rate = "fall - 10cm"')], 19, "a number in a rate has no unit behind it"),
    ([('rate = "m2 * fall"', 'rate = "2 fall"')], 19, "before 'fall' a sign is missing"),
]

WEIGHTS = "weights = { water = 1, rise = -0.5 }"
# Slips that leave a text which is no TOML: what is changed, the line that must be named, what stands there, what is said.
SLIPS = [
    ("start = 1.60", "start = 1,60", 30, "1,60 has a comma: write 1.60"),
    ("start = 1.60", "start = -1,852 # m", 30, "-1,852 has a comma: write -1.852, or -1852 if thousands are meant"),
    ("start = 1.60", "start = 1.60\nstart = 2", 31, "'start' stands twice under one heading, first on line 30"),
    ("[clearance]", "[quantity.rise]", 37, "the heading [quantity.rise] stands twice, first on line 15"),
    ("[clearance]", "[time] # again", 37, "the heading [time] stands twice, first on line 3"),
    (WEIGHTS, "weights = { water = 1, water = 2 }", 38, "'water' stands twice in this line"),
    (WEIGHTS, "weights = { water = 1,5 }", 38, "1,5 has a comma: write 1.5"),
    (WEIGHTS, "weights = { water: 1 }", 38, "between { and } stand names, each with = and a number"),
    (WEIGHTS, "weights = { water = 1", 38, "between { and } stand names, each with = and a number"),
    ('title = "a tide"', "title = “a tide”", 1, "the quotes “ ” are typographic: write straight ones"),
    ('title = "a tide"', "title = ‘a tide’", 1, "the quotes ‘ ’ are typographic: write straight ones"),
    ('title = "a tide"', 'title = "a tide', 1, "a quote is missing"),
    ('title = "a tide"', 'title = a tide"', 1, "a quote is missing"),
    ('title = "a tide"', "title = 'a tide", 1, "a quote is missing"),
    ('title = "a tide"', "title = a tide", 1, 'write title = "a tide"'),
    ('title = "a tide"', r'title = "C:\quay"', 1, "a \\ has to be doubled"),
    ("start = 1.60", "start 1.60", 30, "'=' is missing, between a name and what it is"),
    ("start = 1.60", "start", 30, "'=' is missing, between a name and what it is"),
    ("start = 1.60", "start: 1.60", 30, "an entry has = and no colon: write start = ..."),
    ("start = 1.60", "= 1.60", 30, "before '=' the name is missing"),
    ("start = 1.60", "start = ", 30, "behind 'start =' a number or a text is missing"),
    ("start = 1.60", "start =\N{NO-BREAK SPACE}1.60", 30, "a space that is none, a no-break space perhaps"),
    ("start = 1.60", "start = \N{MINUS SIGN}1.60", 30, "a dash that is no minus: write a plain -"),
    ("start = 1.60", "start = .5", 30, ".5 has no digit before the point: write 0.5"),
    ("start = 1.60", "start = -5.", 30, "-5. has no digit behind the point: write -5.0"),
    ("start = 1.60", "start = 01.5", 30, "01.5 has a 0 too many in front"),
    ("start = 1.60", "start = 1.60;", 30, "1.60; is no number: one is 1.60, or with a unit and between quotes"),
    ("start = 1.60", 'start = "1 m" m', 30, "behind 'start =' stands one number or one text"),
    ("start = 1.60", "[quantity.water", 30, "a heading stands between [ and ]"),
    ("start = 1.60", "[]", 30, "between [ and ] the name is missing"),
    ("start = 1.60", "// the gauge", 30, "this is no entry of a description"),
    ('step = "10 min"', "step = 10 min", 6, 'write step = "10 min"'),
    ('step = "10 min"', "step = 10 min  # a comment, 1,5", 6, 'write step = "10 min"'),
    ('good_to = "4 cm"', "good_to = ±4 cm", 31, 'write good_to = "±4 cm"'),
    ('rate = "m2 * fall"', "rate = m2 * fall", 19, 'write rate = "m2 * fall"'),
    ("begin = 08:00:00", "begin = 25:30", 5, "'begin' is a time, as 20:30"),
    ("begin = 08:00:00", "begin = 20h30", 5, "'begin' is a time, as 20:30"),
    ("\nm2 * fall\n'''", "\nm2 * fall\n", 33, "the text that begins with ''' has no ''' at its end"),
]


class Refusals(unittest.TestCase):
    def test_each_is_refused_with_its_line(self):
        for edits, line, words in REFUSALS:
            with self.subTest(edits=edits):
                found, why = refusal(*edits)
                self.assertIn(words, why)
                self.assertEqual(found, line)

    def test_a_slip_is_told_with_its_line_and_what_stands_there(self):
        for old, new, line, words in SLIPS:
            with self.subTest(new=new):
                found, why = refusal((old, new))
                self.assertIn(words, why)
                self.assertEqual(found, line)
                stands = edited((old, new)).split("\n")[line - 1]
                self.assertIn(f"in '{' '.join(stands.split())}': ", why)
                self.assertNotIn("TOML", why)

    def test_a_long_line_is_cut(self):
        _, why = refusal(("start = 1.60", f"start = 1,6 # {'very ' * 30}"))
        self.assertIn("very very v...': 1,6 has a comma", why)

    def test_whatever_is_cut_off_or_put_in_is_refused_in_words(self):
        """Each start of a description, and each with a sign too many: taken, or refused with a line that is there."""
        rng, refused = random.Random(1), 0
        for _ in range(600):
            place = rng.randrange(len(TIDE))
            text = rng.choice([TIDE[:place], TIDE[:place] + rng.choice("\"'[]{}=,:#\\\n 7x“") + TIDE[place:]])
            try:
                description.read(text)
            except Refused as caught:
                refused += 1
                self.assertNotIn("TOML", caught.why)
                self.assertIn(caught.line, [None, *range(1, text.count("\n") + 2)])
        self.assertGreater(refused, 300)

    def test_an_empty_clearance(self):
        with self.assertRaises(Refused) as caught:
            description.read(TIDE[: TIDE.index("[clearance]")] + "[clearance]\n")
        self.assertEqual(
            (caught.exception.line, caught.exception.why), (37, "[clearance] has 'weights', as { water = 1 }")
        )

    def test_a_quantity_in_one_line(self):
        text = TIDE[: TIDE.index("[quantity.rise]")] + '[quantity]\nx = { start = 0, good_to = 0, rate = "y" }\n'
        with self.assertRaises(Refused) as caught:
            description.read(text)
        self.assertEqual(
            (caught.exception.line, caught.exception.why),
            (16, "'y' is neither a quantity nor a constant of this description"),
        )

    def test_no_quantity(self):
        with self.assertRaises(Refused) as caught:
            description.read("[time]\nstep = 1\nsteps = 1\n")
        self.assertIn("there is no quantity", caught.exception.why)

    def test_the_line_stands_before_the_words(self):
        self.assertEqual(Refused(7, "why").words("a.toml"), "a.toml:7: why")
        self.assertEqual(Refused(None, "why").words("a.toml"), "a.toml: why")


class Reading(unittest.TestCase):
    def test_numbers_are_exact_and_in_wholes(self):
        read = description.read(TIDE)
        rise, _, water = read.quantities
        self.assertEqual((rise.start, rise.good_to, rise.tolerance), (Fraction(-18, 10), 0, None))
        self.assertEqual(
            (water.start, water.good_to, water.tolerance), (Fraction(8, 5), Fraction(1, 25), Fraction(1, 20))
        )
        self.assertEqual((read.time.step, read.time.steps, read.tail), (Fraction(1, 6), 6, 10))
        self.assertEqual(read.numbers(), {"rise": 1, "fall": 2, "water": 3})

    def test_wholes_scale(self):
        read = description.read(edited(("start = 1.60", 'start = 1.60\nwhole = "200 cm"')))
        water = read.quantities[2]
        self.assertEqual((water.start, water.good_to), (Fraction(4, 5), Fraction(1, 50)))

    def test_units_of_the_sheet(self):
        read = description.read(edited(("start = 1.60", "start = { units = 16777217 }\nwhole = 3")))
        self.assertEqual(read.quantities[2].start, 1 + Fraction(1, 1 << 24))

    def test_a_missing_reading_is_none(self):
        for new in ('start = "none"\n', ""):
            read = description.read(edited(("start = 1.60\n", new)))
            self.assertIsNone(read.quantities[2].start)
            self.assertEqual(read.quantities[2].good_to, Fraction(1, 25))

    def test_degrees_become_radians_for_the_unit_of_time(self):
        exact = Fraction("28.9841042") * PI / 180
        read = description.read(TIDE)
        self.assertEqual(read.quantities[0].products[0].coefficient, exact)
        by_minute = edited(('m2 = "28.9841042 deg/h"', 'm2 = "0.5 deg/min"'))
        self.assertEqual(description.read(by_minute).quantities[0].products[0].coefficient, 30 * PI / 180)

    def test_the_clearance(self):
        clearance = description.read(TIDE).clearance
        self.assertEqual(clearance.weights, {"water": 1, "rise": Fraction(-1, 2)})
        self.assertEqual((clearance.base, clearance.need, clearance.rows), (-1, Fraction(1, 2), 3))
        without = description.read(edited(("need = 0.5\n", ""), ('for = "25 min"\n', ""))).clearance
        self.assertEqual((without.need, without.rows), (None, 1))

    def test_units_that_fit(self):
        """A speed in m/s for a distance in m and seconds; in kn for nmi and hours; and other kinds are left to the author."""
        for speed, way, time in (
            ("m/s", "m", "s"),
            ("kn", "nmi", "h"),
            ("km/h", "km", "h"),
            ("kn", "cubit", "h"),
            ("m", "m", "h"),
        ):
            text = f'[time]\nunit = "{time}"\nstep = 1\nsteps = 1\n[quantity.v]\nunit = "{speed}"\nstart = 1\ngood_to = 0\n'
            text += f'rate = "0"\n[quantity.x]\nunit = "{way}"\nstart = 0\ngood_to = 0\ntolerance = 1\nrate = "v"\n'
            self.assertEqual(len(description.read(text).quantities), 2)

    def test_sills_are_in_the_unit_and_not_in_wholes(self):
        read = description.read(
            edited(("start = 1.60", "start = 1.60\nwhole = 2\nsill = -3"), ("base = -1", "whole = 2\nsill = 4"))
        )
        self.assertEqual((read.quantities[0].sill, read.quantities[2].sill, read.clearance.sill), (None, -3, 4))
        self.assertEqual(description.read(TIDE).clearance.sill, 0)
        self.assertIsNone(description.read(edited(("base = -1", 'sill = "none"'))).clearance.sill)

    def test_no_unit_is_guessed_for_a_single_letter(self):
        """M is a nautical mile to many."""
        self.assertTrue(refusal(("start = 1.60", 'start = "1 M"'))[1].endswith("and m/s and the like"))

    def test_a_clock_in_words(self):
        for begin in ('"08:00"', "08:00:00", "08:00", "8:00  # low water", "2026-11-17T08:00:00", "2026-11-17 08:00"):
            read = description.read(edited(("begin = 08:00:00", f"begin = {begin}")))
            self.assertEqual((read.time.begin.hour, read.time.dated), (8, begin.startswith("2026")))
            self.assertEqual((read.time.begin.minute, read.time.begin.tzinfo, read.time.offset), (0, None, ""))

    def test_an_offset_is_kept_and_no_time_is_turned(self):
        for begin, offset in [
            ("2026-11-17T08:00:00+01:00", "+01:00"),
            ("2026-11-17 08:00-03:30", "-03:30"),
            ("2026-11-17T08:00Z", "UTC"),
            ("2026-11-17T08:00:00+00:00", "UTC"),
            ('"08:00+01:00"', "+01:00"),
        ]:
            time = description.read(edited(("begin = 08:00:00", f"begin = {begin}"))).time
            self.assertEqual((time.begin.hour, time.begin.minute, time.begin.tzinfo, time.offset), (8, 0, None, offset))

    def test_a_time_in_a_text_or_a_comment_is_left_alone(self):
        """What looks like a bare time is mended only where TOML cannot read it."""
        rate = "rate = '''\nm2 * fall\n'''"
        text = edited(('title = "a tide"', 'title = "begin = 08:00" # begin = 08:00'), ("begin = 08:00:00", "begin = 20:30"))
        self.assertEqual(description.read(text).title, "begin = 08:00")
        self.assertEqual(mended(text).count('"20:30"'), 1)
        inside = edited((rate, "rate = '''\nbegin = 08:00\n'''"), ("begin = 08:00:00", "begin = 20:30"))
        self.assertIn("\nbegin = 08:00\n", mended(inside))
        for entry in ("highest = 2:10", "lowest = 2026-11-18T02:10 # a day later"):
            self.assertEqual(mended(entry), entry.replace("2:10", '2:10"').replace("= ", '= "'))
        self.assertEqual(mended("start = 2:10"), "start = 2:10")
        self.assertEqual(mended(TIDE), TIDE)

    def test_signs_as_they_are_printed(self):
        for good_to in ('"±4 cm"', '"+-4 cm"', '"+/- 4 cm"', '"± 0.04"', '"4\N{NO-BREAK SPACE}cm"', '"0.04 Metres"'):
            read = description.read(edited(('good_to = "4 cm"', f"good_to = {good_to}")))
            self.assertEqual(read.quantities[2].good_to, Fraction(1, 25))
        read = description.read(edited(('tolerance = "5 cm"', 'tolerance = "±5 cm"')))
        self.assertEqual(read.quantities[2].tolerance, Fraction(1, 20))
        read = description.read(edited(("start = 1.60", 'start = "\N{MINUS SIGN}160 cm"')))
        self.assertEqual(read.quantities[2].start, Fraction(-8, 5))
        for degrees in ("28.9841042 °/h", "28.9841042°/h", "28.9841042 º / h", "28.9841042 Degrees/hour"):
            read = description.read(edited(('m2 = "28.9841042 deg/h"', f'm2 = "{degrees}"')))
            self.assertEqual(read.quantities[0].products, description.read(TIDE).quantities[0].products)

    def test_tabs_and_other_spaces(self):
        read = description.read(edited(('title = "a tide"', 'title\t=\t"a\ttide\N{NO-BREAK SPACE}here"')))
        self.assertEqual(read.title, "a tide here")

    def test_which_numbers_are_in_the_sheets_own_units(self):
        read = description.read(edited(("start = 1.60", "start = { units = 5 }")))
        self.assertEqual([each.in_units for each in read.quantities], [set(), set(), {"start"}])


class Rates(unittest.TestCase):
    CONSTANTS, NAMES = {"k": Fraction(1, 3)}, ("x", "y")

    def products(self, text):
        return [(product.coefficient, product.factors) for product in rates.read(text, self.CONSTANTS, self.NAMES)]

    def test_sums_of_products(self):
        self.assertEqual(self.products("x"), [(1, ("x",))])
        self.assertEqual(self.products("-x*y + 2.5"), [(-1, ("x", "y")), (Fraction(5, 2), ())])
        self.assertEqual(self.products(" + 3 * k * y * 2 * x "), [(2, ("y", "x"))])
        self.assertEqual(self.products("x^2 - k^2 * y"), [(1, ("x", "x")), (Fraction(-1, 9), ("y",))])
        self.assertEqual(self.products("1e-3*x"), [(Fraction(1, 1000), ("x",))])

    def test_like_products_stay_apart_in_their_order(self):
        self.assertEqual(self.products("x*y - y*x + x*y"), [(1, ("x", "y")), (-1, ("y", "x")), (1, ("x", "y"))])

    def test_signs_as_they_are_printed(self):
        self.assertEqual(self.products("−x·y + 2.5 × k²"), [(-1, ("x", "y")), (Fraction(5, 18), ())])
        self.assertEqual(self.products("x² − k³ ⋅ y"), [(1, ("x", "x")), (Fraction(-1, 27), ("y",))])
        self.assertEqual(self.products("x\N{NO-BREAK SPACE}*\ty"), [(1, ("x", "y"))])

    def test_nothing_but_0_is_no_product(self):
        self.assertEqual(self.products("0"), [])
        self.assertEqual(self.products("0 * x"), [(0, ("x",))])
        self.assertEqual(self.products("0 + 0"), [(0, ()), (0, ())])


class Numbers(unittest.TestCase):
    def test_units(self):
        self.assertEqual(unit("m/s").size, 1)
        self.assertEqual(unit("kn").size, Fraction(1852, 3600))
        self.assertIsNone(unit("furlong"))
        self.assertIsNone(unit("m/furlong"))
        self.assertTrue(unit("kn").is_like(unit("km/h")))
        metres = [unit(name).size for name in ("mm", "cm", "dm", "m", "km", "nmi", "ft")]
        self.assertEqual(
            metres, [Fraction(1, 1000), Fraction(1, 100), Fraction(1, 10), 1, 1000, 1852, Fraction(381, 1250)]
        )
        self.assertEqual([unit(name).size for name in ("s", "min", "h", "d")], [1, 60, 3600, 86400])
        self.assertEqual((unit("deg").size, unit("rad").size, unit("1").size), (PI / 180, 1, 1))

    def test_names_of_units(self):
        for short, names in {
            "m": ("metre", "metres", "meter", "meters", "Metres", "METERS"),
            "ft": ("foot", "feet", "FT"),
            "s": ("sec", "second", "seconds"),
            "min": ("minute", "minutes", "Min"),
            "h": ("hour", "hours"),
            "d": ("day", "days"),
            "kn": ("kt", "knot", "Knots"),
            "deg": ("°", "º", "degree", "degrees"),
            "m/s": ("metres/second", "m / s"),
        }.items():
            for name in names:
                self.assertEqual(unit(name), unit(short), name)
        self.assertEqual((unit("fathom").size, unit("fathoms").size), (6 * unit("ft").size,) * 2)
        for name in ("M", "H", "nm", "mile", "", "m/", "/h", "m/s/s"):
            self.assertIsNone(unit(name), name)

    def test_pi(self):
        """By Machin's formula, 16 arctan(1/5) - 4 arctan(1/239)."""

        def arctan(n):
            return sum(Fraction((-1) ** k, (2 * k + 1) * n ** (2 * k + 1)) for k in range(60))

        self.assertLess(abs(PI - 16 * arctan(5) + 4 * arctan(239)), Fraction(1, 10**63))

    def test_measures(self):
        self.assertEqual(measure("4 cm"), (4, "cm"))
        self.assertEqual(measure("-.5e1m/s"), (-5, "m/s"))
        self.assertIsNone(measure("4"))
        self.assertIsNone(measure("cm"))

    def test_rounding_and_telling(self):
        half = Fraction(1, 2)
        self.assertEqual([near(number) for number in (half, -half, 3 * half, Fraction(-49, 100))], [1, -1, 2, 0])
        self.assertEqual([decimal(Fraction(-1, 3), digits) for digits in (0, 1, 3)], ["0", "-0.3", "-0.333"])
        self.assertEqual(
            [shown(number) for number in (Fraction(5, 4), Fraction(2), Fraction(1, 3))],
            ["1.25", "2", "about 0.333333333"],
        )
        told = [at_least(number) for number in (Fraction(5, 4), Fraction(2, 3), Fraction(-2, 3))]
        self.assertEqual(told, ["1.25", "0.666666666", "-0.666666667"])


class EntryLines(unittest.TestCase):
    def test_entries_over_several_lines(self):
        lines = Lines('a = [1,\n2]\nb.c = 3\n\n# d = 4\n[e.f]\ng = """\nh = 1\n"""\ni = 2\n')
        found = {path: line for path, (line, _) in lines.found.items()}
        self.assertEqual(
            found,
            {("a",): 1, ("b",): 3, ("b", "c"): 3, ("e",): 6, ("e", "f"): 6, ("e", "f", "g"): 7, ("e", "f", "i"): 10},
        )
        self.assertEqual(lines.line("e", "f", "z"), 6)
        self.assertEqual(Lines("b.c = 3\nb.d = 4\n[e]\n[e.f]\n").found[("b",)], (1, 1))
        self.assertIsNone(lines.line("z"))
