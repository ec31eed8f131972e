"""Tides from their constants: two quantities each, whose starts and rows hold A * cos(speed * t - phase)."""

import math
import random
import re
import unittest
from fractions import Fraction

import description
import programs
import tide
from entries import Refused
from plan import plan
from samples import TIDE, edited
from sheet import Writer
from units import PI, SCALE

CONSTANTS = '[constants]\nm2 = "28.9841042 deg/h"\n'
BY_HAND = TIDE[TIDE.index("[quantity.rise]"):TIDE.index("\n[quantity.water]")]
MOON = """\
[tide.moon]
unit = "m"
amplitude = 1.8
speed = "28.9841042 deg/h"
phase = "180 deg"
good_to = 0
"""
RATE = "rate = '''\nm2 * fall\n'''"
RISE = "rate = '''\nrise_of_moon\n'''"


def text(*edits):
    """The sample with its tide from its constants, [tide.moon] at line 12, and edits of that."""
    found = edited((CONSTANTS + "\n", ""), (BY_HAND, MOON), (RATE, RISE), ("rise = -0.5", "moon = -0.5"))
    for old, new in edits:
        assert found.count(old) == 1, old
        found = found.replace(old, new)
    return found


def read(*edits):
    return description.read(text(*edits))


def refusal(*edits):
    try:
        Writer(read(*edits)).sheet()
    except Refused as refused:
        return refused.line, refused.why
    return None, "not refused"


class Cosines(unittest.TestCase):
    def test_known_digits(self):
        """The cosine of 1, and of pi/3 and pi/4, where a half and the half's root are."""
        one = Fraction("0.54030230586813971740093660744297660373231042061792")
        self.assertLess(abs(tide.cosine(Fraction(1)) - one), Fraction(1, 10**49))
        self.assertLess(abs(tide.cosine(PI / 3) - Fraction(1, 2)), Fraction(1, 10**50))
        self.assertLess(abs(tide.cosine(PI / 4) ** 2 - Fraction(1, 2)), Fraction(1, 10**50))

    def test_of_any_angle(self):
        rng = random.Random(1)
        for _ in range(40):
            angle = Fraction(rng.randint(-(10**9), 10**9), 10 ** rng.randint(3, 9))
            cosine, sine = tide.cosine(angle), tide.cosine(angle - PI / 2)
            self.assertLess(abs(cosine**2 + sine**2 - 1), Fraction(1, 10**48))
            self.assertAlmostEqual(float(cosine), math.cos(float(angle)), delta=1e-9)

    def test_a_start_is_exact_at_the_quarters_and_covers_what_was_cut_elsewhere(self):
        for quarter, size in enumerate((1, 0, -1, 0, 1), -4):
            self.assertEqual(tide.start(Fraction(9, 5), quarter * PI / 2), (Fraction(9, 5) * size, 0))
        rng = random.Random(2)
        for _ in range(40):
            amplitude, angle = Fraction(rng.randint(1, 3000), 1000), Fraction(rng.randint(1, 6283), 1000)
            start, off = tide.start(amplitude, angle)
            self.assertLess(abs(start - amplitude * tide.cosine(angle)) + Fraction(1, 10**40), off)


class Descriptions(unittest.TestCase):
    def test_it_is_what_was_written_by_hand(self):
        by_hand = Writer(description.read(edited())).sheet()
        self.assertEqual(Writer(read()).sheet(), by_hand)
        for edit in ("lowest = 08:00:00", 'lowest = "08:00"', 'phase = "-180 deg"'):
            self.assertEqual(Writer(read(('phase = "180 deg"', edit))).sheet(), by_hand)

    def test_the_names_the_order_and_the_places(self):
        found = read(('good_to = 0\n', 'good_to = 0\nabout = "of the moon"\ndigits = 5\n'))
        told = [(quantity.name, quantity.about, quantity.digits) for quantity in found.quantities]
        self.assertEqual(told[:2], [("moon", "of the moon", 5), ("moon_later", "moon a quarter of its period later", 5)])
        self.assertEqual([name for name, _, _ in told], ["moon", "moon_later", "water"])

    def test_phase_and_clock_say_the_same(self):
        """Highest at 14:00 is six hours after 08:00; lowest at 07:00 is an hour before."""
        speed = Fraction("28.9841042")
        for clock, degrees in [
            ("highest = 14:00:00", 6 * speed),
            ("highest = 07:30:00", -speed / 2),
            ("lowest = 07:00:00", 180 - speed),
        ]:
            by_clock = read(('phase = "180 deg"', clock)).quantities
            number = f"{degrees.numerator * 10**9 // degrees.denominator:d}e-9"
            by_phase = read(('phase = "180 deg"', f'phase = "{number} deg"')).quantities
            self.assertEqual([each.start for each in by_clock], [each.start for each in by_phase], clock)

    def test_days(self):
        dated = ("begin = 08:00:00", "begin = 2026-11-17T08:00:00")
        starts = [
            [quantity.start for quantity in read(dated, ('phase = "180 deg"', edit)).quantities]
            for edit in ("highest = 09:00:00", "highest = 2026-11-17T09:00:00", "highest = 2026-11-18T09:00:00")
        ]
        self.assertEqual(starts[0], starts[1])
        self.assertNotEqual(starts[1], starts[2])

    def test_a_night_needs_days(self):
        """From 22:00 on, 03:00 is the next day's to a person; without a day it would be the morning's before."""
        night, other = ("begin = 08:00:00", "begin = 22:00:00"), ('length = "1 h"', 'length = "10 h"')
        for edit in ("highest = 03:00:00", 'lowest = "8:00"'):
            line, why = refusal(night, other, ('phase = "180 deg"', edit))
            self.assertEqual(line, 16)
            self.assertIn("without a day is a time of the day on which the passage begins, and there it lies outside", why)
        back = ("begin = 08:00:00", "begin = 02:00:00"), ('step = "10 min"', 'step = "-10 min"'), other
        self.assertEqual(refusal(*back, ('phase = "180 deg"', "highest = 23:00:00"))[0], 16)
        for edits in (
            [night, ('phase = "180 deg"', "highest = 23:00:00"), other],
            [night, ('phase = "180 deg"', "highest = 09:00:00"), other],
            [night, ('phase = "180 deg"', "highest = 03:00:00"), other, ("28.9841042 deg/h", "30 deg/h")],
            [(night[0], "begin = 2026-11-30T22:00:00"), ('phase = "180 deg"', "highest = 2026-12-01T03:00:00"), other],
            [*back, ('phase = "180 deg"', "highest = 01:00:00")],
        ):
            self.assertEqual(refusal(*edits), (None, "not refused"), edits)

    def test_good_to_is_for_both_and_a_cut_start_has_a_unit_more(self):
        found = read(("amplitude = 1.8", "amplitude = 1.5"), ("good_to = 0\n", 'good_to = "1 cm"\n'))
        self.assertEqual([quantity.good_to for quantity in found.quantities[:2]], [Fraction(1, 100)] * 2)
        sheet = Writer(read(('phase = "180 deg"', 'phase = "33 deg"'))).sheet()
        self.assertEqual([start.radius for start in sheet.starts[:2]], [1, 1])

    def test_a_rise_stands_wherever_a_quantity_may(self):
        speed = read().quantities[0].products[0].coefficient
        for rate, coefficient, factors in [
            ("rise_of_moon", speed, ("moon_later",)),
            ("-2 * rise_of_moon", -2 * speed, ("moon_later",)),
            ("rise_of_moon^2", speed**2, ("moon_later", "moon_later")),
            ("rise_of_moon * water", speed, ("moon_later", "water")),
            ("0.3 * moon", Fraction(3, 10), ("moon",)),
            ("moon * water", 1, ("moon", "water")),
        ]:
            product = read(("rise_of_moon", rate)).quantities[2].products[0]
            self.assertEqual((product.coefficient, product.factors), (coefficient, factors))

    def test_tides_alone(self):
        found = description.read(
            text()[: text().index("[quantity.water]")].replace("good_to = 0", 'good_to = 0\ntolerance = "1 cm"')
        )
        self.assertEqual(plan(found).answer.result, 0)

    def test_three_tides_and_a_level_fit_and_four_do_not(self):
        def more(count):
            return "".join(MOON.replace("moon", f"tide{number}") for number in range(count))

        self.assertEqual(len(Writer(read(("[quantity.water]", more(2) + "[quantity.water]"))).sheet().starts), 7)
        self.assertEqual(
            refusal(("[quantity.water]", more(3) + "[quantity.water]")),
            (19 + 3 * 6, "'water' is one quantity too many: a sheet has 8 at most"),
        )
        self.assertEqual(refusal(("[quantity.water]", more(4) + "[quantity.water]"))[0], 19 + 3 * 6)

    def test_each_is_refused_with_its_line(self):
        for edits, line, words in [
            ([("amplitude = 1.8\n", "")], 12, "[tide.moon] has no 'amplitude'"),
            ([('speed = "28.9841042 deg/h"\n', "")], 12, "[tide.moon] has no 'speed'"),
            ([("amplitude = 1.8", "amplitude = 0")], 14, "'amplitude' is more than 0"),
            ([("amplitude = 1.8", 'amplitude = "2 h"')], 14, "'h' cannot be turned into 'm'"),
            ([("amplitude = 1.8", "amplitude = 40")], 14, "moon, start: -40 m is past the sheet's range"),
            ([("28.9841042 deg/h", "28.9841042 deg")], 15, "'speed' is an angle for a time"),
            ([("28.9841042 deg/h", "-28 deg/h")], 15, "'speed' is an angle for a time"),
            ([('"28.9841042 deg/h"', "28.9841042")], 15, "'speed' is an angle for a time"),
            ([("28.9841042 deg/h", "2000 deg/h")], 15, "moon, the rate's 'speed * moon_later'"),
            ([("28.9841042 deg/h", "28,9841042 deg/h")], 15, "28,9841042 has a comma: write 28.9841042"),
            ([('phase = "180 deg"', "hightest = 08:00:00")], 16, "'hightest' is no entry of a tide: is 'highest' meant?"),
            ([('"180 deg"', "180")], 16, "'phase' is an angle from -360 to 360 deg"),
            ([('"180 deg"', '"400 deg"')], 16, "'phase' is an angle from -360 to 360 deg"),
            ([('"180 deg"', '"180 m"')], 16, "'phase' is an angle from -360 to 360 deg"),
            ([('phase = "180 deg"\n', "")], 12, "either 'phase', 'highest' or 'lowest'"),
            ([('phase = "180 deg"', 'phase = "180 deg"\nlowest = 08:00:00')], 12, "either 'phase', 'highest' or 'lowest'"),
            ([('phase = "180 deg"', 'highest = "noon"')], 16, "'highest' is a time"),
            ([('phase = "180 deg"', "lowest = 2026-11-17T08:00:00")], 16, "'lowest' has a day, and 'begin' has none"),
            ([('phase = "180 deg"', "lowest = 08:00:00"), ("begin = 08:00:00\n", "")], 15, "[time] has no 'begin'"),
            ([("good_to = 0\n", "")], 12, "'moon' does not say how good its start is"),
            ([("good_to = 0\n", "good_to = -1\n")], 17, "'good_to' is 0 or more"),
            ([("good_to = 0\n", "good_to = 40\n")], 17, "moon, good_to"),
            ([("good_to = 0\n", "good_to = 0\nstart = 3\n")], 18, "'start' is no entry of a tide"),
            ([("[tide.moon]", '[tide."m-n"]')], 12, "'m-n' is no name"),
            ([("[tide.moon]", "[tide.clearance]")], 12, "'clearance' has a meaning already"),
            ([("[tide.moon]", "[constants]\nmoon = 3\n[tide.moon]")], 14, "'moon' has a meaning already"),
            ([("[tide.moon]", "[constants]\nrise_of_moon = 3\n[tide.moon]")], 14, "'rise_of_moon' has a meaning already"),
            ([("[quantity.water]", "[quantity.moon_later]")], 19, "'moon_later' has a meaning already"),
            ([("[quantity.water]", "[quantity.rise_of_moon]")], 19, "'rise_of_moon' has a meaning already"),
            ([("rise_of_moon\n", "rise_of_sun\n")], 26, "'rise_of_sun' is neither"),
            ([("rise_of_moon\n", "moon\n")], 25, "how fast it rises is 'rise_of_moon'"),
            ([("rise_of_moon\n", "0.2 - moon\n")], 25, "'moon' is how high the tide is, and no rate"),
            (
                [("begin = 08:00:00", "begin = 2026-11-17T08:00:00"), ('phase = "180 deg"', "lowest = 2326-11-17T08:00:00")],
                16,
                "'lowest' is too far from the beginning",
            ),
            ([('"m"\namplitude', '"ft"\namplitude'), ("rise_of_moon\n", "2*rise_of_moon\n")], 25, "moon is in ft and"),
            ([('[tide.moon]\nunit = "m"', '[tide.moon]\nunit = "ft"')], 25, "moon is in ft and water in m: give both"),
        ]:
            with self.subTest(edits=edits):
                found, why = refusal(*edits)
                self.assertIn(words, why)
                self.assertEqual(found, line)


class Rows(unittest.TestCase):
    def test_every_row_holds_the_tide(self):
        """Within its radius, and a millionth for the rounded speed and step, for which the planner does not answer."""
        for phase in ("0 deg", "77 deg", "-200 deg"):
            made = plan(read(('"180 deg"', f'"{phase}"'), ('length = "1 h"', 'length = "6 h"')))
            self.assertEqual(len(made.answer.rows), 36)
            speed, angle = Fraction("28.9841042") * PI / 180, Fraction(phase[:-4]) * PI / 180
            for row, cell in enumerate(made.subjects[0].cells, 1):
                meant = Fraction(9, 5) * tide.cosine(speed * row / 6 - angle)
                self.assertLess(abs(meant - cell.value), cell.radius + Fraction(1, 10**6))

    def test_it_is_highest_when_the_clock_says_so(self):
        made = plan(read(('phase = "180 deg"', "highest = 10:00:00"), ('length = "1 h"', 'length = "4 h"')))
        values = [cell.value for cell in made.subjects[0].cells]
        self.assertEqual(values.index(max(values)) + 1, 12)
        self.assertLess(abs(values[11] - Fraction(9, 5)), Fraction(1, 10**6))
        rising = made.subjects[2].cells
        self.assertLess(abs(rising[11].value - rising[5].value - (values[11] - values[5])), Fraction(4, SCALE))


LONG = """\
[time]
unit = "h"
begin = 00:00:00
step = "{step} min"
steps = 240
{tides}
[quantity.water]
unit = "m"
start = 1.60
good_to = "4 cm"
tolerance = 30
rate = "{rate}"
"""
ONE = '[tide.{}]\nunit = "m"\namplitude = {}\nspeed = "{} deg/h"\nhighest = 03:17:00\ngood_to = 0\n'
KNOWN = {"M2": ("1.8", "28.9841042"), "S2": ("0.6", "30"), "O1": ("0.2", "13.9430356")}


class Pages(unittest.TestCase):
    def test_how_long_a_tide_may_be_carried(self):
        """The table of companion/README.md, by the planner's own radii."""
        page = (programs.ROOT / "companion" / "README.md").read_text()
        lines = re.findall(r"^\| (M2[^|]*) \| (\d+) min \| ([^|]*) \| ([^|]*) \| ([^|]*) \|$", page, re.MULTILINE)
        self.assertEqual(len(lines), 5)
        for names, step, *told in lines:
            names = names.split(", ")
            tides = "".join(ONE.format(name, *KNOWN[name]) for name in names)
            rate = " + ".join(f"rise_of_{name}" for name in names)
            made = plan(description.read(LONG.format(step=step, tides=tides, rate=rate)))
            radii = [Fraction(row.parts[-1].radius, SCALE) for row in made.answer.rows]
            for bound, words in zip((5, 8, 20), told):
                minutes = int(step) * next(row for row, radius in enumerate(radii, 1) if radius > Fraction(bound, 100))
                self.assertEqual(words, f"{minutes // 60} h" + (f" {minutes % 60} min" if minutes % 60 else ""), names)
