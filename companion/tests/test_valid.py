"""The range in which a quantity's equation means anything: outside it, and ever after, nothing is called clear."""

import csv
import io
import unittest
from dataclasses import replace
from fractions import Fraction

import description
import draw
import show
import valid
from answer import Answer, Part, Row
from entries import Refused
from plan import plan, search
from samples import SHEETS, TIDE, edited, plan_of
from subject import chosen
from units import SCALE

RATE = "rate = '''\nm2 * fall\n'''"
BASIN = (SHEETS / "basin-through-sluice.toml").read_text()
ROOT_RATE = 'rate = "-0.5 * k"'


def ranged(text):
    """The sample with a range for its water."""
    return edited((RATE, f"{RATE}\nvalid = {text}"))


def read(text):
    return description.read(ranged(text)).quantities[2].valid


def basin(*edits):
    """The basin that fills for an hour, past the end of its head, as the root of the head would have it."""
    text = BASIN.replace("length = 45", "length = 60").replace("need = 5", "need = 2")
    for old, new in edits:
        assert text.count(old) == 1, old
        text = text.replace(old, new)
    return plan(description.read(text))


class Reading(unittest.TestCase):
    def test_what_is_taken(self):
        for text, least, most in [
            ('"0 m to 8 m"', 0, 8),
            ('"0 to 8 m"', 0, 8),
            ('"0 m to 8"', 0, 8),
            ('"0 to 8"', 0, 8),
            ('"-2 to 80 dm"', Fraction(-1, 5), 8),
            ('"  0 cm  to 8 m "', 0, 8),
            ('"0 or more"', 0, None),
            ('"-1.5 m or more"', Fraction(-3, 2), None),
            ('"800 cm or less"', None, 8),
            ('"1.6 to 1.6 m"', Fraction(8, 5), Fraction(8, 5)),
        ]:
            with self.subTest(text=text):
                self.assertEqual((read(text).least, read(text).most), (least, most))

    def test_in_the_quantitys_unit_and_not_in_wholes(self):
        found = description.read(edited((RATE, f'{RATE}\nvalid = "0 to 8 m"\nwhole = 4')))
        self.assertEqual(found.quantities[2].valid.most, 8)

    def test_none_where_nothing_is_said(self):
        self.assertEqual({quantity.valid for quantity in description.read(TIDE).quantities}, {None})

    def test_what_is_refused_with_its_line(self):
        for text, line, words in [
            ('"0 m"', 36, "'valid' is a range"),
            ('"to 8 m"', 36, "'valid' is a range"),
            ('"0 - 8 m"', 36, "'valid' is a range"),
            ('""', 36, "'valid' is a range"),
            ("8", 36, "'valid' is a text of one line"),
            ('"0 m to 8 kg"', 36, "'kg' is no unit"),
            ('"0 m to 8 h"', 36, "'h' cannot be turned into 'm'"),
            ('"low to 8 m"', 36, "not 'low m'"),
            ('"nan to 8"', 36, "is a number"),
            ('"8 m to 0 m"', 36, "the smaller number stands first"),
            ('"2 m to 8 m"', 30, "the start of water lies where its equation does not hold: 'valid' has it from 2 m to 8 m"),
            ('"1.5 m or less"', 30, "'valid' has it for 1.5 m or less"),
        ]:
            with self.subTest(text=text), self.assertRaises(Refused) as refused:
                read(text)
            self.assertEqual(refused.exception.line, line, text)
            self.assertIn(words, refused.exception.why)

    def test_a_start_without_a_reading_lies_nowhere(self):
        found = description.read(edited((RATE, f'{RATE}\nvalid = "2 to 8 m"'), ("start = 1.60\n", "")))
        self.assertEqual(found.quantities[2].valid.least, 2)


def part(low, high):
    """A part of a row whose low and high, in metres, lie so."""
    return Part(int((low + high) * SCALE / 2), 0, int(low * SCALE), int(high * SCALE))


def answered(text, *spans):
    """The plan of the sample with a range, its step and coefficients exact, and rows whose water lies in these spans."""
    rows = tuple(Row(5, (part(-3, 3), part(-3, 3), part(*span))) for span in spans)
    return plan_of(ranged(text).replace("m2 * ", "0.5 * ").replace('"10 min"', '"15 min"'), Answer(rows, 0, 0))


class Rows(unittest.TestCase):
    def test_a_row_is_within_where_its_low_and_high_are_with_both_ends(self):
        for text, spans, rows, beyond in [
            ('"1 to 8 m"', [(1, 8), (1, 8)], 2, None),
            ('"1 to 8 m"', [(1, 8), (1, Fraction(8 * SCALE + 1, SCALE))], 1, "over 8 m"),
            ('"1 to 8 m"', [(1, 8), (Fraction(SCALE - 1, SCALE), 8)], 1, "under 1 m"),
            ('"1 or more"', [(1, 80), (0, 3), (2, 3)], 1, "under 1 m"),
            ('"8 m or less"', [(-9, 8), (2, 3), (2, 9), (2, 3)], 2, "over 8 m"),
            ('"1 to 8 m"', [(0, 9)], 0, "under 1 m"),
        ]:
            with self.subTest(text=text, spans=spans):
                found = valid.within(answered(text, *spans))
                self.assertEqual((found.rows, found.beyond), (rows, beyond))
                self.assertEqual(found.name, "water" if beyond else None)

    def test_what_rounding_can_do_counts(self):
        """A low at the very end of the range is not within where the sheet's coefficients were rounded."""
        rows = (Row(5, (part(-3, 3), part(-3, 3), part(1, 8))),)
        found = valid.within(plan_of(ranged('"1 m or more"'), Answer(rows, 0, 0)))
        self.assertEqual((found.rows, found.beyond), (0, "under 1 m"))

    def test_the_start_with_its_radius_is_asked_too(self):
        """1.60 m are within, but 4 cm less are not."""
        made = answered('"1.58 m or more"', (2, 3), (2, 3))
        self.assertEqual(valid.within(made).rows, 0)
        self.assertEqual(valid.words(made)[0][:45], "from 08:00 on water may be under 1.58 m, and ")
        self.assertEqual(valid.within(answered('"1.55 m or more"', (2, 3), (2, 3))).rows, 2)

    def test_no_rows(self):
        self.assertEqual(valid.within(answered('"1 to 8 m"')).rows, 0)
        self.assertEqual(valid.words(answered('"1 to 8 m"')), [])

    def test_what_is_left_of_runs(self):
        runs = [(1, 3), (5, 9), (11, 12)]
        for prefix, rows, left in [
            (12, 2, [(1, 3), (5, 9), (11, 12)]),
            (11, 2, [(1, 3), (5, 9)]),
            (11, 1, [(1, 3), (5, 9), (11, 11)]),
            (6, 2, [(1, 3), (5, 6)]),
            (6, 3, [(1, 3)]),
            (4, 1, [(1, 3)]),
            (2, 3, []),
            (0, 1, []),
        ]:
            with self.subTest(prefix=prefix, rows=rows):
                self.assertEqual(list(valid.cut(runs, prefix, rows)), left)


class Telling(unittest.TestCase):
    def test_the_basin_is_called_clear_while_it_has_a_head_and_no_longer(self):
        free, bound = basin(), basin((ROOT_RATE, f'{ROOT_RATE}\nvalid = "0 m^0.5 or more"'))
        self.assertEqual(free.answer, bound.answer)
        last = next(row for row, cell in enumerate(bound.subjects[0].cells) if cell.low < 0)
        [(first, end)] = search(free).runs
        self.assertEqual((first < last, end), (True, 60))
        self.assertEqual(search(bound).runs, ((first, last),))
        self.assertEqual(search(bound, length=Fraction(last - first + 2)).runs, ())
        told = show.text(bound, search(bound), chosen(bound.subjects, ["level"]))
        self.assertIn(
            "from 07:49 on root may be under 0 m^0.5, and its equation holds for 0 m^0.5 or more only: nothing from there on "
            "is called clear\n",
            told,
        )
        self.assertNotIn("called clear", show.text(free, search(free), free.subjects))

    def test_a_csvs_column(self):
        made = basin((ROOT_RATE, f'{ROOT_RATE}\nvalid = "0 m^0.5 or more"'))
        lines = list(csv.reader(io.StringIO(show.comma_separated(made, search(made), made.subjects))))
        self.assertEqual([line[-1] for line in lines[1:]], ["no"] * 5 + ["yes"] * 44 + ["no"] * 11)

    def test_of_several_quantities_the_first_row_outside_counts(self):
        level = ('rate = "k * root"', 'rate = "k * root"\nvalid = "0 to 5 m"')
        made = basin((ROOT_RATE, f'{ROOT_RATE}\nvalid = "0 m^0.5 or more"'), level)
        self.assertIn("level may be over 5 m, and its equation holds from 0 m to 5 m only", valid.words(made)[0])
        self.assertLess(valid.within(made).rows, 45)

    def test_without_a_clearance_it_is_said_too(self):
        made = basin((ROOT_RATE, f'{ROOT_RATE}\nvalid = "0 m^0.5 or more"'))
        bare = replace(made, description=replace(made.description, clearance=None), subjects=made.subjects[:-1])
        self.assertIn("from 07:49 on root may be", show.text(bare, None, bare.subjects))

    def test_a_picture_says_it_too(self):
        made = basin((ROOT_RATE, f'{ROOT_RATE}\nvalid = "0 m^0.5 or more"'))
        self.assertIn(valid.words(made)[0], draw.Picture(made, search(made), made.subjects[0]).notes())

    def test_going_back(self):
        text = edited((RATE, f'{RATE}\nvalid = "1.7 m or less"'), ('step = "10 min"', 'step = "-10 min"'))
        [words] = valid.words(plan(description.read(text)))
        self.assertRegex(words, r"^before 07:\d0 water may be over 1.7 m, .*: nothing before that is called clear$")
