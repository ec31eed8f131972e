"""A long passage as several descriptions: the texts, what they mean, and that their rows are the long passage's."""

import datetime
import unittest
from fractions import Fraction

import description
import programs
import split
import tide
from entries import Refused, parse
from plan import plan
from samples import SHEETS, TIDE, edited
from sheet import Writer, parsed
from split import Ended, Entry, Splitter
from test_command import Folder
from units import PI, SCALE

BY_THE_MINUTE = (SHEETS / "tide-over-sill.toml").read_text().replace('step = "10 min"', 'step = "1 min"')
CONVERTED = programs.ROOT / "cases" / "convert" / "tide-by-the-minute"
BOUND = Fraction(SCALE, 10_000)  # In units, a tenth of a millimetre: a table's radius may be so much wider than a row's.

MOON = """\
title = "a moon"
[time]
unit = "h"
begin = 08:00:00
step = "10 min"
length = "2 d"
[tide.moon]
unit = "m"
amplitude = 1.8
speed = "28.9841042 deg/h"
lowest = 08:00:00 # by the almanac
good_to = 0
[quantity.water]
unit = "m"
start = 1.60
good_to = "4 cm"
tolerance = "6 cm"
rate = "rise_of_moon"
"""


def refusal(text, rows=240):
    try:
        Splitter(text, rows).parts()
    except Refused as refused:
        return refused.line, refused.why
    return None, "not refused"


class Texts(unittest.TestCase):
    """What is edited, and that nothing else is."""

    def test_an_entry_is_put_in_the_place_of_another(self):
        text = 'a = 1 # one\n[b]\n  c = """\nx\n""" # two\nd.e = 3\n# three\n"f" = 4\n[b.g]\nh = 5'
        entries = {
            ("a",): Entry("a", "2"),
            ("b", "c"): Entry("c", '"y"', "why"),
            ("b", "d", "e"): Entry("i", "{ units = 7 }"),
            ("b", "f"): Entry("f", "8"),
            ("b", "g", "h"): Entry("h", "9"),
        }
        self.assertEqual(
            split.edited(text, entries),
            'a = 2\n[b]\n  c = "y" # why\nd.i = { units = 7 }\n# three\nf = 8\n[b.g]\nh = 9',
        )

    def test_one_without_a_place_goes_in_front(self):
        self.assertEqual(split.edited("[b]\nc = 1", {("title",): Entry("title", '"x"')}), 'title = "x"\n[b]\nc = 1')

    def test_what_would_be_read_otherwise_is_refused(self):
        for text in ("b = { c = 1, d = 2 }", "b = { c = 1 }", "[b]\nc = { e = 1, f = 2 }\nd = 1"):
            path = ("b", "c") if "e" not in text else ("b", "c", "e")
            with self.subTest(text=text), self.assertRaises(Refused):
                split.edited(text, {path: Entry(path[-1], "3")})

    def test_the_parts_keep_what_does_not_change(self):
        first, second = Splitter(BY_THE_MINUTE).parts()
        changing = ("title", "begin", "length", "start", "good_to")
        kept = [line for line in BY_THE_MINUTE.split("\n") if not line.startswith(changing)]
        for part in (first, second):
            lines = part.split("\n")
            self.assertEqual(len(lines), len(BY_THE_MINUTE.split("\n")))
            self.assertEqual([line for line in lines if line in kept], kept)
        self.assertEqual(len(set(first.split("\n")) - set(BY_THE_MINUTE.split("\n"))), 2)

    def test_titles_times_and_clocks(self):
        for edits, rows, lines in [
            ([], 4, ['title = "a tide: part 2 of 2, from 08:40 on"', "begin = 08:40:00", "steps = 2"]),
            ([('title = "a tide"\n', "")], 4, ['title = "part 2 of 2, from 08:40 on"']),
            ([('"a tide"', r'"a \"tide\""')], 4, [r'title = "a \"tide\": part 2 of 2, from 08:40 on"']),
            ([("begin = 08:00:00\n", "")], 3, ['title = "a tide: part 2 of 2, from 0.500000 h on"', "steps = 3"]),
            ([('length = "1 h"', "steps = 6 # all")], 3, ["steps = 3"]),
            ([('"10 min"', '"-10 min"')], 3, ['title = "a tide: part 2 of 2, from 07:30 back"', "begin = 07:30:00"]),
            ([("08:00:00", "23:45:00")], 3, ['title = "a tide: part 2 of 2, from 00:15 +1 d on"', "begin = 00:15:00"]),
            ([("08:00:00", "2026-12-31T23:45:00")], 3, ["begin = 2027-01-01T00:15:00"]),
            ([("08:00:00", '"08:00"')], 3, ["begin = 08:30:00"]),
        ]:
            with self.subTest(edits=edits):
                second = Splitter(edited(*edits), rows).parts()[1].split("\n")
                for line in lines:
                    self.assertIn(line, second)

    def test_what_is_refused(self):
        for edits, rows, line, words in [
            ([], 6, None, "there is nothing to split: it has 6 steps, and a part has up to 6"),
            ([('"10 min"', '"10.0000001 s"'), ('length = "1 h"', "steps = 6")], 5, 6, "take steps of whole microseconds"),
            ([("start = 1.60", "stat = 1.60")], 3, 30, "'stat' is no entry"),
        ]:
            with self.subTest(edits=edits):
                found, why = refusal(edited(*edits), rows)
                self.assertIn(words, why)
                self.assertEqual(found, line)

    def test_an_inline_table_cannot_be_split(self):
        tide, rest = MOON[MOON.index("[tide.moon]") : MOON.index("[quantity.water]")], "[time]\nstep = 1\nsteps = 9\n"
        lines = ", ".join(tide.replace(" # by the almanac", "").splitlines()[1:])
        for text in (
            'quantity.x = { start = 1, good_to = 0, tolerance = 1, rate = "0" }\n' + rest,
            'time = { step = 1, steps = 9 }\n[quantity.x]\nstart = 1\ngood_to = 0\ntolerance = 1\nrate = "0"\n',
            f"tide.moon = {{ {lines} }}\n" + MOON.replace(tide, ""),
        ):
            with self.subTest(text=text):
                self.assertIn("write each entry that changes on a line of its own", refusal(text, 5)[1])

    def test_not_too_many(self):
        text = edited(("begin = 08:00:00\n", ""), ('length = "1 h"', "steps = 1000000000"))
        self.assertIn("1000000000 steps would be 4166667 parts, and 100 are the most", refusal(text)[1])


class Meaning(unittest.TestCase):
    def test_the_sheets_are_those_that_the_proved_conversion_makes(self):
        """Of the same long sheet: the first byte for byte, the second but for radii that a table may have wider."""
        whole = Writer(description.read(BY_THE_MINUTE.replace('length = "6 h"', "steps = 240"))).sheet()
        self.assertEqual(CONVERTED.with_suffix(".sheet").read_text(), whole.text().replace("steps=240", "steps=360"))
        converted = [parsed(text) for text in CONVERTED.with_suffix(".converted").read_text().split("\n\n")]
        first, second = (Writer(description.read(text)).sheet() for text in Splitter(BY_THE_MINUTE).parts())
        self.assertEqual(first, converted[0])
        self.assertEqual(
            (second.steps, second.step, second.tail, second.tol, second.terms),
            (converted[1].steps, converted[1].step, converted[1].tail, converted[1].tol, converted[1].terms),
        )
        for start, theirs in zip(second.starts, converted[1].starts, strict=True):
            self.assertEqual(start.value, theirs.value)
            self.assertLessEqual(theirs.radius, start.radius)
            self.assertLess(start.radius, theirs.radius + BOUND)

    def test_the_rows_go_on_as_those_of_one_sheet_do(self):
        """A passage that fits into one sheet, and the same in three parts: the rows lie within, and touch at the ends."""
        whole = plan(description.read(TIDE))
        made = [plan(description.read(text)) for text in Splitter(TIDE, 2).parts()]
        rows = [row for part in made for row in part.answer.rows]
        self.assertEqual(len(rows), 6)
        for row, other in zip(rows, whole.answer.rows):
            for part, meant in zip(row.parts, other.parts):
                self.assertLessEqual(abs(part.value - meant.value), 2)
                self.assertLess(abs(part.radius - meant.radius), BOUND)

    def test_a_part_that_says_something_else_is_not_given(self):
        class Wrong(Splitter):
            def begin(self, number):
                found = super().begin(number)
                self.asked = getattr(self, "asked", 0) + 1
                return found + datetime.timedelta(seconds=self.asked)

        with self.assertRaises(programs.Failed):
            Wrong(TIDE, 3).parts()

    def test_a_refused_part_ends_it(self):
        text = edited(('tolerance = "5 cm"', 'tolerance = "4.0002 cm"'))
        with self.assertRaises(Ended) as ended:
            Splitter(text, 3).parts()
        self.assertEqual((ended.exception.number, ended.exception.made.answer.result), (1, 8))

    def test_nothing_follows_a_part_that_was_outside_a_range(self):
        bounded = ('tolerance = "5 cm"', 'tolerance = "5 cm"\nvalid = "1.7 m or less"')
        text = edited(bounded, ('length = "1 h"', 'length = "3 h"'))
        line, why = refusal(text, 9)
        self.assertRegex(why, r"^part 1: from 08:\d0 on water may be over 1.7 m, .* and no part can follow$")

    def test_a_row_past_the_sheets_range(self):
        text = '[time]\nstep = 1\nsteps = 9\n[quantity.x]\nstart = 31.2\ngood_to = 0\ntolerance = 1\nrate = "0.5"\n'
        self.assertIn("part 1 ends with x past a sheet's range", refusal(text, 2)[1])


class Tides(unittest.TestCase):
    """A tide starts anew from its constants in each part."""

    def test_two_days(self):
        texts = Splitter(MOON, 36).parts()
        self.assertEqual(len(texts), 8)
        made = [plan(description.read(text)) for text in texts]
        self.assertEqual({part.answer.result for part in made}, {0})
        speed = Fraction("28.9841042") * PI / 180
        for number, part in enumerate(made):
            self.assertEqual({start.radius for start in part.sheet.starts[:2]} - {0, 1}, set())
            for row in (1, 18, 36):
                moon = Fraction(-9, 5) * tide.cosine(speed * (36 * number + row) / 6)
                for subject, meant in zip(part.subjects[::2], (moon, Fraction(17, 5) + moon)):
                    cell = subject.cells[row - 1]
                    self.assertLessEqual(abs(cell.value - meant), cell.radius)
        self.assertLess(made[-1].subjects[2].cells[-1].radius, Fraction(5, 100))

    def test_the_phase_takes_the_place_of_the_clocks(self):
        second = Splitter(MOON, 36).parts()[1]
        degrees = (180 - 6 * Fraction("28.9841042")) % 360
        self.assertEqual(parse(second)["tide"]["moon"]["phase"], f"{float(degrees):.7f} deg")
        self.assertNotIn("almanac", second)

    def test_times_as_people_write_them(self):
        bare = MOON.replace("begin = 08:00:00", "begin = 8:00").replace("lowest = 08:00:00", "lowest = 08:00")
        self.assertEqual(Splitter(bare, 36).parts()[1:], Splitter(MOON, 36).parts()[1:])

    def test_a_phase_without_an_end(self):
        text = MOON.replace('"28.9841042 deg/h"', '"29 deg/d"').replace('"10 min"', '"7 min"').replace('"2 d"', '"14 h"')
        second = Splitter(text, 71).parts()[1]
        words = parse(second)["tide"]["moon"]["phase"]
        self.assertEqual(len(words.partition(".")[2]), 40 + len(" deg"))

    def test_how_good_it_is_turns_with_the_tide(self):
        """Six hours of M2 are 173.9 degrees, of which cosine and sine are 0.9943 and 0.1062: 5 units become 5.503."""
        found = description.read(Splitter(MOON.replace("good_to = 0", "good_to = { units = 5 }"), 36).parts()[1])
        for quantity in found.quantities[:2]:
            self.assertEqual(quantity.good_to, Fraction(6, SCALE) + Fraction(1, 10**9))
        self.assertEqual(parse(Splitter(MOON, 36).parts()[1])["tide"]["moon"]["good_to"], 0)

    def test_every_tide_that_was_meant_lies_in_every_part(self):
        """One that is off by all that it may be, and so is the same a quarter of its period later."""
        text = MOON.replace("good_to = 0", 'good_to = "3 cm"').replace('"6 cm"', "1").replace('"2 d"', '"5 h"')
        speed, off = Fraction("28.9841042") * PI / 180, Fraction(3, 100)
        for number, part in enumerate(Splitter(text, 10).parts()):
            made = plan(description.read(part))
            for row, cell in enumerate((made.subjects[0].start, *made.subjects[0].cells)):
                angle = speed * (10 * number + row) / 6
                cosine, sine = tide.cosine(angle), tide.cosine(angle - PI / 2)
                for tidal, later in ((off, off), (off, -off), (-off, off), (-off, -off)):
                    meant = (Fraction(-9, 5) + tidal) * cosine + later * sine
                    self.assertTrue(cell.least <= meant <= cell.most and cell.low <= meant <= cell.high, (number, row))


class Command(Folder):
    def test_the_files(self):
        self.put("moon.toml", MOON)
        self.expect(65, "'companion/passage split' make several descriptions", "show", "moon.toml")
        done = self.expect(
            0, "moon-4.toml: written, rows 216 to 288, from 20:00 +1 d to 08:00 +2 d", "split", "moon.toml", "--rows", "72"
        )
        self.assertEqual(len(list(self.folder.glob("moon-*.toml"))), 4, done.stdout)
        self.expect(0, "a moon: part 2 of 4, from 20:00 on", "show", "moon-2.toml")
        self.expect(0, "moon-2.sheet: written", "write", "moon-2.toml")

    def test_all_or_none_and_nothing_written_over(self):
        self.put("moon.toml", MOON)
        self.expect(8, "part 1 of 2:\nstep ", "split", "moon.toml")
        advice = "Nothing is written.\nParts of fewer rows let the tides start anew more often, as with --rows 36."
        self.expect(8, advice, "split", "moon.toml")
        self.put("moon-4.toml", "kept")
        self.expect(65, "'moon-4.toml' is there already", "split", "moon.toml", "--rows", "72")
        self.assertEqual(sorted(path.name for path in self.folder.glob("moon*")), ["moon-4.toml", "moon.toml"])
        self.assertEqual((self.folder / "moon-4.toml").read_text(), "kept")

    def test_what_is_not_understood(self):
        for rows in ("0", "241", "x"):
            self.expect(64, "passage", "split", "tide.toml", "--rows", rows)
        self.expect(65, "there is nothing to split", "split", "tide.toml")
        self.expect(66, "cannot be read", "split", "missing.toml")


del Folder  # Its own tests are test_command's.
