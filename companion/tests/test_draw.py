"""Pictures: what gnuplot is told, and what comes of it as SVG and as PNG."""

import re
import struct
import subprocess
import tempfile
import unittest
import zlib
from collections import Counter
from dataclasses import dataclass
from fractions import Fraction
from itertools import combinations
from pathlib import Path
from xml.etree import ElementTree

import draw
import fonts
import lines
import page
import programs
from answer import parsed
from plan import Search
from samples import ANSWER, TIDE, edited, plan_of, planned
from test_command import Folder

SPACE = "{http://www.w3.org/2000/svg}"
WHITE = b"\xff\xff\xff"


def pixels(png):
    """The colours of an 8-bit PNG, each with its count, and its width and height."""
    found, high = Counter(), 0
    for line in png_lines(png):
        found.update(line[each : each + 3] for each in range(0, len(line), 3))
        high += 1
    return found, (len(line) // 3, high)


def png_lines(png):
    """The lines of an 8-bit PNG, from the top, three bytes for each pixel."""
    assert png[:8] == b"\x89PNG\r\n\x1a\n"
    place, data, header = 8, b"", None
    while place < len(png):
        [length], kind = struct.unpack(">I", png[place : place + 4]), png[place + 4 : place + 8]
        body = png[place + 8 : place + 8 + length]
        header = struct.unpack(">IIBBBBB", body) if kind == b"IHDR" else header
        data += body if kind == b"IDAT" else b""
        place += 12 + length
    width, height, depth, colour, *_ = header
    assert depth == 8 and colour in (2, 6)
    channels, raw = 3 if colour == 2 else 4, zlib.decompress(data)
    stride, last = width * channels, bytes(width * channels)
    for place in range(0, height * (stride + 1), stride + 1):
        last = unfiltered(raw[place], raw[place + 1 : place + 1 + stride], last, channels)
        yield last if channels == 3 else b"".join(last[each : each + 3] for each in range(0, stride, 4))


def unfiltered(kind, line, above, channels):
    """A line of a PNG as it was before it was filtered by what lies to its left, above it, or both."""
    if kind == 0:
        return line
    if kind == 2:
        return bytes((each + up) & 255 for each, up in zip(line, above))
    done = bytearray(channels)  # What lies to the left of the first ones is 0.
    corners = bytes(channels) + above
    if kind == 1:
        for each in line:
            done.append((each + done[-channels]) & 255)
    elif kind == 3:
        for each, up in zip(line, above):
            done.append((each + (done[-channels] + up) // 2) & 255)
    else:
        for each, up, corner in zip(line, above, corners):
            done.append((each + paeth(done[-channels], up, corner)) & 255)
    return bytes(done[channels:])


def paeth(left, above, corner):
    """The one of the three that is nearest to left + above - corner, the first of equals."""
    by_left, by_above, by_corner = abs(above - corner), abs(left - corner), abs(left + above - 2 * corner)
    if by_left <= by_above and by_left <= by_corner:
        return left
    return above if by_above <= by_corner else corner


def rgb(text):
    return bytes.fromhex(text[1:])


def drawn(plan, search, subject, ending):
    with tempfile.TemporaryDirectory() as folder:
        file = Path(folder) / f"picture{ending}"
        programs.gnuplot(draw.script(plan, search, subject, file.name, ending), folder)
        return file.read_bytes()


@dataclass
class Line:
    """A line of text of an SVG: the size of its letters, where it is put, and what stands there of it."""

    text: str
    size: float
    right: float
    down: float
    anchor: str
    turned: bool

    def span(self):
        """From where to where it goes, by the broadest of the usual fonts: W is about as broad as high, others 0.6."""
        length = self.size * (0.4 * self.text.count("W") + 0.6 * len(self.text))
        middle = self.down if self.turned else self.right
        before = {"start": 0, "middle": length / 2, "end": length}[self.anchor]
        return middle - before, middle - before + length


def texts(svg):
    """An SVG's lines of text, in the order in which they are drawn."""
    for group in ElementTree.fromstring(svg).iter(f"{SPACE}g"):
        for text in group.findall(f"{SPACE}text"):
            right, down, turned = re.match(r"translate\((.*?),(.*?)\)(.*)", group.get("transform")).groups()
            size, anchor = float(group.get("font-size")), group.get("text-anchor")
            yield Line("".join(text.itertext()), size, float(right), float(down), anchor, bool(turned))


def joined(svg):
    return " ".join(" ".join(line.text for line in texts(svg)).split())


def labels(lines):
    """The texts that a script lays on the page, in one line."""
    return " ".join(found.group(1) for line in lines if (found := re.match(r"set label '(.*?)' noenhanced", line)))


def marks(lines):
    """What stands at the marks of the time axis, and where, in order."""
    [told] = [line for line in lines if line.startswith("set xtics (")]
    return [(text.split(r"\n"), float(place)) for text, place in re.findall(r'"(.*?)" ([-.e\d]+)', told)]


def ends_at(step):
    """An answer to the tide, refused at this step."""
    return parsed(ANSWER.replace("at=2", f"at={step}"))


class Scripts(unittest.TestCase):
    def setUp(self):
        self.plan = plan_of(TIDE, parsed(ANSWER))
        self.search = Search(Fraction(1, 2), 1, ((1, 1),), ())

    def lines(self, subject, search):
        return draw.script(self.plan, search, subject, "out", ".svg").splitlines()

    def test_the_clearance_with_its_sill_need_run_and_refused_step(self):
        lines = self.lines(self.plan.subjects[-1], self.search)
        eight = 8 * 3600
        boxes = [line for line in lines if line.startswith("set object") and line.endswith(" back")]
        self.assertEqual(len(boxes), 3)
        self.assertIn(f"from {eight},", boxes[0])
        self.assertIn(f"to {eight + 600},", boxes[0])
        self.assertIn(draw.CLEAR, boxes[0])
        self.assertIn(f"from {eight + 600},", boxes[1])
        self.assertIn(f"to {eight + 1200},", boxes[1])
        self.assertIn(draw.REFUSED, boxes[1])
        self.assertIn(draw.SILL, boxes[2])
        self.assertIn(",0 fc", boxes[2])
        [plot] = [line for line in lines if line.startswith("plot ")]
        self.assertIn("0.5 with lines dashtype 2", plot)
        self.assertIn(f"set xrange [{eight}:{eight + 1200}]", lines)
        self.assertIn(
            "clearance: at least 0.5 m from 08:00 to 08:10, for certain and all the way (row 1) "
            "step 2, from 08:10 to 08:20, is refused with 8: after the step, a radius would pass the tolerance",
            labels(lines),
        )

    def test_the_numbers_are_the_planners_and_outward_of_them_the_drift(self):
        lines = self.lines(self.plan.subjects[2], None)
        drift = float(self.plan.drifts[0][2])
        steps = lines[lines.index("$steps << END") + 1 : lines.index("END")]
        self.near(steps, ["28800 29400"], 1.78813934326172 - drift, 2.14576721191406 + drift)
        rows = lines[lines.index("$rows << END") + 1 :]
        self.near(rows[1:2], ["29400 2"], 1.95000004768372 - drift, 2.04999995231628 + drift)

    def near(self, lines, begins, *ends):
        """Lines that begin so and end with these numbers, to the last places that are written."""
        self.assertEqual([" ".join(line.split()[:2]) for line in lines], begins)
        for text, number in zip(lines[0].split()[2:], ends):
            self.assertAlmostEqual(float(text), number, 13)

    def test_every_run_is_marked_and_told(self):
        found = Search(Fraction(1, 2), 1, ((1, 1), (3, 4)), ())
        lines = self.lines(self.plan.subjects[-1], found)
        clear = [line for line in lines if draw.CLEAR in line and line.endswith(" back")]
        self.assertEqual(len(clear), 2)
        self.assertIn("from 28800,", clear[0])
        self.assertIn("to 29400,", clear[0])
        self.assertIn("from 30000,", clear[1])
        self.assertIn("to 31200,", clear[1])
        self.assertIn("from 08:00 to 08:10", labels(lines))
        self.assertIn("from 08:20 to 08:40", labels(lines))

    def test_of_very_many_runs_all_are_marked_and_the_first_told(self):
        plan = plan_of(edited(('length = "1 h"', "steps = 40")), ends_at(40))
        found = Search(Fraction(1, 2), 1, tuple((row, row) for row in range(1, 21, 2)), ())
        lines = draw.script(plan, found, plan.subjects[-1], "out", ".svg").splitlines()
        self.assertEqual(sum(draw.CLEAR in line and line.endswith(" back") for line in lines), 10)
        self.assertIn("from 09:40 to 09:50", labels(lines))
        self.assertNotIn("from 10:00", labels(lines))
        self.assertIn("(row 11) and 4 times more, each in green step 40", labels(lines))

    def test_a_quantitys_picture_has_the_clearances_runs_and_says_whose_they_are(self):
        lines = self.lines(self.plan.subjects[0], self.search)
        self.assertEqual(sum(draw.CLEAR in line and line.endswith(" back") for line in lines), 1)
        self.assertIn("clearance: at least 0.5 m from 08:00 to 08:10, for certain", labels(lines))
        self.assertIn("the clearance is enough, for certain", labels(lines))

    def test_the_legend_has_what_there_is(self):
        found = labels(self.lines(self.plan.subjects[-1], self.search))
        for told in (
            "low to high, all through the step",
            "value and radius, at the row",
            "need, 0.5 m",
            "sill",
            "clear, for certain",
            "refused step",
        ):
            self.assertIn(told, found)
        done = plan_of(TIDE, parsed(ANSWER.replace("result=8\nat=2", "result=0\nat=0")))
        lines = draw.script(done, Search(Fraction(9), 1, (), ()), done.subjects[-1], "out", ".svg").splitlines()
        self.assertNotIn("clear, for certain", labels(lines))
        self.assertNotIn("refused", labels(lines))
        self.assertIn("need, 9 m", labels(lines))
        first = plan_of(TIDE, parsed("result=7\nat=1\n"))
        lines = draw.script(first, None, first.subjects[-1], "out", ".svg").splitlines()
        self.assertNotIn("low to high", labels(lines))
        self.assertIn("step 1, from 08:00 to 08:10, is refused with 7: the step is too long", labels(lines))

    def test_back_in_time_the_axis_goes_forward(self):
        plan = plan_of(edited(('step = "10 min"', 'step = "-10 min"')), parsed(ANSWER))
        lines = draw.script(plan, self.search, plan.subjects[-1], "out", ".svg").splitlines()
        self.assertIn("set xrange [27600:28800]", lines)
        self.assertIn("\n28200 28800 1.7881393", self.steps_of(plan))

    def steps_of(self, plan):
        return draw.script(plan, None, plan.subjects[2], "out", ".svg")

    def test_a_quantity_without_a_sill_has_none_and_no_need(self):
        lines = self.lines(self.plan.subjects[0], self.search)
        self.assertNotIn("sill", "\n".join(lines))
        self.assertNotIn("need", "\n".join(lines))

    def test_sills_elsewhere_and_none(self):
        plan = plan_of(edited(('for = "25 min"', "sill = -2.5")), parsed(ANSWER))
        told = draw.script(plan, self.search, plan.subjects[-1], "out", ".svg")
        self.assertIn("-2.5 with lines linewidth 3", told)
        self.assertIn(f",-2.5 fc rgb '{draw.SILL}'", told)
        plan = plan_of(edited(('for = "25 min"', 'sill = "none"')), parsed(ANSWER))
        self.assertNotIn("'sill'", draw.script(plan, self.search, plan.subjects[-1], "out", ".svg"))

    def test_a_title_is_no_command(self):
        title = "a'; system 'touch never'; `date` {/Symbol a} \\\\n x^2_3"
        plan = plan_of(edited(('title = "a tide"', f'title = """{title}"""')), parsed(ANSWER))
        lines = draw.script(plan, None, plan.subjects[0], "out", ".svg").splitlines()
        [told] = [line for line in lines if "touch never" in line]
        self.assertTrue(told.startswith("set label 'a’; system"))
        self.assertNotIn("`", told)
        self.assertNotIn("\\", told)
        self.assertEqual(told.partition(" noenhanced at ")[0].count("'"), 2)
        self.assertIn("{/Symbol a} ∖n x^2_3", joined(drawn(plan, None, plan.subjects[0], ".svg")))

    def test_no_height_at_all_is_still_a_picture(self):
        """Values that stay as they are: the axis has two of the last place that a table has."""
        plan = plan_of(TIDE, parsed(ANSWER))
        lines = draw.script(plan, None, plan.subjects[1], "out", ".svg").splitlines()
        self.assertIn("set yrange [-0.001:0.001]", lines)


class Axes(unittest.TestCase):
    def marks(self, begin, steps, step="10 min"):
        whole = {"s": "10 min", "min": "1 h", "h": "20 h"}[step.split()[1]]
        edits = [("begin = 08:00:00\n", begin), ('step = "10 min"', f'step = "{step}"\nwhole = "{whole}"')]
        plan = plan_of(edited(*edits, ('length = "1 h"', f"steps = {steps}")), ends_at(steps))
        self.lines = draw.script(plan, None, plan.subjects[0], "out", ".svg").splitlines()
        return marks(self.lines)

    def test_the_date_stands_at_the_beginning_and_at_each_midnight(self):
        found = self.marks("begin = 2026-11-30T18:00:00\n", 60)
        hours = [[f"{hour % 24:02}:00"] for hour in range(18, 29)]
        hours[0].append("30 Nov")
        hours[6].append("1 Dec")
        self.assertEqual(found, [(text, 3600 * hour) for hour, text in enumerate(hours, 18)])
        self.assertIn("clock time, 30 Nov 2026 to 1 Dec 2026", labels(self.lines))
        self.marks("begin = 2026-11-30T18:00:00+01:00\n", 60)
        self.assertIn("clock time (+01:00), 30 Nov 2026 to 1 Dec 2026", labels(self.lines))

    def test_an_offset_stands_beside_the_clock(self):
        self.marks("begin = 2026-11-30T18:00:00+01:00\n", 60)
        self.assertIn("clock time (+01:00), 30 Nov 2026 to 1 Dec 2026", labels(self.lines))
        self.marks('begin = "08:00Z"\n', 6)
        self.assertIn("clock time (UTC)", labels(self.lines))

    def test_several_days_over_the_end_of_a_year(self):
        found = self.marks("begin = 2027-12-30T09:20:00\n", 240, "20 min")
        days = [text for text, _ in found if len(text) == 2]
        self.assertEqual(days, [["12:00", "30 Dec"], *([["00:00", day] for day in ("31 Dec", "1 Jan", "2 Jan")])])
        self.assertEqual(found[2], (["12:00"], 36 * 3600))
        self.assertIn("clock time, 30 Dec 2027 to 2 Jan 2028", labels(self.lines))

    def test_months_have_days_alone(self):
        found = self.marks("begin = 2028-02-20T00:00:00\n", 100, "9 h")
        self.assertEqual(found[0], (["00:00", "20 Feb"], 0))
        self.assertEqual(found[3], (["00:00", "3 Mar"], 12 * 86400))
        self.assertLessEqual(len(found), 12)

    def test_the_first_day_has_a_mark_where_there_is_room(self):
        found = self.marks("begin = 2026-11-30T22:07:00\n", 120)
        self.assertEqual([text for text, _ in found][:3], [["22:15", "30 Nov"], ["00:00", "1 Dec"], ["02:00"]])
        found = self.marks("begin = 2026-11-30T23:50:00\n", 120)
        self.assertEqual(found[0], (["00:00", "1 Dec"], 86400))
        self.assertIn("clock time, 30 Nov 2026 to 1 Dec 2026", labels(self.lines))
        found = self.marks("begin = 00:10:00\n", 6, "-10 min")
        self.assertEqual(found[0], (["23:10", "-1 d"], -3000))
        found = self.marks("begin = 20:00:00\n", 123, "-10 min")
        self.assertEqual(found[0][0], ["00:00", "0 d"])

    def test_without_a_date_the_days_are_counted(self):
        found = self.marks("begin = 18:00:00\n", 60)
        self.assertEqual([text for text, _ in found if len(text) == 2], [["00:00", "+1 d"]])
        self.assertEqual(found[0], (["18:00"], 18 * 3600))
        self.assertIn("days are counted from the one on which it begins", labels(self.lines))
        found = self.marks("begin = 18:00:00\n", 30)
        self.assertEqual([text for text, _ in found if len(text) == 2], [])
        self.assertNotIn("days", labels(self.lines))
        self.assertEqual(self.marks("begin = 18:00:00\n", 36)[-1], (["00:00", "+1 d"], 86400))

    def test_back_over_midnight(self):
        found = self.marks("begin = 03:00:00\n", 60, "-10 min")
        days = [(text, place) for text, place in found if len(text) == 2]
        self.assertEqual(days, [(["17:00", "-1 d"], -7 * 3600), (["00:00", "0 d"], 0)])
        found = self.marks("begin = 2028-03-01T03:00:00\n", 60, "-10 min")
        days = [(text, place) for text, place in found if len(text) == 2]
        self.assertEqual(days, [(["17:00", "29 Feb"], -7 * 3600), (["00:00", "1 Mar"], 0)])

    def test_marks_stand_at_round_times_wherever_it_begins(self):
        found = self.marks("begin = 08:07:30\n", 6)
        self.assertEqual(found[0], (["08:10"], 8 * 3600 + 600))
        self.assertTrue(all(place % 300 == 0 for _, place in found))
        self.assertGreater(len(found), 6)

    def test_spacings_of_the_clock(self):
        for steps, step, told in [(6, "10 min", 300), (36, "10 min", 1800), (30, "1 s", 5), (1, "1 s", 0.2)]:
            found = self.marks("begin = 08:00:00\n", steps, step)
            self.assertEqual({round(later - mark, 6) for (_, mark), (_, later) in zip(found, found[1:])}, {told})
        self.assertEqual([text for text, _ in found][:3], [["08:00:00.0"], ["08:00:00.2"], ["08:00:00.4"]])

    def test_texts_of_marks_have_room(self):
        """At 8 pixels or more for a sign, none touches its neighbour."""
        for steps, step in [(6, "10 min"), (24, "5 s"), (3, "1 s"), (240, "1 min"), (239, "10 min"), (7, "11 h")]:
            for begin in ("begin = 23:59:58\n", "begin = 2026-12-31T23:59:58\n", ""):
                found = self.marks(begin, steps, step)
                self.assertGreaterEqual(len(found), 2)
                [left, right] = self.range("x")
                for (text, mark), (_, later) in zip(found, found[1:]):
                    room = (later - mark) / (right - left) * 700
                    self.assertGreater(room, 8 * max(map(len, text)), (begin, steps, step))

    def range(self, axis):
        [told] = [line for line in self.lines if line.startswith(f"set {axis}range [")]
        return map(float, told.partition("[")[2].rstrip("]").split(":"))

    def test_plain_numbers(self):
        found = self.marks("", 6)
        self.assertEqual(found[:3], [(["0.0"], 0), (["0.1"], 0.1), (["0.2"], 0.2)])
        self.assertIn("time, h", labels(self.lines))


class Texts(unittest.TestCase):
    """Whatever a text's length, all of it is drawn, and within the picture."""

    TITLE = "The upper gate of the northern lock, " * 6 + "W" * 150 + " and so on"
    ABOUT = "under the keel of a ship of the name of Wilhelmina, which is followed by others of the same company"
    LONG = (
        ('title = "a tide"', f'title = "{TITLE}"'),
        ("begin = 08:00:00", "begin = 2026-11-30T23:50:00"),
        ("weights =", f'about = "{ABOUT}"\nweights ='),
    )

    def picture(self, ending, *edits):
        plan = plan_of(edited(*edits), parsed(ANSWER))
        return drawn(plan, Search(Fraction(1, 2), 1, ((1, 1),), ()), plan.subjects[-1], ending)

    def test_all_of_it_is_there(self):
        svg = self.picture(".svg", *self.LONG)
        self.assertEqual(joined(svg).count("The upper gate of the northern lock,"), 6)
        self.assertIn("W" * 150 + " and so on", joined(svg).replace("W W", "WW"))
        self.assertIn(
            f"{self.ABOUT}: at least 0.5 m from 2026-11-30 23:50 to 2026-12-01 00:00, "
            "for certain and all the way (row 1)",
            joined(svg),
        )
        self.assertIn(
            "step 2, from 2026-12-01 00:00 to 2026-12-01 00:10, is refused with 8: after the step, a radius would pass",
            joined(svg),
        )
        self.assertIn(f"clearance, {self.ABOUT} (m)", joined(svg))

    def test_no_line_is_cut_and_none_stands_upon_another(self):
        svg = self.picture(".svg", *self.LONG)
        high = int(ElementTree.fromstring(svg).get("viewBox").split()[3])
        found = list(texts(svg))
        for line in found:
            first, last = line.span()
            self.assertGreater(first, 0, line)
            self.assertLess(last, high if line.turned else page.WIDTH, line)
            self.assertLess(line.size, line.down, line)
            self.assertLess(line.down, high - line.size / 3, line)
        level = [line for line in found if not line.turned]
        for line, other in combinations(level, 2):
            if abs(line.down - other.down) < max(line.size, other.size):
                beside = sorted((line.span(), other.span()))
                self.assertLess(beside[0][1], beside[1][0], (line, other))

    def test_a_label_that_has_no_room_beside_the_plot_stands_over_it(self):
        about = "word " * 400 + "and an end"
        svg = self.picture(".svg", ("weights =", f'about = "{about}"\nweights ='))
        self.assertIn(f"clearance, {about} (m)", joined(svg))
        self.assertFalse([line for line in texts(svg) if line.turned])

    def test_signs_that_mean_something_in_an_svg(self):
        title = "depth < 3 m & speed > 2 kn"
        self.assertIn(title, joined(self.picture(".svg", ('title = "a tide"', f'title = "{title}"'))))

    def test_the_picture_grows_and_nothing_touches_its_edge(self):
        _, (_, low) = pixels(self.picture(".png"))
        png = self.picture(".png", *self.LONG)
        _, (width, high) = pixels(png)
        self.assertEqual(width, page.WIDTH)
        self.assertGreater(high, low + 5 * page.LINE_HEIGHT)
        found = list(png_lines(png))
        self.assertEqual({line[:12] + line[-12:] for line in found}, {WHITE * 8})
        self.assertEqual(set(found[:3] + found[-3:]), {WHITE * width})

    def test_breaking(self):
        self.assertEqual(lines.wrapped("", 100), [])
        self.assertEqual(lines.wrapped("a b", 100), ["a b"])
        for text in ("word " * 50, "W" * 90, "i" * 200, "a " + "m" * 60 + " b", "日" * 40):
            found = lines.wrapped(text, 300)
            self.assertEqual("".join(found).replace(" ", ""), text.replace(" ", ""))
            self.assertTrue(all(lines.pixels(line) <= 300 for line in found), found)
            self.assertGreater(len(found), 1)
        self.assertEqual(len({len(line) for line in lines.wrapped("word " * 12, 260)}), 1)

    def test_signs_that_no_font_has(self):
        sign = chr(0x10FFFD)
        self.assertEqual(fonts.missing(f"aü{sign}b{sign}"), [sign])
        self.assertEqual(fonts.without(f"a{sign}b", [sign]), "a?b")


class OldPictures(Folder):
    """A picture of an earlier run never stands there as if it were the new one."""

    def setUp(self):
        super().setUp()
        self.put_old()

    def put_old(self):
        for name in ("a.svg", "b.png"):
            self.put(name, "old")

    def fails(self, status, words, *arguments, change="", gone=("a.svg", "b.png")):
        done = self.changed(change, "draw", *arguments) if change else self.run_it("draw", *arguments)
        self.assertEqual(done.returncode, status, done.stderr)
        self.assertIn(words, done.stderr)
        for name in gone:
            self.assertFalse((self.folder / name).exists(), name)
            self.assertIn(f"passage: the older picture '{name}' is removed\n", done.stderr)
        self.assertEqual([path.name for path in self.folder.iterdir() if path.name.startswith(".")], [])
        return done

    def test_refused_or_unreadable(self):
        self.put("bad.toml", edited(('rate = "m2 * fall"', 'rate = "m2 * fal"')))
        self.fails(65, "bad.toml:19: ", "bad.toml", "a.svg", "b.png")
        self.put_old()
        self.fails(66, "cannot be read", "missing.toml", "a.svg", "b.png")
        self.put_old()
        self.fails(65, "there is no 'tide' here", "tide.toml", "a.svg", "b.png", "--of", "tide")

    def test_nothing_to_draw(self):
        self.put("unread.toml", edited(("start = 1.60\n", "")))
        self.fails(65, "nothing to draw: refused with 4", "unread.toml", "a.svg", "b.png")
        self.put_old()
        self.fails(65, "nothing to draw: refused with 4", "unread.toml", "a.svg", "b.png", "--of", "rise")

    def test_gnuplot_fails_or_writes_a_part(self):
        failing = "import programs\ndef gnuplot(*_): raise programs.Failed('no')\nprograms.gnuplot = gnuplot"
        self.fails(70, "passage: no\n", "tide.toml", "a.svg", "b.png", change=failing)
        half = "import programs, pathlib; whole = programs.gnuplot\n"
        half += "def gnuplot(script, folder):\n    whole(script, folder)\n"
        half += "    for file in pathlib.Path(folder).iterdir(): file.write_bytes(file.read_bytes()[:-9])\n"
        half += "programs.gnuplot = gnuplot"
        for order in (("a.svg", "b.png"), ("b.png", "a.svg")):
            self.put_old()
            self.fails(70, f"gnuplot did not write the whole of '{order[0]}'", "tide.toml", *order, change=half)

    def test_one_of_two_fails(self):
        second = "import programs; whole = programs.gnuplot\ndef gnuplot(script, folder):\n"
        second += "    if 'picture.png' in script: raise programs.Failed('no')\n    whole(script, folder)\n"
        second += "programs.gnuplot = gnuplot"
        done = self.fails(70, "passage: no\n", "tide.toml", "a.svg", "b.png", change=second, gone=("b.png",))
        self.assertIn("</svg>", (self.folder / "a.svg").read_text())
        self.assertNotIn("a.svg", done.stderr)
        self.put("b.png", "old")
        self.fails(74, "'missing/a.svg'", "tide.toml", "a.svg", "b.png", "missing/a.svg")

    def test_ended_from_outside(self):
        killed = "import os, programs\nprograms.gnuplot = lambda *_: os.kill(os.getpid(), 9)"
        self.assertEqual(self.changed(killed, "draw", "tide.toml", "a.svg", "b.png").returncode, -9)
        self.assertFalse((self.folder / "a.svg").exists() or (self.folder / "b.png").exists())

    def test_one_that_cannot_be_removed_is_told(self):
        kept = "import pathlib; unlink = pathlib.Path.unlink\ndef keep(path, **how):\n"
        kept += "    if path.name == 'a.svg': raise PermissionError(13, 'not yours', path.name)\n"
        kept += "    unlink(path, **how)\n"
        kept += "pathlib.Path.unlink = keep"
        done = self.fails(74, "not yours: 'a.svg'", "tide.toml", "a.svg", "b.png", change=kept, gone=("b.png",))
        self.assertIn("passage: the older picture 'a.svg' is still there\n", done.stderr)

    def test_what_is_not_understood_touches_nothing(self):
        self.put("own.svg", TIDE)
        self.put("notes.txt", "notes")
        (self.folder / "link.svg").symlink_to("notes.txt")
        (self.folder / "folder.svg").mkdir()
        self.fails(65, "ends neither in .svg nor in .png", "tide.toml", "a.svg", "out.gif", gone=())
        for source, target in (("own.svg", "own.svg"), ("tide.toml", "link.svg"), ("tide.toml", "folder.svg")):
            self.fails(65, f"'{target}' is no file to draw a picture into", source, "a.svg", target, gone=())
        self.assertEqual((self.folder / "own.svg").read_text(), TIDE)
        self.assertEqual((self.folder / "notes.txt").read_text(), "notes")
        self.assertEqual((self.folder / "a.svg").read_text(), "old")

    def test_a_new_one_takes_its_place_without_a_word(self):
        (self.folder / "link.svg").symlink_to("a.svg")
        done = self.run_it("draw", "tide.toml", "link.svg", "b.png")
        self.assertEqual((done.returncode, done.stderr), (0, ""))
        self.assertTrue((self.folder / "link.svg").is_symlink())
        self.assertIn("</svg>", (self.folder / "a.svg").read_text())
        self.assertTrue(draw.is_whole((self.folder / "b.png").read_bytes(), ".png"))
        self.assertEqual({path.name for path in self.folder.iterdir()}, {"tide.toml", "a.svg", "b.png", "link.svg"})

    def test_signs_without_a_font_are_told_and_drawn_as_others(self):
        self.put("odd.toml", edited(('title = "a tide"', 'title = "over \N{DEGREE SIGN} and out"')))
        none = "import fonts; fonts.has_letter = str.isascii"
        done = self.changed(none, "draw", "odd.toml", "a.svg", "b.png")
        self.assertEqual(done.returncode, 0, done.stderr)
        self.assertEqual(done.stderr, "passage: no font here has \N{DEGREE SIGN}: '?' is drawn in 'b.png'\n")
        self.assertIn("over \N{DEGREE SIGN} and out", joined((self.folder / "a.svg").read_bytes()))
        plain = self.changed(none, "draw", "tide.toml", "a.svg", "b.png")
        self.assertEqual((plain.returncode, plain.stderr), (0, ""))


class Drawn(unittest.TestCase):
    def test_svg(self):
        plan = planned("approach-over-sill")
        found = Search(Fraction(1), 1, ((30, 30),), ())
        svg = drawn(plan, found, plan.subjects[-1], ".svg")
        texts = " ".join(
            text for element in ElementTree.fromstring(svg).iter() if (text := (element.text or "").strip())
        )
        for told in (
            "clock time",
            "08:15",
            "sill",
            "need, 1 m",
            "value and radius, at the row",
            "low to high, all through the step",
            "under the keel: at least 1 m from 08:29 to 08:30",
        ):
            self.assertIn(told, " ".join(texts.split()))

    def test_png_has_the_colours(self):
        plan = planned("tide-by-feedback")
        subject = next(each for each in plan.subjects if each.is_clearance)
        found, size = pixels(drawn(plan, None, subject, ".png"))
        svg = ElementTree.fromstring(drawn(plan, None, subject, ".svg"))
        self.assertEqual(svg.get("viewBox"), "0 0 {} {}".format(*size))
        self.assertEqual(size[0], page.WIDTH)
        for name, least in ((draw.BAND, 500), (draw.LINE, 100), (draw.SILL, 1000), (draw.REFUSED, 200)):
            self.assertGreater(found.get(rgb(name), 0), least, name)

    def test_the_clear_run_is_green_and_only_there(self):
        plan = planned("tide-over-sill")
        subject = plan.subjects[-1]
        mixed = bytes(round(255 + (each - 255) * 0.18) for each in rgb(draw.CLEAR))
        counts = []
        for runs in ((), ((19, 36),), ((1, 36),)):
            found, _ = pixels(drawn(plan, Search(Fraction(2), 1, runs, ()), subject, ".png"))
            counts.append(
                sum(count for colour, count in found.items() if all(abs(a - b) <= 2 for a, b in zip(colour, mixed)))
            )
        self.assertEqual(counts[0], 0)
        self.assertGreater(counts[1], 50_000)
        self.assertGreater(counts[2], 3 * counts[1] // 2)

    def test_the_gallerys_pictures_are_those_that_its_commands_draw(self):
        """But for the line in which gnuplot names its version."""
        page = (programs.ROOT / "sheets" / "README.md").read_text().splitlines()
        commands = [line.split() for line in page if line.startswith("    companion/passage draw ")]
        self.assertEqual(len(commands), 2)
        for _, verb, source, *rest in commands:
            with self.subTest(source=source), tempfile.TemporaryDirectory() as folder:
                target = rest.pop()
                again = Path(folder) / "again.svg"
                done = subprocess.run(
                    [programs.ROOT / "companion" / "passage", verb, source, *rest, again],
                    cwd=programs.ROOT,
                    capture_output=True,
                    text=True,
                )
                self.assertIn(done.returncode, (0, 8), done.stderr)
                self.assertIn(f"({Path(target).name})", "\n".join(page))
                self.assertEqual(unnamed(again.read_text()), unnamed((programs.ROOT / target).read_text()))


def unnamed(svg):
    return [line for line in svg.splitlines() if not line.startswith("<desc>Produced by GNUPLOT")]
