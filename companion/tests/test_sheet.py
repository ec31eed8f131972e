"""A description's sheet: the roundings, the ranges, and that a sheet which says something else is found out."""

import random
import re
import unittest
from dataclasses import fields, replace
from fractions import Fraction

import description
import explain
import programs
from entries import Refused
from samples import TIDE, edited
from sheet import Sheet, Start, Term, Writer, differences, parsed, ratio
from units import SCALE, near

PLAIN = """\
[time]
step = {step}
steps = {steps}
[accuracy]
tail = {tail}
[quantity.x]
start = {start}
good_to = {good_to}
tolerance = {tolerance}
rate = "{rate}"
"""
USUAL = {"step": "0.5", "steps": 3, "tail": 2, "start": 1, "good_to": 0, "tolerance": "0.1", "rate": "x"}


def written(**changed):
    writer = Writer(description.read(PLAIN.format(**USUAL | changed)))
    return writer.sheet(), writer.said


def refusal(text):
    try:
        Writer(description.read(text)).sheet()
    except Refused as refused:
        return refused.line, refused.why
    return None, "not refused"


class Roundings(unittest.TestCase):
    def start(self, **changed):
        return written(**changed)[0].starts[0]

    def test_the_rules_of_the_gallery(self):
        """sheets/README.md's table of what is meant and what is written."""
        self.assertEqual(self.start(start="1.8"), Start(30198989, 1))
        self.assertEqual(self.start(start="1.60", good_to="0.04"), Start(26843546, 671090))
        self.assertEqual(self.start(start="0", good_to="0.04"), Start(0, 671089))
        self.assertEqual(self.start(start="6.40", good_to="0.04"), Start(107374182, 671090))
        self.assertEqual(written(tolerance="0.05")[0].tol, 838860)

    def test_an_exact_start_keeps_radius_0(self):
        self.assertEqual(self.start(start="-2.5"), Start(-5 * SCALE // 2, 0))

    def test_a_half_goes_away_from_0_and_into_the_radius(self):
        half = Fraction(1, 2 * SCALE)
        text = f"{half.numerator * 5**25}e-25"
        self.assertEqual(self.start(start=text), Start(1, 1))
        self.assertEqual(self.start(start=f"-{text}"), Start(-1, 1))

    def test_each_rounding_is_said_and_nothing_else(self):
        self.assertEqual(written()[1], ["tol: 0.1 of x are 1677721.60 units, rounded down to 1677721"])
        self.assertEqual(written(tolerance="0.125")[1], [])
        said = written(tolerance="0.125", start="1.6", good_to="0.04", rate="0.3 * x", step="0.1")[1]
        self.assertEqual([words.split(":")[0] for words in said[:4]], ["step", "x", "x", "x, the rate's '0.3 * x'"])
        self.assertIn("row 3 stands 0.000001 or less beside its time", said[0])
        self.assertEqual(said[1], "x: the start 1.6 is 26843545.60 units, written 26843546")
        self.assertEqual(
            said[2], "x: good to 0.04, 671088.64 units and the 0.40 that the start was moved by, rounded up: 671090"
        )
        self.assertIn("5033164.80 units in the sheet, written 5033165", said[3])
        self.assertEqual(len(said), 4)

    def test_a_coefficient_that_would_come_to_0_is_refused_with_the_whole_that_keeps_it(self):
        line, why = refusal(PLAIN.format(**USUAL | {"rate": "x - 0.00000002 * x"}))
        self.assertEqual(line, 10)
        self.assertEqual(
            why,
            "x, the rate's '- 0.00000002 * x': -0.34 units would be written as 0: 'whole = 2' in [time] would serve",
        )
        advised = PLAIN.format(**USUAL | {"rate": "x - 0.00000002 * x"}).replace("[time]", "[time]\nwhole = 2")
        self.assertEqual(Writer(description.read(advised)).sheet().terms, (Term(1, 2 * SCALE, 1, 0), Term(1, -1, 1, 0)))
        self.assertEqual(written(rate="0 * x")[0].terms, (Term(1, 0, 1, 0),))

    def test_the_whole_of_a_quantity_is_advised_where_times_does_not_help(self):
        """A larger whole of time takes the other coefficient past 16."""
        rates = {"rate": "16 * x - 0.00000002"}
        line, why = refusal(PLAIN.format(**USUAL | rates))
        self.assertEqual(line, 10)
        self.assertTrue(why.endswith("would be written as 0: 'whole = 0.5' for x would serve"), why)
        advised = PLAIN.format(**USUAL | rates).replace("[quantity.x]", "[quantity.x]\nwhole = 0.5")
        self.assertEqual(Writer(description.read(advised)).sheet().terms[1].coef, -1)
        line, why = refusal(PLAIN.format(**USUAL | {"rate": "16 * x - 0.00000002 * x"}))
        self.assertEqual(line, 10)
        self.assertTrue(why.endswith("-0.34 units would be written as 0"), why)

    def test_no_reading_is_none_and_never_0(self):
        sheet, said = written(start='"none"', tolerance="0.125")
        self.assertEqual(sheet.starts, (Start(None, 0),))
        self.assertIn("start=none\n", sheet.text())
        self.assertIn("no reading", said[0])

    def test_the_strictest_tolerance_serves_all(self):
        text = edited(
            ("start = -1.8", 'start = -1.8\ntolerance = "1 mm"'),
            ("start = 1.60", "start = 1.60\nwhole = 4"),
            ('good_to = "4 cm"', "good_to = 0"),
        )
        writer = Writer(description.read(text))
        self.assertEqual(writer.sheet().tol, 16777)
        told = [words for words in writer.said if words.startswith("tol: for")]
        self.assertEqual(told, ["tol: for water the same 16777 units are about 0.0039999485 m"])

    def test_the_accuracy_of_a_missing_reading_is_kept(self):
        self.assertEqual(self.start(start='"none"', good_to="0.04"), Start(None, 671089))

    def test_wholes_of_time_target_and_factors_scale_a_coefficient(self):
        text = edited(
            ('unit = "h"', 'unit = "h"\nwhole = 2'),
            ("start = -1.8", "start = -1.8\nwhole = 2.5"),
            ("start = 0\n", "start = 0\nwhole = 5\n"),
            ('rate = "m2 * fall"', 'rate = "0.25 * fall * rise + 0.5 * fall + 0.75"'),
        )
        terms = Writer(description.read(text)).sheet().terms[:3]
        expected = [Fraction(1, 4) * 2 * 5 * Fraction(5, 2), Fraction(1, 2) * 2 * 5, Fraction(3, 4) * 2]
        self.assertEqual([term.coef for term in terms], [near(number / Fraction(5, 2) * SCALE) for number in expected])

    def test_back_in_time(self):
        self.assertEqual(written(step="-0.5")[0].step, -SCALE // 2)


class Ranges(unittest.TestCase):
    def test_past_its_range_is_refused_with_its_line(self):
        for line, words, changed in [
            (2, "a step of 1.00000004 is longer than the whole", {"step": "1.00000004"}),
            (2, "a step of 1.1 is longer than the whole", {"step": "-1.1"}),
            (2, "a step of 0.00000001 is shorter than a unit", {"step": "0.00000001"}),
            (3, "1 to 240", {"steps": 241}),
            (5, "2 to 16777216", {"tail": 1}),
            (7, "x, start: 32.1 is past the sheet's range, -32 to 32", {"start": "32.1"}),
            (7, "x, start: -32.1 is past the sheet's range, -32 to 32", {"start": "-32.1"}),
            (8, "x, good_to: 32.1 is past the sheet's range, 0 to 32", {"good_to": "32.1"}),
            (8, "x, good_to: 32 with what the start is moved by is past", {"start": "0.1", "good_to": "32"}),
            (9, "x, tolerance: 0.00000001 is past the sheet's range, about 0.0000000596", {"tolerance": "0.00000001"}),
            (9, "x, tolerance: 0 is past the sheet's range", {"tolerance": "0"}),
            (9, "x, tolerance: 32.1 is past the sheet's range, about", {"tolerance": "32.1"}),
            (10, "x, the rate's '16.1 * x' is 16.1 for the sheet's wholes, and a sheet takes 16", {"rate": "16.1 * x"}),
        ]:
            with self.subTest(changed=changed):
                found, why = refusal(PLAIN.format(**USUAL | changed))
                self.assertIn(words, why)
                self.assertEqual(found, line)

    def test_the_ends_of_the_ranges_are_taken(self):
        for changed in [
            {"step": 1},
            {"step": -1},
            {"steps": 240},
            {"start": 32},
            {"start": -32},
            {"good_to": 32, "tolerance": 32},
            {"tolerance": 32},
            {"rate": "16 * x"},
            {"rate": "-16"},
            {"tail": 16777216},
        ]:
            with self.subTest(changed=changed):
                self.assertEqual(
                    differences(description.read(PLAIN.format(**USUAL | changed)), written(**changed)[0]), []
                )

    def test_nine_quantities_and_33_terms(self):
        more = "".join(f'[quantity.x{i}]\nstart = 0\ngood_to = 0\nrate = "0"\n' for i in range(8))
        self.assertEqual(
            refusal(PLAIN.format(**USUAL) + more), (39, "'x7' is one quantity too many: a sheet has 8 at most")
        )
        line, why = refusal(PLAIN.format(**USUAL | {"rate": "x" + " + x" * 32}))
        self.assertEqual((line, why[:26]), (6, "the rates have 33 products"))

    def test_a_step_of_too_few_units(self):
        """Rounding it would move the last row by more than a thousandth of a step."""
        for step, steps, is_taken in [
            ("0.0000001", 1, False),
            ("0.00012", 1, True),
            ("0.00012", 240, False),
            ("0.008", 240, True),
        ]:
            line, why = refusal(PLAIN.format(**USUAL | {"step": step, "steps": steps}))
            self.assertEqual((line, "cannot be rounded" in why), (None, False) if is_taken else (2, True))

    def test_no_tolerance(self):
        text = PLAIN.format(**USUAL).replace("tolerance = 0.1\n", "")
        line, why = refusal(text)
        self.assertEqual((line, why[:27]), (6, "no quantity has a tolerance"))


class Radii(unittest.TestCase):
    """A start that is less certain than a row may be."""

    def test_both_numbers_and_whose_tolerance_it_is(self):
        for good_to, tolerance, told in [
            ("0.2", "0.1", "x, good_to: 0.2 (3355444 units) is more than the sheet's tolerance, 0.1 (1677721 units)"),
            ("0.1", "0.1", "x, good_to: 0.1 (1677722 units) is more than the sheet's tolerance, 0.1 (1677721 units)"),
            ("0.125", "0.125", "not refused"),
        ]:
            line, why = refusal(PLAIN.format(**USUAL | {"good_to": good_to, "tolerance": tolerance}))
            self.assertEqual((line, why[: len(told)]), (None if told == "not refused" else 8, told))

    def test_what_the_start_is_moved_by_counts(self):
        units = {"tolerance": "{ units = 100 }", "good_to": "{ units = 100 }"}
        self.assertEqual(refusal(PLAIN.format(**USUAL | units))[1], "not refused")
        self.assertIn("(101 units)", refusal(PLAIN.format(**USUAL | units | {"start": "0.1"}))[1])

    def test_a_quantity_without_a_tolerance_has_the_strictest(self):
        exact = "good_to = 0\nrate = \"m2 * fall\""
        line, why = refusal(edited((exact, exact.replace("0", "1"))))
        self.assertEqual(line, 18)
        self.assertIn("rise, good_to: 1 m (16777217 units) is more than the sheet's tolerance, 0.05 m of water, the", why)
        self.assertNotIn("for rise", why)
        _, why = refusal(edited((exact, exact.replace("0", "1\nwhole = 2"))))
        self.assertIn("0.05 m of water, the strictest, for rise about 0.099999905 m (838860 units)", why)

    def test_the_planner_would_refuse_the_first_step(self):
        """No step makes a radius smaller: where it is over the tolerance at the start, the first step is refused."""
        rng = random.Random(2)
        for _ in range(9):
            radius = rng.randint(2, 1 << 20)
            sheet = written(rate=rng.choice(["x", "-x", "0"]))[0]
            sheet = replace(sheet, tol=radius - 1, starts=(Start(SCALE, radius),))
            answer = programs.plan(sheet.text().encode())
            self.assertEqual((answer.result, answer.at), (8, 1))


def advised(text):
    """A description with what its refusal advises: a 'whole' of a quantity, of all in a unit or of [time], and a step."""
    _, why = refusal(text)
    step = re.search(r"'step = (.*?)',", why)
    if step:
        text = re.sub("^step = .*", f"step = {step.group(1)}", text, flags=re.MULTILINE)
    for whole, of in re.findall(r"'whole = (\S+)' (for \w+|in \[time\])", why):
        headings = [of.removeprefix("in ")] if of.startswith("in") else [f"[quantity.{of.removeprefix('for ')}]"]
        if headings == ["[quantity.every]"]:
            headings = re.findall(r"^\[quantity\..*\]", text, flags=re.MULTILINE)
        for heading in headings:
            text = text.replace(heading, f"{heading}\nwhole = {whole}")
    return text


class Advice(unittest.TestCase):
    """What is advised is followed, and then the planner takes the first step."""

    def follow(self, why, text):
        self.assertRegex(refusal(text)[1], why)
        answer = programs.plan(Writer(description.read(advised(text))).sheet().text().encode())
        self.assertTrue(answer.rows, (answer.result, refusal(text)[1]))

    def test_starts_and_tolerances(self):
        self.follow("40 m is past .*: 'whole = 2' for water would serve$", edited(("start = 1.60", "start = 40")))
        self.follow("4000 m is past .*: 'whole = 200' for water", edited(("start = 1.60", "start = 4000")))
        self.follow("40 m is past .*: 'whole = 2' for water", edited(('tolerance = "5 cm"', "tolerance = 40")))
        self.follow("'whole = 0.1' for x", PLAIN.format(**USUAL | {"tolerance": "0.00000001", "rate": "0"}))
        self.follow("'whole = 50' for x", PLAIN.format(**USUAL | {"start": 1000, "rate": "0.1 * x"}))

    def test_a_whole_for_every_quantity_where_one_does_not_serve(self):
        """With a larger whole of one of the two alone, the rate of the other is too fast for the step."""
        long = ('step = "10 min"', 'step = "50 min"'), ('length = "1 h"', "steps = 2")
        swing = edited(("start = -1.8", "start = -40"), *long)
        self.follow("-40 m is past .*: 'whole = 2' for every quantity in m would serve$", swing)

    def test_a_step_longer_than_the_whole(self):
        long = ('step = "10 min"', 'step = "25 h"'), ('length = "1 h"', "steps = 3")
        self.follow("a step of 25 h is longer .*, 1 h: a shorter step, 'step = \"30 min\"', would serve$", edited(*long))
        still = re.sub("m2 \\* (rise|fall)", "0.001", edited(*long))
        self.follow("longer than the whole .*, 1 h: 'whole = 50' in \\[time\\] would serve$", still)
        self.follow("'step = 0.5',", PLAIN.format(**USUAL | {"step": "1.5"}))
        self.follow("'step = -0.5',", PLAIN.format(**USUAL | {"step": "-1.5"}))

    def test_a_time_that_is_too_long_for_the_shorter_steps(self):
        text = edited(('step = "10 min"', 'step = "25 h"'), ('length = "1 h"', "steps = 30"))
        self.assertIn("'step = \"30 min\"', of which a sheet has 240, would serve", refusal(text)[1])

    def test_a_step_of_too_few_units(self):
        self.follow("shorter than a unit .*'whole = 0.0002' in", PLAIN.format(**USUAL | {"step": "0.00000001"}))
        self.follow("cannot be rounded .*'whole = 0.02' in", PLAIN.format(**USUAL | {"step": "0.00012", "steps": 240}))

    def test_a_coefficient(self):
        most = "is 20 for the sheet's wholes, and a sheet takes 16 at most"
        self.follow(f"{most}: 'whole = 0.5' in .time. would", PLAIN.format(**USUAL | {"rate": "20 * x", "step": "0.01"}))
        self.follow("'step = 0.02', with 'whole = 0.5' in", PLAIN.format(**USUAL | {"rate": "20 * x"}))
        faster = {"rate": "20", "step": "0.9", "start": 30}
        self.follow(f"{most}: 'whole = 50' for x would serve$", PLAIN.format(**USUAL | faster))

    def test_what_cannot_be_mended_so_is_not_advised(self):
        for changed in [
            {"tolerance": "0"},
            {"good_to": "32.1"},
            {"start": "{ units = 536870913 }"},
            {"start": 40, "tolerance": "{ units = 100000 }", "good_to": "{ units = 200000 }"},
        ]:
            self.assertIn("past the sheet's range", refusal(PLAIN.format(**USUAL | changed))[1])
            if "units = 1" not in str(changed):
                self.assertNotIn("would serve", refusal(PLAIN.format(**USUAL | changed))[1])

    def test_another_fault_is_no_hindrance(self):
        text = edited(("start = 1.60", "start = 40"), ('rate = "m2 * fall"', 'rate = "17 * fall"'))
        self.assertIn("'whole = 2' for water would serve", refusal(text)[1])

    def test_the_ratio_is_the_second_programs(self):
        rng, asked = random.Random(3), 0
        while asked < 25:
            try:
                sheet = Writer(random_description(rng), advises=False).sheet()
            except Refused:
                continue
            said = explain.reading(programs.second("explain", sheet.text().encode()))
            if (said.result, said.at) == (7, 1):
                self.assertEqual(ratio(sheet), int(said.groups[0]["ratio"]))
                asked += 1
            elif said.result not in (4, 6):
                self.assertLessEqual(ratio(sheet), SCALE // 2)


def random_decimal(rng, least, most):
    digits = rng.randint(0, 9)
    number = rng.randint(least * 10**digits, most * 10**digits)
    return (
        f"{'-' if number < 0 else ''}{abs(number) // 10**digits}.{abs(number) % 10**digits:0{digits}}"
        if digits
        else str(number)
    )


def random_description(rng):
    """A description of up to eight quantities in random wholes, with random decimals and products."""
    names = [f"q{i}" for i in range(rng.randint(1, 8))]
    parts = [
        f"[time]\nstep = {rng.choice(['', '-'])}0.{rng.randint(1, 9)}{rng.randint(1, 10**6):07}\nsteps = {rng.randint(1, 240)}\n"
    ]
    for name in names:
        products = [
            " * ".join([random_decimal(rng, -3, 3), *rng.choices(names, k=rng.randint(0, 2))])
            for _ in range(rng.randint(1, 3))
        ]
        start = "" if rng.random() < 0.1 else f"start = {random_decimal(rng, -9, 9)}\n"
        parts.append(
            f"[quantity.{name}]\nwhole = {rng.choice(['1', '3', '0.7', '2.5'])}\n{start}good_to = {random_decimal(rng, 0, 2)}\n"
            f"tolerance = {random_decimal(rng, 1, 9)}\nrate = \"{' + '.join(products).replace('+ -', '- ')}\"\n"
        )
    return description.read("".join(parts))


def meddled(rng, sheet):
    """The sheet with one number changed by one or two units, or two factors changed about."""

    def moved(record, names):
        name = rng.choice([name for name in names if getattr(record, name) is not None])
        return replace(record, **{name: getattr(record, name) + rng.choice([-2, -1, 1, 2])})

    choice = rng.choice(["head", "start", "term"] if sheet.terms else ["head", "start"])
    if choice == "head":
        return moved(sheet, ["steps", "step", "tail", "tol"])
    if choice == "start":
        place = rng.randrange(len(sheet.starts))
        start = sheet.starts[place]
        if start.value is None:
            return replace(sheet, starts=(*sheet.starts[:place], Start(0, start.radius), *sheet.starts[place + 1 :]))
        return replace(
            sheet, starts=(*sheet.starts[:place], moved(start, ["value", "radius"]), *sheet.starts[place + 1 :])
        )
    place = rng.randrange(len(sheet.terms))
    term = sheet.terms[place]
    other = (
        replace(term, first=term.second, second=term.first)
        if term.second and term.first != term.second
        else replace(term, coef=term.coef + rng.choice([-2, -1, 1, 2]))
    )
    return replace(sheet, terms=(*sheet.terms[:place], other, *sheet.terms[place + 1 :]))


class RandomDescriptions(unittest.TestCase):
    COUNT = 400

    def test_the_sheet_says_what_is_meant_and_a_meddled_one_does_not(self):
        rng = random.Random(1)
        taken = 0
        while taken < self.COUNT:
            read = random_description(rng)
            try:
                sheet = Writer(read, advises=False).sheet()
            except Refused as refused:
                self.assertRegex(
                    refused.why,
                    "past the sheet's range|a sheet takes 16 at most|no step would pass|would be written as 0",
                )
                continue
            taken += 1
            self.assertEqual(parsed(sheet.text()), sheet)
            self.assertEqual(differences(read, sheet), [])
            other = meddled(rng, sheet)
            self.assertNotEqual(differences(read, other), [], (sheet, other))

    def test_targets_and_readings_are_compared(self):
        read = description.read(TIDE)
        sheet = Writer(read).sheet()
        elsewhere = (replace(sheet.terms[0], to=2), *sheet.terms[1:])
        self.assertNotEqual(differences(read, replace(sheet, terms=elsewhere)), [])
        unread = (Start(None, sheet.starts[0].radius), *sheet.starts[1:])
        self.assertNotEqual(differences(read, replace(sheet, starts=unread)), [])

    def test_every_field_is_compared(self):
        read = description.read(TIDE)
        sheet = Writer(read).sheet()
        for field in fields(Sheet):
            value = getattr(sheet, field.name)
            other = value[:-1] if isinstance(value, tuple) else value + 1
            self.assertNotEqual(differences(read, replace(sheet, **{field.name: other})), [], field.name)
