"""The command itself: its arguments, its files, its exit status; and that docs/PILOT.md prints what it shows."""

import os
import re
import subprocess
import tempfile
import unittest
from pathlib import Path

import description
import programs
from samples import TIDE, edited
from units import KNOWN

COMMAND = programs.ROOT / "companion" / "passage"
PAGE = programs.ROOT / "docs" / "PILOT.md"


class Folder(unittest.TestCase):
    """Each test in a folder of its own, with a description in it."""

    def setUp(self):
        self.folder = Path(self.enterContext(tempfile.TemporaryDirectory()))
        self.put("tide.toml", TIDE)

    def put(self, name, text):
        (self.folder / name).write_text(text)

    def run_it(self, *words, **options):
        return subprocess.run([COMMAND, *words], cwd=self.folder, capture_output=True, text=True, **options)

    def changed(self, change, *words):
        """Runs the command after a change of what it rests on."""
        code = f"import runpy, sys; sys.path.insert(0, {str(COMMAND.parent)!r}); sys.argv = ['passage', *{words!r}]\n{change}\n"
        code += f"runpy.run_path({str(COMMAND)!r}, run_name='__main__')"
        return subprocess.run(["python3", "-c", code], cwd=self.folder, capture_output=True, text=True)

    def expect(self, status, words, *arguments):
        done = self.run_it(*arguments)
        self.assertEqual(done.returncode, status, done.stdout + done.stderr)
        self.assertIn(words, done.stderr if status >= 64 else done.stdout)
        self.assertNotIn("Traceback", done.stderr)
        return done


class Arguments(Folder):
    def test_what_is_not_understood(self):
        for arguments in (
            [],
            ["plan"],
            ["write"],
            ["show"],
            ["draw", "tide.toml"],
            ["explain"],
            ["show", "tide.toml", "more"],
            ["show", "--digits", "13", "tide.toml"],
            ["show", "--digits", "x", "tide.toml"],
        ):
            with self.subTest(arguments=arguments):
                self.expect(64, "passage: ", *arguments)

    def test_what_is_said_of_the_arguments(self):
        for words, *arguments in (
            ["say what to do: write, show, draw, split or explain"],
            ["'plan' is none of write, show, draw, split and explain", "plan"],
            ["write needs a description, as in passage write day.toml", "write"],
            ["show needs a description", "show"],
            ["draw needs a description and the name of a picture", "draw"],
            ["draw needs a description and the name of a picture", "draw", "tide.toml"],
            ["explain needs a file", "explain"],
            ["there is no use for 'cm' here; a number with its unit", "show", "tide.toml", "--need", "90", "cm"],
            ["--digits is a whole number from 0 to 12", "show", "--digits", "13", "tide.toml"],
            ["--digits is a whole number from 0 to 12", "show", "--digits", "x", "tide.toml"],
            ['as in --need="-50 cm"', "show", "tide.toml", "--need"],
            ['as in --need="-50 cm"', "show", "tide.toml", "--need", "-5m"],
            ["--brief and --csv do not go together", "show", "tide.toml", "--csv", "--brief"],
            ["--brief takes no 'x'", "show", "tide.toml", "--brief=x"],
        ):
            with self.subTest(arguments=arguments):
                done = self.expect(64, f"passage: {words}" if "=\"" not in words else words, *arguments)
                self.assertNotRegex(done.stderr, "argument|required|usage")

    def test_help_names_the_verbs_and_the_statuses(self):
        done = self.run_it("--help")
        self.assertEqual(done.returncode, 0)
        for words in (
            "passage write DESCRIPTION",
            "passage show DESCRIPTION",
            "passage draw DESCRIPTION",
            "passage split DESCRIPTION",
            "passage explain FILE",
            "65",
        ):
            self.assertIn(words, done.stdout)

    def test_files_that_cannot_be_read(self):
        self.put("latin.toml", "")
        (self.folder / "latin.toml").write_bytes(b'title = "\xff"\n')
        self.expect(66, "'missing.toml' cannot be read", "show", "missing.toml")
        self.expect(66, "cannot be read", "explain", ".")
        self.expect(65, "latin.toml:1: this is not text in UTF-8", "show", "latin.toml")

    def test_files_that_are_something_else(self):
        """A sheet, an answer, a picture or nothing in the place of a description, and a description in that of a sheet."""
        self.expect(0, "tide.sheet: written", "write", "tide.toml")
        self.expect(0, "drawn", "draw", "tide.toml", "a.png", "a.svg")
        self.put("answer.toml", "row=1\ndegree=2\nvalue=1\nradius=1\nlow=1\nhigh=1\nresult=0\nat=0\n")
        self.put("empty.toml", " \n\n")
        (self.folder / "utf16.toml").write_text(TIDE, encoding="utf-16")
        for name, words in (
            ("tide.sheet", "this is a sheet, and a description is wanted here"),
            ("answer.toml", "this is an answer of the planner's"),
            ("empty.toml", "the file is empty: a description has [time]"),
            ("a.png", "this is not text (a picture, perhaps)"),
            ("a.svg", "this is a picture or a page"),
            ("utf16.toml", "this is text in UTF-16"),
        ):
            self.expect(65, f"passage: {name}: {words}", "show", name)
            self.expect(65, f"passage: {name}: {words}", "write", name, "-")
        self.put("tide.txt", edited(('step = "10 min"', 'step = "1 h"')))
        self.expect(7, "step 1, from 08:00 to 09:00, is refused", "explain", "tide.txt")
        (self.folder / "tide.sheet").rename(self.folder / "sheet.toml")
        self.expect(0, "accepted: 6 rows", "explain", "sheet.toml")
        self.expect(65, "the file is empty", "explain", "empty.toml")

    def test_a_refused_description_is_named_with_its_line(self):
        self.put("bad.toml", edited(('rate = "m2 * fall"', 'rate = "m2 * fal"')))
        for verb in ("write", "show", "explain"):
            self.expect(65, "passage: bad.toml:19: 'fal' is neither", verb, "bad.toml")
        self.expect(65, "passage: bad.toml:19: ", "draw", "bad.toml", "out.svg")
        self.assertFalse((self.folder / "bad.sheet").exists())
        self.assertFalse((self.folder / "out.svg").exists())

    def test_what_is_asked_on_the_command_line_is_refused_too(self):
        self.expect(
            65, "there is no 'tide' here; there are rise, fall, water, clearance", "show", "tide.toml", "--of", "tide"
        )
        self.expect(65, "'out.gif' ends neither in .svg nor in .png", "draw", "tide.toml", "out.gif")
        self.expect(65, "'--need' is a number", "show", "tide.toml", "--need", "much")
        self.expect(65, "'--for' is more than 0", "show", "tide.toml", "--for", "0 h")
        self.put("plain.toml", TIDE[: TIDE.index("[clearance]")])
        self.expect(65, "no [clearance]", "show", "plain.toml", "--need", "1")
        self.put("unasked.toml", edited(("need = 0.5\n", "")))
        self.expect(65, "there is no need to ask for", "show", "unasked.toml", "--for", "1 h")
        self.expect(65, "passage: tide.toml: the need is past", "show", "tide.toml", "--need", "33")

    def test_a_query_out_of_range_is_refused_with_its_line(self):
        for entry, line, words in [
            ("need = 0.5", 41, "the need is past"),
            ("base = -1", 40, "the base is past"),
            ('for = "25 min"', 42, "rows are past"),
            ("rise = -0.5", 38, "the weight of rise is 33"),
        ]:
            key = entry.split(" =")[0]
            self.put("far.toml", edited((entry, f"{key} = 33" if key != "for" else 'for = "99 h"')))
            self.expect(65, f"far.toml:{line}: ", "show", "far.toml")
            self.expect(65, words, "show", "far.toml")


class Writing(Folder):
    def test_beside_the_description_or_elsewhere_or_printed(self):
        done = self.expect(
            0, "tide.sheet: written, read back, and found to say what tide.toml means", "write", "tide.toml"
        )
        sheet = (self.folder / "tide.sheet").read_text()
        self.assertTrue(sheet.startswith("n=3\nsteps=6\nstep=2796203\n"))
        self.assertIn("what the sheet's rounded step and coefficients can do, up to row 6, at most: rise 0.0000", done.stdout)
        self.expect(0, "other: written", "write", "tide.toml", "other")
        self.assertEqual((self.folder / "other").read_text(), sheet)
        self.assertEqual(self.run_it("write", "tide.toml", "-").stdout, sheet)

    def test_no_description_is_written_over_and_nothing_but_files(self):
        self.put("own.sheet", TIDE)
        for target in ("tide.toml", ".", "/dev/stdout"):
            self.expect(65, "is no file to write a sheet into", "write", "tide.toml", target)
        self.expect(65, "is no file to write a sheet into", "write", "own.sheet")
        self.assertEqual((self.folder / "tide.toml").read_text(), TIDE)
        self.assertEqual((self.folder / "own.sheet").read_text(), TIDE)

    def test_a_sheet_that_is_read_otherwise_is_not_kept(self):
        """Another sheet than was meant, a second program that reads another, and a file with something else in it."""
        other = "import sheet; text = sheet.Sheet.text\n"
        other += "sheet.Sheet.text = lambda each: text(each).replace('radius=671090', 'radius=671089')"
        reading = "import programs; second = programs.second\n"
        reading += "programs.second = lambda *given: second(*given).replace('tail=10', 'tail=11')"
        file = "import pathlib; put = pathlib.Path.write_text\n"
        file += "pathlib.Path.write_text = lambda path, text: put(path, text.replace('tol=838860', 'tol=838861'))"
        for change, targets in ((other, ([], ["-"])), (reading, ([], ["-"])), (file, ([],))):
            for target in targets:
                with self.subTest(change=change, target=target):
                    done = self.changed(change, "write", "tide.toml", *target)
                    self.assertEqual((done.returncode, done.stdout), (70, ""), done.stderr)
                    self.assertIn("does not say what was meant", done.stderr)
                    self.assertEqual([path.name for path in self.folder.iterdir()], ["tide.toml"])

    def test_no_reading(self):
        self.put("tide.toml", edited(("start = 1.60\n", "")))
        self.expect(0, "there is no reading, written none", "write", "tide.toml")
        self.assertIn("start=none\n", (self.folder / "tide.sheet").read_text())
        self.expect(4, "refused with 4", "show", "tide.toml")

    def test_where_nothing_can_be_written(self):
        self.expect(
            74,
            "passage: 'missing/tide.sheet' cannot be written: there is no folder 'missing'\n",
            "write",
            "tide.toml",
            "missing/tide.sheet",
        )
        self.expect(74, "there is no folder 'tide.toml'", "write", "tide.toml", "tide.toml/x")
        long = "x" * 300
        self.expect(74, f"'{long}' cannot be written: File name too long", "write", "tide.toml", long)
        self.expect(74, "", "draw", "tide.toml", "missing/tide.svg")

    def test_where_nobody_reads_or_nothing_fits(self):
        command = f"'{COMMAND}' show tide.toml"
        for words in (f"{command} | true; exit ${{PIPESTATUS[0]}}", f"{command} >/dev/full"):
            done = subprocess.run(["bash", "-c", words], cwd=self.folder, capture_output=True, text=True)
            self.assertIn(done.returncode, (0, 74))
            self.assertNotIn("Traceback", done.stderr)
            self.assertNotIn("Exception", done.stderr)
        self.assertEqual(done.returncode, 74)

    def test_line_ends_of_other_systems(self):
        (self.folder / "crlf.toml").write_bytes("\N{BYTE ORDER MARK}".encode() + TIDE.replace("\n", "\r\n").encode())
        self.expect(0, "crlf.sheet: written", "write", "crlf.toml")
        self.assertEqual(self.run_it("write", "tide.toml", "-").stdout, (self.folder / "crlf.sheet").read_text())


class Showing(Folder):
    def test_text_and_commas(self):
        done = self.expect(0, "water, over the sill (m)", "show", "tide.toml", "--of", "water")
        self.assertNotIn("rise (m)", done.stdout)
        self.expect(0, "clearance (m)", "show", "tide.toml")
        done = self.expect(
            0, "row,time,degree,water value (m)", "show", "tide.toml", "--csv", "--of", "water", "--of", "rise"
        )
        self.assertEqual(len(done.stdout.splitlines()), 7)

    def test_a_need_and_a_time_in_the_place_of_the_descriptions(self):
        self.expect(0, "clearance: at least 0.9 m from", "show", "tide.toml", "--need", "90 cm")
        self.expect(0, "nowhere for certain, for 30 min (3 rows in a row)", "show", "tide.toml", "--need", "3")
        self.expect(0, "for 50 min (5 rows in a row)", "show", "tide.toml", "--need", "3", "--for", "45 min")

    def test_the_windows_alone(self):
        done = self.expect(0, "clearance: at least 0.5 m from 08:00 to 09:00, for", "show", "tide.toml", "--brief")
        self.assertNotIn("degree", done.stdout)
        self.put("refused.toml", edited(('tolerance = "5 cm"', 'tolerance = "4.0002 cm"')))
        done = self.expect(8, "is refused with 8", "show", "refused.toml", "--brief", "--of", "water")
        self.assertTrue(done.stdout.startswith("clearance: "))
        self.assertNotIn("degree", done.stdout)
        self.put("unasked.toml", edited(("need = 0.5\n", "")))
        done = self.expect(0, "accepted: 6 rows; no need is asked for\n", "show", "unasked.toml", "--brief")

    def test_an_offset_stands_over_the_times(self):
        self.put("offset.toml", edited(("begin = 08:00:00", "begin = 2026-11-17 08:00+01:00")))
        done = self.expect(0, "from 2026-11-17 08:00 to 09:00,", "show", "offset.toml")
        self.assertIn("(the times are +01:00)\n", done.stdout)
        self.assertIn("time (+01:00)  degree", done.stdout)
        self.expect(0, "row,time (+01:00),degree", "show", "offset.toml", "--csv")

    def test_a_whole_that_serves_the_search(self):
        for entry, far in (("need = 0.5", "need = 33"), ("base = -1", "base = -4000")):
            self.put("far.toml", edited((entry, far)))
            done = self.expect(65, "is past the search's range, -32 m to 32 m: 'whole = ", "show", "far.toml")
            whole = re.search("'(whole = .*)' in .clearance. would serve", done.stderr).group(1)
            self.put("far.toml", edited((entry, far), ("[clearance]", f"[clearance]\n{whole}")))
            self.expect(0, "nowhere for certain", "show", "far.toml", "--brief")

    def test_a_refused_step_says_what_would_pass_and_without_the_second_program_that_it_does_not(self):
        self.put("refused.toml", edited(('step = "10 min"', 'step = "1 h"')))
        self.expect(7, "from there a step of 59 min 18.239 s would pass\n", "show", "refused.toml")
        none = "import programs\ndef second(*given): raise programs.Failed('cargo')\nprograms.second = second"
        done = self.changed(none, "show", "refused.toml")
        self.assertEqual((done.returncode, done.stderr), (7, ""))
        self.assertIn("is refused with 7: the step is too long", done.stdout)
        self.assertIn("(there is no closer explanation: the second program could not be built or run;", done.stdout)
        self.assertIn("Take shorter steps", done.stdout)
        other = "import programs; programs.second = lambda *given: 'result=8\\nat=1\\n'"
        done = self.changed(other, "show", "refused.toml")
        self.assertEqual((done.returncode, done.stderr), (7, ""))
        self.assertIn("(there is no closer explanation: the planner answers 7 at 1, and the second", done.stdout)

    def test_the_status_is_the_planners(self):
        self.put("refused.toml", edited(('step = "10 min"', 'step = "1 h"')))
        self.expect(7, "refused with 7", "show", "refused.toml")
        self.expect(7, "refused with 7", "explain", "refused.toml")
        done = self.expect(7, "row,time", "show", "refused.toml", "--csv")
        self.assertIn("refused with 7", done.stderr)

    def test_what_is_drawn_and_the_status(self):
        self.expect(0, "a.svg: clearance drawn\nb.png: clearance drawn\n", "draw", "tide.toml", "a.svg", "b.png")
        self.expect(0, "a.svg: rise drawn\n", "draw", "tide.toml", "a.svg", "--of", "rise")
        self.put(
            "plain.toml", TIDE[: TIDE.index("[clearance]")].replace('tolerance = "5 cm"', 'tolerance = "4.0002 cm"')
        )
        self.expect(8, "a.svg: water drawn\n", "draw", "plain.toml", "a.svg")

    def test_a_folder_with_an_apostrophe(self):
        odd = self.folder / "it's"
        odd.mkdir()
        done = self.run_it("draw", "tide.toml", "a b'.svg", env=os.environ | {"TMPDIR": str(odd)})
        self.assertEqual((done.returncode, done.stdout), (0, "a b'.svg: clearance drawn\n"), done.stderr)

    def test_streams_that_take_less(self):
        self.put("arrow.toml", edited(('title = "a tide"', 'title = "low → high"')))
        done = self.run_it("show", "arrow.toml", env=os.environ | {"PYTHONIOENCODING": "latin-1"}, encoding="latin-1")
        self.assertEqual((done.returncode, done.stderr), (0, ""))
        closed = subprocess.run(["bash", "-c", f"'{COMMAND}' show tide.toml >&-"], cwd=self.folder, capture_output=True)
        self.assertEqual(closed.returncode, 74)

    def test_a_fault_of_its_own_is_none_of_the_planners_numbers(self):
        done = self.changed("import plan; plan.plan = None", "show", "tide.toml")
        self.assertEqual(done.returncode, 70)
        self.assertIn("this is a fault of the command", done.stderr)

    def test_nothing_to_draw(self):
        self.put("unread.toml", edited(("start = 1.60\n", "")))
        self.expect(65, "there is nothing to draw: refused with 4", "draw", "unread.toml", "out.svg")

    def test_a_missing_program_is_named(self):
        path = Path(self.enterContext(tempfile.TemporaryDirectory()))
        for name in ("python3", "env"):
            (path / name).symlink_to(subprocess.run(["which", name], capture_output=True, text=True).stdout.strip())
        done = self.run_it("draw", "tide.toml", "out.svg", env={"PATH": str(path)})
        self.assertEqual(done.returncode, 70, done.stderr)


def blocks(text):
    """The page's fenced blocks: their kinds and their lines."""
    for found in re.finditer(r"^```(\w+)\n(.*?)^```$", text, re.MULTILINE | re.DOTALL):
        yield found.group(1), found.group(2)


def commands(block):
    """The commands of a console's block, each with the lines that it prints."""
    for part in re.split(r"^\$ ", block, flags=re.MULTILINE)[1:]:
        command, _, printed = part.partition("\n")
        yield command, printed


def pattern(printed):
    """What is printed, where a line of three points stands for any lines."""
    return re.compile(
        "".join(r"(.*\n)*?" if line == "...\n" else re.escape(line) for line in printed.splitlines(keepends=True))
    )


class Pages(unittest.TestCase):
    def test_the_companions_page_names_every_entry_unit_and_file(self):
        text = (programs.ROOT / "companion" / "README.md").read_text()
        entries = set().union(description.QUANTITY_ENTRIES, description.TIDE_ENTRIES, *description.ENTRIES.values())
        for entry in entries - {"constants", "accuracy", "time", "tide", "quantity", "clearance"}:
            self.assertIn(f"`{entry}`", text)
        for name in KNOWN.keys() - {"1"}:
            self.assertRegex(text, rf"(?<!\w){name}(?!\w)")
        for path in COMMAND.parent.iterdir():
            if path.name not in ("README.md", "__pycache__"):
                self.assertIn(f"`{path.name}{'/' * path.is_dir()}`", text)

    def test_the_front_page_shows_what_is_printed(self):
        done = subprocess.run(
            [COMMAND, "show", "sheets/approach-over-sill.toml", "--of", "clearance"],
            cwd=programs.ROOT,
            capture_output=True,
            text=True,
        )
        [sentence] = [line for line in done.stdout.splitlines() if line.startswith("under the keel: ")]
        self.assertIn(f"`{sentence}`", " ".join((programs.ROOT / "README.md").read_text().split()))

    def test_the_pilots_day(self):
        text = PAGE.read_text()
        tried = 0
        with tempfile.TemporaryDirectory() as folder:
            for name in ("companion", "scripts"):
                os.symlink(programs.ROOT / name, Path(folder) / name)
            for kind, block in blocks(text):
                if kind == "toml":
                    (Path(folder) / "day.toml").write_text(block)
                    continue
                for command, printed in commands(block):
                    with self.subTest(command=command):
                        done = subprocess.run(["bash", "-c", command], cwd=folder, capture_output=True, text=True)
                        self.assertIsNotNone(
                            pattern(printed).fullmatch(done.stdout + done.stderr), done.stdout + done.stderr
                        )
                        tried += 1
        self.assertEqual(tried, 20)
