"""What the command looks at before anything is proved, and what it says where something is missing. Nothing is proved here: it
runs in a repository of stand-ins, where rt keeps what it is asked and proves nothing."""

import ast
import io
import os
import shutil
import signal
import subprocess
import tempfile
import time
import unittest
from contextlib import redirect_stderr
from pathlib import Path
from unittest import mock

import programs
from samples import TIDE, edited

RT = '#!/bin/sh\n[ "$1" != version ] || {{ echo a stand-in; exit; }}\necho "$*" >>"{asked}"\necho "rt: not proved"\nexit 1\n'


def stand_in(folder, name, text):
    folder.mkdir(exist_ok=True)
    (folder / name).write_text(text)
    (folder / name).chmod(0o755)


class Repository(unittest.TestCase):
    """The command in a repository where nothing is built, and a description."""

    def setUp(self):
        self.folder = Path(self.enterContext(tempfile.TemporaryDirectory()))
        for name in ("companion", "scripts"):
            shutil.copytree(programs.ROOT / name, self.folder / name)
        (self.folder / "crates.txt").write_text("planner:\n")
        source = self.folder / "crates" / "planner" / "src" / "main.rt"
        source.parent.mkdir(parents=True)
        source.write_text("// the code\n")
        self.asked = self.folder / "asked"
        stand_in(self.folder / "bin", "rt", RT.format(asked=self.asked))
        (self.folder / "tide.toml").write_text(TIDE)

    def run_it(self, *words, **settings):
        return subprocess.run(
            [self.folder / "companion" / "passage", *words],
            cwd=self.folder,
            env=os.environ | {"PATH": f"{self.folder / 'bin'}:{os.environ['PATH']}"} | settings,
            capture_output=True,
            text=True,
        )

    def expect(self, status, said, *words):
        done = self.run_it(*words)
        self.assertEqual((done.returncode, done.stdout), (status, ""), done.stderr)
        self.assertIn(said, done.stderr)
        self.assertNotIn("Traceback", done.stderr)
        return done


class Before(Repository):
    def test_what_is_refused_is_refused_before_anything_is_proved(self):
        (self.folder / "wrong.toml").write_text(edited(('rate = "m2 * fall"\n', 'rate = "m2 * nothing"\n')))
        (self.folder / "far.toml").write_text(edited(("need = 0.5", "need = 50")))
        (self.folder / "fast.toml").write_text(edited(('m2 = "28.9841042 deg/h"', 'm2 = "9999 deg/h"')))
        cases = (
            (66, "nosuch.toml", "show", "nosuch.toml"),
            (65, "wrong.toml:19: ", "show", "wrong.toml"),
            (65, "wrong.toml:19: ", "draw", "wrong.toml", "out.svg"),
            (65, "wrong.toml:19: ", "write", "wrong.toml"),
            (65, "wrong.toml:19: ", "explain", "wrong.toml"),
            (65, "far.toml:41: ", "show", "far.toml"),
            (65, "need", "show", "tide.toml", "--need", "50"),
            (65, "fast.toml:19: ", "show", "fast.toml"),
            (65, "fast.toml:19: ", "explain", "fast.toml"),
            (65, "there is no 'nosuch' here; there are rise, fall, water, clearance", "show", "tide.toml", "--of", "nosuch"),
            (65, "there is no 'nosuch' here", "draw", "tide.toml", "out.svg", "--of", "nosuch"),
            (65, "ends neither in .svg nor in .png", "draw", "tide.toml", "out.pdf"),
            (74, "'no/out.svg' cannot be written: there is no folder 'no'", "draw", "tide.toml", "out.png", "no/out.svg"),
            (74, "'no/a.sheet' cannot be written: there is no folder 'no'", "write", "tide.toml", "no/a.sheet"),
        )
        for status, said, *words in cases:
            with self.subTest(words=words):
                self.expect(status, said, *words)
                self.assertFalse(self.asked.exists())
        self.assertFalse((self.folder / "target").exists())
        self.expect(70, "the planner could not be proved and built", "show", "tide.toml")
        self.assertEqual(self.asked.read_text(), "run\n")

    def test_a_folder_that_may_not_be_written_to(self):
        """The question is answered for root, who may write everywhere, as for others."""
        command = self.folder / "companion" / "passage"
        code = "import os, runpy, sys; os.access = lambda *_: False; sys.argv[1:] = ['draw', 'tide.toml', './a.svg']\n"
        code += f"runpy.run_path({str(command)!r}, run_name='__main__')"
        done = subprocess.run(["python3", "-c", code], cwd=self.folder, capture_output=True, text=True)
        told = "passage: './a.svg' cannot be written: you may not write there\n"
        self.assertEqual((done.returncode, done.stdout, done.stderr), (74, "", told))

    def test_what_is_missing_is_told_before_anything_is_proved(self):
        tools = self.folder / "tools"
        tools.mkdir()
        for name in "bash sh env python3 find sort xargs sha256sum cut awk grep sed tr id dirname readlink cat mkdir".split():
            (tools / name).symlink_to(shutil.which(name))
        (tools / "rt").symlink_to(self.folder / "bin" / "rt")
        for words, missing in (
            (("draw", "tide.toml", "out.svg"), "ar nm gcc gnuplot; on Debian: *apt-get install binutils gcc gnuplot-nox libc6-dev"),
            (("show", "tide.toml"), "ar nm gcc; on Debian: *apt-get install binutils gcc libc6-dev"),
            (("write", "tide.toml"), "cargo gcc; on Debian: *apt-get install cargo gcc libc6-dev"),
            (("explain", "tide.toml"), "cargo gcc; on Debian: *apt-get install cargo gcc libc6-dev"),
        ):
            with self.subTest(words=words):
                done = self.run_it(*words, PATH=str(tools), PLANNER_INSTALL="no")
                self.assertEqual((done.returncode, done.stdout), (70, ""), done.stderr)
                self.assertRegex(done.stderr, "^passage: missing: " + missing.replace("*", "(sudo )?") + "\n$")
                self.assertFalse(self.asked.exists())
        (tools / "rt").unlink()
        done = self.run_it("show", "tide.toml", PATH=str(tools), PLANNER_INSTALL="no")
        self.assertIn("passage: rt, the command of Rattle's toolchain, is not on the PATH", done.stderr)

    def test_an_interrupted_proof_is_no_refusal(self):
        stand_in(self.folder / "bin", "rt", '#!/bin/sh\n[ "$1" != version ] || exit 0\n: >../../started\nsleep 20\n')
        command = [self.folder / "companion" / "passage", "show", "tide.toml"]
        path = f"{self.folder / 'bin'}:{os.environ['PATH']}"
        # Who runs the tests in the background may have had the signal ignored, and so would all that is started from here.
        started = subprocess.Popen(
            command, cwd=self.folder, env=os.environ | {"PATH": path}, stderr=subprocess.PIPE, start_new_session=True,
            preexec_fn=lambda: signal.signal(signal.SIGINT, signal.SIG_DFL),
        )
        while not (self.folder / "started").exists():
            time.sleep(0.05)
        os.killpg(started.pid, signal.SIGINT)
        said = started.communicate()[1].decode()
        self.assertEqual(started.returncode, 130, said)
        self.assertIn("passage: interrupted", said)
        self.assertNotIn("Traceback", said)
        # What built has heard of it at the same time, and takes its folder away when it has.
        for _ in range(100):
            if not list((self.folder / "target" / "built").iterdir()):
                break
            time.sleep(0.05)
        self.assertEqual(list((self.folder / "target" / "built").iterdir()), [])

    def test_an_older_python_is_told_in_one_line(self):
        command = self.folder / "companion" / "passage"
        ast.parse(command.read_text(), feature_version=(3, 6))
        code = f"import runpy, sys; sys.version_info = (3, 9, 2, 'final', 0); runpy.run_path({str(command)!r}, run_name='__main__')"
        done = subprocess.run(["python3", "-c", code], capture_output=True, text=True)
        told = "passage: the companion needs Python 3.11 or later; this is 3.9\n"
        self.assertEqual((done.returncode, done.stdout, done.stderr), (70, "", told))


class Run(unittest.TestCase):
    def test_what_is_ready_is_not_asked_again(self):
        with mock.patch.object(programs, "_ready", set()), mock.patch.object(subprocess, "run") as run:
            run.return_value.returncode = 0
            programs.ready("planner", "search", runs=("gnuplot",))
            programs.ready("search")
            programs.ready("second")
            asked = [call.args[0][1:] for call in run.call_args_list]
            self.assertEqual(
                asked, [["--as", "passage", "--with", "gnuplot", "planner", "search"], ["--as", "passage", "second"]]
            )
            run.return_value.returncode = 70
            with self.assertRaisesRegex(programs.Failed, "^$"):
                programs.ready("library")
            with self.assertRaisesRegex(programs.Failed, "^$"):
                programs.ready("library")

    def test_a_planner_without_an_answer_fails(self):
        with mock.patch.object(programs, "PLANNER", "cat"), self.assertRaisesRegex(programs.Failed, "no answer"):
            programs.plan(b"row=1\n")

    def test_a_long_drawing_says_why(self):
        folder = Path(self.enterContext(tempfile.TemporaryDirectory()))
        stand_in(folder / "bin", "gnuplot", "#!/bin/sh\nsleep 0.5\n")
        self.enterContext(mock.patch.dict(os.environ, PATH=f"{folder / 'bin'}:{os.environ['PATH']}"))
        for patience, said in ((0.05, "fonts"), (30, "")):
            with self.subTest(patience=patience), mock.patch.object(programs, "PATIENCE", patience):
                words = io.StringIO()
                programs.ready(runs=("gnuplot",))
                with redirect_stderr(words):
                    programs.gnuplot("", folder)
                self.assertIn(said, words.getvalue())
                self.assertEqual(bool(said), bool(words.getvalue()))
