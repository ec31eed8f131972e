"""The programs that the numbers come from, each proved and built where its sources have changed: the proved planner, the
proved search and the second program; and gnuplot, which draws. Nothing here works out a number."""

import subprocess
import sys
from pathlib import Path
from threading import Timer

from answer import parsed

ROOT = Path(__file__).resolve().parent.parent
PLANNER = ROOT / "target" / "bin" / "planner"
SEARCH = ROOT / "target" / "companion" / "search"
SECOND = ROOT / "target" / "companion" / "second"
UNBUILT = 70  # scripts/build has said why.
PATIENCE = 3  # Seconds without a word.


class Failed(Exception):
    """A program that could not be built or run, in words; none where they have been said."""


def run(command, given=b"", folder=ROOT, statuses=(0,)):
    """What a program prints. It must end with one of the statuses; else what it said is passed on."""
    try:
        done = subprocess.run(command, input=given, capture_output=True, cwd=folder)
    except FileNotFoundError as error:
        raise Failed(f"there is no program '{command[0]}' (companion/README.md has what to install)") from error
    if done.returncode not in statuses:
        words = (done.stdout + done.stderr).decode(errors="replace").strip()
        raise Failed(
            f"'{' '.join(map(str, command))}' failed with {done.returncode}" + (f":\n{words}" if words else "")
        )
    return done.stdout


def say(words):
    print(f"passage: {words}", file=sys.stderr)


_ready = set()


def ready(*wanted, runs=()):
    """Has what is wanted proved and built where it is not there for today's sources, and looks for the programs that are
    run besides. scripts/build does it, and says itself what it does, what is missing, and where it fails: before anything
    is proved."""
    if _ready.issuperset({*wanted, *runs}):
        return
    named = [word for program in runs for word in ("--with", program)]
    words = [ROOT / "scripts" / "build", "--as", "passage", *named, *wanted]
    status = subprocess.run(words, stdin=subprocess.DEVNULL, stdout=sys.stderr).returncode
    if status:
        raise Failed("" if status == UNBUILT else f"scripts/build failed with {status}")
    _ready.update(wanted, runs)


def plan(sheet):
    """The proved planner's answer to a sheet's bytes."""
    ready("planner")
    try:
        return parsed(run([PLANNER], sheet).decode())
    except ValueError as error:
        raise Failed(f"the planner printed no answer: {error}") from error


def search(sheet, query):
    """The rows that are certain to clear their needs, by the proved search, or the number with which it refuses the
    query; and the result and the step with which the passage ended whose rows it looked through."""
    ready("planner", "search")
    words = [query.base, *query.weights, ":", *query.needs]
    *found, result, at = (
        line.split("=") for line in run([SEARCH, *map(str, words)], sheet).decode().splitlines()
    )
    refused = [int(number) for key, number in found if key == "refused"]
    return refused[0] if refused else [int(number) for _, number in found], (int(result[1]), int(at[1]))


def second(command, sheet, statuses=(0,)):
    """What the second program prints of a sheet's bytes."""
    ready("second")
    return run([SECOND, command], sheet, statuses=statuses).decode()


def gnuplot(script, folder):
    """Runs a script in the folder that it draws into."""
    ready(runs=("gnuplot",))
    waiting = Timer(PATIENCE, say, ["drawing: the first time gnuplot looks through this machine's fonts, up to a minute"])
    waiting.start()
    try:
        return run(["gnuplot", "-"], script.encode(), folder)
    finally:
        waiting.cancel()
