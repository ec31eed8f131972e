"""What is wrong with a text that cannot be read as a description, in the words of who wrote it: the line, what stands
there, and what to write in its place."""

import re

from units import MINUS, OFF_BY, comma_words, measure

MOST_SHOWN = 60
TEXTS = ("title", "about", "unit", "rate")
TEXT = re.compile(r'"(?:[^"\\]|\\.)*"|\'[^\']*\'')
NAME = r'[\w.-]+|"[^"]*"'
ENTRY = re.compile(rf"(?P<name>{NAME})\s*=\s*(?P<value>.*)")
SPACES = re.compile("[\u00a0\u2000-\u200b\u202f\u205f\u2060\u3000\ufeff]")
QUOTES = re.compile("[\u2018-\u201f\u00ab\u00bb\u2032\u2033]")
DASHES = re.compile("[\u2010-\u2015]")
CLOCK = re.compile(
    r"(?P<day>\d{4}-\d\d-\d\d[T ])?(?P<hour>[01]?\d|2[0-3]):(?P<rest>[0-5]\d(?::[0-5]\d(?:\.\d{1,6})?)?)"
    r"(?: ?(?P<offset>Z|[+-](?:[01]\d|2[0-3]):[0-5]\d))?",
    re.ASCII,
)
TIMES = ("begin", "highest", "lowest")
BARE_TIME = re.compile(rf"(\s*(?:{'|'.join(TIMES)})\s*=\s*)({CLOCK.pattern})(\s*(?:#.*)?)", re.ASCII)
SHEET = re.compile(r"n=\d+\s+steps=\d+\s")
ANSWER = re.compile(r"row=1\s+degree=\d+\s|result=\d+\s+at=\d+\s*\Z")
DESCRIPTION = re.compile(r"^[ \t]*\[(?:time|quantity\b.*|clearance)\]", re.MULTILINE)


def is_description(text, is_named_so):
    """Whether a text has a heading of a description, which no sheet has; or else is named as one, and begins as no sheet
    does."""
    return DESCRIPTION.search(text) is not None or is_named_so and not SHEET.match(text)


def other_file(text):
    """What a text is instead of a description, where that can be seen at once; else None."""
    if not text.strip():
        return "the file is empty: a description has [time], a [quantity.NAME] and what stands under them"
    if SHEET.match(text):
        return "this is a sheet, and a description is wanted here; only passage explain takes a sheet"
    if ANSWER.match(text):
        return "this is an answer of the planner's, and a description is wanted here"
    if text.lstrip().startswith("<"):
        return "this is a picture or a page, and a description is wanted here"
    return None


def no_text(content):
    """What is said of a file's bytes that are no text in UTF-8, and the line of the first that is none."""
    if content.startswith((b"\xff\xfe", b"\xfe\xff")):
        return None, "this is text in UTF-16: save it as UTF-8"
    if b"\0" in content or content.startswith((b"\x89PNG", b"\xff\xd8", b"GIF8")):
        return None, "this is not text (a picture, perhaps), and a description is wanted here"
    for number, line in enumerate(content.split(b"\n"), 1):
        try:
            line.decode()
        except UnicodeDecodeError:
            return number, f"this is not text in UTF-8: save it as UTF-8; the line is '{shown(line.decode('latin-1'))}'"
    return None, "this is not text in UTF-8"


def mended(line):
    """A line 'begin = 20:30', or 'highest' or 'lowest', with its time between quotes, as TOML wants it; None for any
    other."""
    found = BARE_TIME.fullmatch(line)
    return f'{found.group(1)}"{found.group(2)}"{found.group(len(found.groups()))}' if found else None


def shown(line):
    """A line as it is told."""
    line = " ".join("".join(sign if sign.isprintable() else " " for sign in line).split())
    return line if len(line) <= MOST_SHOWN else line[:MOST_SHOWN] + "..."


def words(lines, number, said):
    """What is wrong on a line, counted from 1, of a text that TOML cannot read; said is what TOML has against it."""
    line = lines[number - 1]
    return f"in '{shown(line)}': {why(lines, number, said)}"


def why(lines, number, said):
    line = lines[number - 1]
    bare = without_comment(TEXT.sub('""', line))
    return (
        backslash_words(said)
        or sign_words(bare)
        or comma_words(bare)
        or heading_words(bare)
        or twice(lines, number, said)
        or entry_words(bare, without_comment(line))
        or "this is no entry of a description, as 'start = 1.60' or 'unit = \"m\"', and no heading, as '[time]'"
    )


def backslash_words(said):
    return "between \" and \" a \\ has to be doubled: \\\\" if "'\\'" in said or "escape" in said.lower() else None


def without_comment(line):
    """A line up to its comment; a # between quotes is none."""
    for found in re.finditer(rf"{TEXT.pattern}|#", line):
        if found.group() == "#":
            return line[: found.start()].strip()
    return line.strip()


def twice(lines, number, said):
    """What stands a second time, and where the first is."""
    bare = without_comment(lines[number - 1])
    inline = re.match(r"Duplicate inline table key '(.*)'", said)
    if inline:
        return f"'{inline.group(1)}' stands twice in this line"
    if said.startswith("Cannot declare") and bare.startswith("["):
        earlier = [place for place, line in enumerate(lines[: number - 1], 1) if without_comment(line) == bare]
        return f"the heading {bare} stands twice" + (f", first on line {earlier[0]}" if earlier else "")
    entry = ENTRY.match(bare)
    if not said.startswith("Cannot overwrite") or entry is None:
        return None
    for place in range(number - 1, 0, -1):
        earlier = ENTRY.match(without_comment(lines[place - 1]))
        if earlier and earlier.group("name") == entry.group("name"):
            return f"'{entry.group('name')}' stands twice under one heading, first on line {place}"
        if lines[place - 1].lstrip().startswith("["):
            break
    return f"'{entry.group('name')}' stands twice under one heading"


def sign_words(bare):
    """Signs that look like others."""
    if QUOTES.search(bare):
        found = " ".join(dict.fromkeys(QUOTES.findall(bare)))
        return f'the quotes {found} are typographic: write straight ones, " and "'
    if SPACES.search(bare):
        return "there is a space that is none, a no-break space perhaps: write a plain one"
    if MINUS in bare or DASHES.search(bare):
        return "there is a dash that is no minus: write a plain -"
    return None


def heading_words(bare):
    if bare.startswith("[") and not re.fullmatch(r"\[[^\[\]=]*\]", bare):
        return "a heading stands between [ and ], with nothing behind it"
    if bare.startswith("[") and not bare.isascii():
        return "a name has letters from a to z, digits and _"
    return "between [ and ] the name is missing" if re.fullmatch(r"\[\s*\]", bare) else None


def entry_words(bare, line):
    """What is wrong with an entry's name or with what it is."""
    entry = ENTRY.match(bare)
    if entry is None:
        return name_words(bare)
    name, value = entry.group("name", "value")
    given = ENTRY.match(line).group("value")
    if not value:
        return f"behind '{name} =' a number or a text is missing"
    if '"' in value.replace('""', "") or "'" in value:
        return 'a quote is missing: a text stands between " and "'
    if name in TIMES:
        return f"'{name}' is a time, as 20:30, or a day and a time, as 2026-11-17T20:30"
    if CLOCK.fullmatch(value):
        return f"{value} is a time, and '{name}' is none: times are {', '.join(TIMES[:-1])} and {TIMES[-1]}"
    if re.fullmatch(r"[+-]?\.\d+", value):
        return f"{value} has no digit before the point: write {value.replace('.', '0.')}"
    if re.fullmatch(r"[+-]?\d+\.", value):
        return f"{value} has no digit behind the point: write {value}0"
    if re.fullmatch(r"[+-]?0\d+(\.\d+)?", value):
        return f"{value} has a 0 too many in front"
    if value.startswith("{"):
        return "between { and } stand names, each with = and a number, parted by commas, as { water = 1, rise = -0.5 }"
    if '""' in value:
        return f"behind '{name} =' stands one number or one text"
    if name in TEXTS or measure(OFF_BY.sub("", given, count=1)):
        return f'{given} stands between quotes: write {name} = "{given}"'
    return f"{given} is no number: one is 1.60, or with a unit and between quotes \"4 cm\""


def name_words(bare):
    """A line without a name and an =."""
    colon = re.fullmatch(rf"({NAME})\s*:\s*(\S.*)", bare)
    if colon and not colon.group(1).isdigit():
        return f"an entry has = and no colon: write {colon.group(1)} = ..."
    if re.match(rf"({NAME})(\s|$)", bare) and "=" not in bare:
        return "'=' is missing, between a name and what it is"
    if bare.startswith("="):
        return "before '=' the name is missing"
    return None


def unended(lines):
    """The line of a text over several lines that has no end, and what to say of it; None where there is none."""
    opened = None
    for number, line in enumerate(lines, 1):
        for mark in re.findall(r'"""|\'\'\'', line):
            opened = None if opened and opened[1] == mark else opened or (number, mark)
    if opened is None:
        return None
    number, mark = opened
    return number, f"in '{shown(lines[number - 1])}': the text that begins with {mark} has no {mark} at its end"
