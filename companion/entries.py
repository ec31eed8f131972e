"""A TOML text as entries, each with the line on which it stands, and the refusal that names a line."""

import re
import tomllib
from decimal import Decimal

import slips


class Refused(Exception):
    """A description that cannot be taken: why, and on which line (None where no line is to blame)."""

    def __init__(self, line, why):
        super().__init__(why)
        self.line, self.why = line, why

    def words(self, name):
        return f"{name}: {self.why}" if self.line is None else f"{name}:{self.line}: {self.why}"


UNREADABLE = (ValueError, ArithmeticError, RecursionError)


def loaded(text):
    return tomllib.loads(text, parse_float=Decimal)


def parse(text):
    """The text's tables. Its decimals are exact: none becomes a binary fraction."""
    try:
        return loaded(text)
    except tomllib.TOMLDecodeError as error:
        raise Refused(*slip(text, str(error))) from error
    except UNREADABLE as error:
        raise Refused(None, "there is a number too long, or tables too deep, for a description") from error


def slip(text, said):
    """The line of what TOML cannot read, None where it is not known, and what is wrong there."""
    lines = text.split("\n")
    found = re.search(r"\(at line (\d+), column \d+\)", said)
    number = int(found.group(1)) if found else len(lines)
    if not found and slips.unended(lines):
        return slips.unended(lines)
    while number > 1 and not lines[number - 1].strip():
        number -= 1
    return number, slips.words(lines, number, said)


def mended(text):
    """The text with the time of each 'begin = 20:30' between quotes. TOML itself has said that it cannot read that
    line: so it is none of a text over several lines."""
    while True:
        try:
            loaded(text)
            return text
        except tomllib.TOMLDecodeError as error:
            lines = text.split("\n")
            number, _ = slip(text, str(error))
        except UNREADABLE:
            return text
        line = slips.mended(lines[number - 1])
        if line is None:
            return text
        lines[number - 1] = line
        text = "\n".join(lines)


def names(table):
    """The names that lead into nested tables as far as each holds but one."""
    path = ()
    while isinstance(table, dict) and len(table) == 1:
        [(name, table)] = table.items()
        path += (name,)
    return path


def statements(text):
    """The text's statements: of each the first line, counted from 1, how many lines it has, and what TOML reads in it
    alone. Where one ends is TOML's to say: the first line with which the statement can be read."""
    lines = text.split("\n")
    place = 0
    while place < len(lines):
        for last in range(place, len(lines)):
            try:
                table = loaded("\n".join(lines[place : last + 1]))
            except UNREADABLE:
                continue
            if table:
                yield place + 1, last + 1 - place, table
            break
        place = last + 1


class Lines:
    """On which lines the entries of a text stand that TOML can read."""

    def __init__(self, text):
        self.found = {}
        inside = ()
        for line, count, table in statements(text):
            path = names(table)
            is_heading = text.split("\n")[line - 1].lstrip().startswith("[")
            inside, path = (path, ()) if is_heading else (inside, path)
            for depth in range(1, len(inside + path) + 1):
                self.found.setdefault((inside + path)[:depth], (line, count))

    def line(self, *path):
        """The line of an entry; of one that is not there, that of the table in which it is missed."""
        while path and path not in self.found:
            path = path[:-1]
        return self.found[path][0] if path else None

    def line_within(self, path, string, place):
        """The line of a place in an entry's string, which may go over several lines."""
        line, count = self.found.get(path, (self.line(*path), 1))
        opening = (
            count - 1 - string.count("\n")
        )  # Lines above the string's first: of other forms the place is not known.
        return line + opening + string.count("\n", 0, place) if opening in (0, 1) else line
