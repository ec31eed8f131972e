"""Which signs this machine has letters for. Where it has none gnuplot's PNG has a blot in their place, larger than the
picture; in an SVG the letters are those of whoever looks at it."""

from functools import cache

import programs

STAND_IN = "?"


@cache
def has_letter(sign):
    """Whether a font of this machine has the sign. Where nobody can be asked, it is taken to be so."""
    if sign.isascii():
        return True
    try:
        return bool(programs.run(["fc-list", f":charset={ord(sign):x}", "family"]).strip())
    except programs.Failed:
        return True


def missing(text):
    """The signs of a text that no font has, each once."""
    return [sign for sign in dict.fromkeys(text) if not has_letter(sign)]


def without(text, signs):
    return "".join(STAND_IN if sign in signs else sign for sign in text)
