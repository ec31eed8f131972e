"""The lines of a picture's texts. Nothing here can ask how broad a text is drawn, so each sign is counted as broad as
it is in the broadest of the usual fonts: a line may be shorter than it had to be, but is never cut."""

import unicodedata

EM = 15  # Pixels of the size of letters; the headline's are larger.
HEADLINE = 18
# Signs by how broad they are, in hundredths of that size.
CLASSES = {
    29: "il'",
    37: " j.,",
    46: "frtI:;!|()[]/-",
    62: "acekosvxyz",
    85: "ABCDEFGHJKLNOPQRSTUVXYZ+=<>~#^&$*w",
    102: "mMW@%",
}
BREADTHS = {sign: breadth for breadth, signs in CLASSES.items() for sign in signs}
USUAL, FOREIGN, DOUBLE = 65, 102, 130


def sign_breadth(sign):
    if sign.isascii():
        return BREADTHS.get(sign, USUAL)
    if unicodedata.category(sign) in ("Mn", "Me", "Cf"):  # Drawn upon another sign, or not at all.
        return 0
    return DOUBLE if unicodedata.east_asian_width(sign) in "WF" else FOREIGN


def pixels(text, size=EM):
    """How many pixels a text takes at the most."""
    return -(-sum(map(sign_breadth, text)) * size // 100)


def wrapped(text, most, size=EM):
    """A text in lines of so many pixels at the most: in as few as it takes, and these about equally long."""
    found = filled(text, most, size)
    while len(found) > 1 and len(shorter := filled(text, most := most - size, size)) == len(found):
        found = shorter
    return found


def filled(text, most, size):
    """A text in lines as long as can be, broken between words, and within a word that is longer than a line."""
    lines = [""]
    for word in text.split():
        joined = f"{lines[-1]} {word}".strip()
        if pixels(joined, size) <= most:
            lines[-1] = joined
        else:
            lines += pieces(word, most, size)
    return [line for line in lines if line]


def pieces(word, most, size):
    """A word in as many lines as it takes."""
    found = [""]
    for sign in word:
        if found[-1] and pixels(found[-1] + sign, size) > most:
            found.append("")
        found[-1] += sign
    return found
