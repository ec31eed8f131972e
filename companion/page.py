"""A page of a picture: its texts, its plot and its legend laid from the top to the bottom, as commands for gnuplot."""

from fractions import Fraction

from lines import EM, HEADLINE, wrapped

# Pixels. A page is as high as what is laid on it.
WIDTH, PLOT, EDGE, RIGHT = 960, 400, 16, 44
LINE_HEIGHT, HEADLINE_HEIGHT, GAP = 20, 25, 8
SWATCH, COLUMNS = 44, 2
HEADLINE_MORE = 2  # Points by which the headline's letters are larger.
# What would mean something to gnuplot, and what is drawn in its place.
LOOK_ALIKE = {"'": "\N{RIGHT SINGLE QUOTATION MARK}", "`": "\N{LEFT SINGLE QUOTATION MARK}", "\\": "\N{SET MINUS}"}


def quoted(text):
    """A text for gnuplot, between apostrophes, of which it has none of its own left: nothing in it is a command."""
    plain = "".join(LOOK_ALIKE.get(sign, sign) if sign.isprintable() else " " for sign in text)
    return f"'{plain}' noenhanced"


def number(fraction):
    return f"{float(fraction):.15g}"


class Page:
    """What stands where, in pixels from the upper left corner. gnuplot counts from below, and how high the page is
    comes out last: so each command waits for that."""

    def __init__(self, points):
        self.points, self.down, self.waiting = points, 0, []

    def skip(self, pixels):
        self.down += pixels

    def commands(self):
        return [command() for command in self.waiting]

    def place(self, right, down):
        """A place for gnuplot."""
        return f"screen {self.across(right)},screen {self.upward(down)}"

    def across(self, right):
        return number(Fraction(right, WIDTH))

    def upward(self, down):
        return number(1 - Fraction(down, self.down))

    def text(self, line, right, down, how):
        self.waiting.append(lambda: f"set label {quoted(line)} at {self.place(right, down)} {how}")

    def centred(self, text, size=EM, height=LINE_HEIGHT, how="center"):
        """A text in as many lines as it takes."""
        for line in wrapped(text, WIDTH - 2 * EDGE, size):
            self.text(line, WIDTH // 2, self.down + height // 2, how)
            self.skip(height)

    def headline(self, text):
        self.centred(text, HEADLINE, HEADLINE_HEIGHT, f"center font ',{self.points + HEADLINE_MORE}'")

    def plot(self, beside, label):
        """Leaves room for the plot, so far from the left, with the lines of a label upright beside it."""
        top, bottom = self.down, self.down + PLOT
        for count, line in enumerate(label):
            self.text(line, EDGE + LINE_HEIGHT * count, (top + bottom) // 2, "center rotate by 90")
        self.waiting += [
            lambda: f"set lmargin at screen {self.across(beside)}",
            lambda: f"set rmargin at screen {self.across(WIDTH - RIGHT)}",
            lambda: f"set tmargin at screen {self.upward(top)}",
            lambda: f"set bmargin at screen {self.upward(bottom)}",
        ]
        self.skip(PLOT)

    def legend(self, entries):
        """Marks with their words, in columns."""
        for first in range(0, len(entries), COLUMNS):
            row = entries[first : first + COLUMNS]
            self.skip(max(self.entry(column, *entry) for column, entry in enumerate(row)))

    def entry(self, column, mark, words):
        """One mark with its words; how high they are."""
        breadth = (WIDTH - 2 * EDGE) // COLUMNS
        left, middle = EDGE + column * breadth + EM, self.down + LINE_HEIGHT // 2
        self.waiting.append(lambda: mark(self.place, left, middle))
        lines = wrapped(words, breadth - SWATCH - 4 * EM)
        for count, line in enumerate(lines):
            self.text(line, left + SWATCH + EM, middle + LINE_HEIGHT * count, "left")
        return LINE_HEIGHT * len(lines)


def box(style):
    """A mark of the legend: a box, filled as what it stands for."""

    def drawn(place, left, down):
        return f"set object rectangle from {place(left, down + 6)} to {place(left + SWATCH, down - 6)} {style}"

    return drawn


def across(style):
    """A line from left to right."""

    def drawn(place, left, down):
        return f"set arrow from {place(left, down)} to {place(left + SWATCH, down)} nohead {style}"

    return drawn


def upright(style):
    """A bar."""

    def drawn(place, left, down):
        right = left + SWATCH // 2
        return f"set arrow from {place(right, down + 8)} to {place(right, down - 8)} nohead {style}"

    return drawn
