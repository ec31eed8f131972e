"""A picture of one quantity or of the clearance over time, drawn by gnuplot as SVG or PNG: the sill in black, what is
drawn in red, value and radius at the rows, low to high within each step, every clear run in green, a refused step
hatched; and in words over it what the marks say, and under it what they are."""

from fractions import Fraction

from axis import number_marks, numbers_across, time_heading, times_across
from lines import pixels, wrapped
from page import EDGE, GAP, LINE_HEIGHT, PLOT, RIGHT, WIDTH, Page, across, box, number, upright
from show import clear_words, end_words, refusal_words, title
from units import at_least, with_unit

# gnuplot's kind of picture, an option of it, and the points of its letters, by a file's ending.
KINDS = {".svg": ("svg", "dynamic", 13), ".png": ("pngcairo", "", 11)}
BAND, LINE, SILL, CLEAR, REFUSED, NEED = "#f6c0c0", "#c00000", "#000000", "#009e73", "#8a8a8a", "#2a7fd4"
CLEAR_STYLE = f"fc rgb '{CLEAR}' fillstyle transparent solid 0.18 border lc rgb '{CLEAR}'"
REFUSED_STYLE = f"fc rgb '{REFUSED}' fillstyle pattern 5 border lc rgb '{REFUSED}'"
SILL_STYLE = f"fc rgb '{SILL}' fillstyle solid 1 noborder"
BAND_STYLE = f"fc rgb '{BAND}' fillstyle solid 1 noborder"
NEED_STYLE = f"dashtype 2 linewidth 2 linecolor rgb '{NEED}'"
VALUE_STYLE = f"linewidth 1.5 linecolor rgb '{LINE}'"
BROADEST_BAR = 5
MARGIN = Fraction(1, 20)
MOST_HEIGHTS = 10  # Marks of the upright axis.
MOST_BESIDE = 6  # Lines of the label beside it.
MOST_WINDOWS = 6  # That are told one by one.


class Picture:
    """What is drawn, in the subject's unit over the clock's seconds or the description's time."""

    def __init__(self, plan, search, subject):
        self.plan, self.search, self.subject = plan, search, subject
        self.clock = plan.clock
        self.need = search.need if search is not None and subject.is_clearance else None
        self.sill = subject.sill
        self.runs = () if search is None else search.runs
        self.refused = plan.answer.at or None
        self.last = max(len(subject.cells), self.refused or 0)
        self.left, self.right = self.times(0, self.last)
        self.least, self.most = self.extent()
        self.heights = number_marks(self.least, self.most, MOST_HEIGHTS)
        label = wrapped(title(subject), PLOT)
        self.label = label if len(label) <= MOST_BESIDE else []
        self.beside = EDGE + len(self.label) * LINE_HEIGHT + max(pixels(text) for _, [text] in self.heights) + GAP
        broad = WIDTH - RIGHT - self.beside
        self.marks = self.time_marks(broad)
        self.bar = min(BROADEST_BAR, max(1, Fraction(broad, 2 * self.last)))
        self.radius_style = f"linewidth {number(self.bar)} linecolor rgb '{LINE}'"

    def time_marks(self, broad):
        if self.clock.is_clock:
            return times_across(self.clock, self.left, self.right, broad)
        return numbers_across(self.left, self.right, broad)

    def extent(self):
        """The least and the most height of the picture, at least two of the last place that a table has apart."""
        cells = ([self.subject.start] if self.subject.start else []) + list(self.subject.cells)
        found = [height for cell in cells for height in (cell.low, cell.high, cell.least, cell.most)]
        found += [height for height in (self.need, self.sill) if height is not None]
        least, most = min(found), max(found)
        room = max((most - least) * MARGIN, Fraction(1, 10**self.subject.digits) - (most - least) / 2)
        return least - room, most + room

    def times(self, first, last):
        """A span of rows on the time axis, earlier time first."""
        return sorted((self.clock.seconds(first), self.clock.seconds(last)))

    def boxes(self):
        """The boxes behind the curves: every clear run, a refused step, and the sill from its height downward."""
        for first, last in self.runs:
            yield self.times(first - 1, last), (self.least, self.most), CLEAR_STYLE
        if self.refused is not None:
            yield self.times(self.refused - 1, self.refused), (self.least, self.most), REFUSED_STYLE
        if self.sill is not None:
            yield (self.left, self.right), (self.least, self.sill), SILL_STYLE

    def objects(self):
        for (left, right), (bottom, top), style in self.boxes():
            corners = f"from {number(left)},{number(bottom)} to {number(right)},{number(top)}"
            yield f"set object rectangle {corners} {style} back"

    def notes(self):
        """What the marks say, under the headline: where it is clear, from when on nothing is called so, and why a step
        was refused; before that what is drawn, where it has no room beside the plot."""
        drawn = [] if self.label else [title(self.subject)]
        ending = end_words(self.plan)
        return [*drawn, *self.clear_notes(), *ending, *refusal_words(self.plan)[:1]]

    def clear_notes(self):
        """A sentence for each clear run; of very many the first, and how many more there are."""
        if self.search is None:
            return []
        said, runs = clear_words(self.plan, self.search), len(self.runs)
        if runs <= MOST_WINDOWS:
            return said
        return [*said[:MOST_WINDOWS], f"and {runs - MOST_WINDOWS} times more, each in green", *said[runs:]]

    def legend(self):
        """What each mark is, where there is such a mark: how it is drawn, and its words."""
        if self.subject.cells:
            yield box(BAND_STYLE), "low to high, all through the step"
            yield across(VALUE_STYLE), self.subject.name
        yield upright(self.radius_style), "value and radius, at the row"
        if self.need is not None:
            yield across(NEED_STYLE), f"need, {with_unit(at_least(self.need), self.subject.unit)}"
        if self.sill is not None:
            yield box(SILL_STYLE), "sill"
        if self.runs:
            clear = "clear, for certain" if self.subject.is_clearance else "the clearance is enough, for certain"
            yield box(CLEAR_STYLE), clear
        if self.refused is not None:
            yield box(REFUSED_STYLE), "refused step"

    def data(self):
        """Blocks of data: each step with its low and high, each row with its value and radius, the values joined."""
        bands = ((*self.times(row - 1, row), cell.low, cell.high) for row, cell in enumerate(self.subject.cells, 1))
        yield from block("$steps", bands)
        start = [self.subject.start] if self.subject.start else []
        first = 0 if start else 1
        rows = [
            (self.clock.seconds(row), cell.value, cell.least, cell.most)
            for row, cell in enumerate([*start, *self.subject.cells], first)
        ]
        yield from block("$rows", rows)

    def axes(self):
        yield f"set xrange [{number(self.left)}:{number(self.right)}]"
        yield f"set yrange [{number(self.least)}:{number(self.most)}]"
        yield f"set xtics ({', '.join(map(mark_text, self.marks))})"
        yield f"set ytics ({', '.join(map(mark_text, self.heights))})"
        yield "set tics textcolor rgb 'black'"

    def plots(self):
        """The curves, the widest first."""
        if self.subject.cells:
            yield f"$steps using 1:3:1:2:3:4 with boxxyerror {BAND_STYLE}"
        if self.sill is not None:
            yield f"{number(self.sill)} with lines linewidth 3 linecolor rgb '{SILL}'"
        if self.need is not None:
            yield f"{number(self.need)} with lines {NEED_STYLE}"
        yield f"$rows using 1:2 with lines {VALUE_STYLE}"
        yield f"$rows using 1:3:(0):($4-$3) with vectors nohead {self.radius_style}"
        yield f"$rows using 1:2 with points pointtype 7 pointsize {number(self.bar / 12)} linecolor rgb '{LINE}'"

    def script(self, file, ending):
        kind, option, points = KINDS[ending]
        page = self.page(points)
        size = f"size {WIDTH},{page.down}"
        yield "set encoding utf8"
        yield f"set terminal {kind} {size} {option} enhanced font 'sans,{points}' background rgb 'white'"
        yield f"set output '{file}'"
        yield from self.data()
        yield "unset key"
        yield "set grid linetype 1 linewidth 0.7 linecolor rgb '#dddddd'"
        yield "set border linecolor rgb '#666666'"
        yield from self.axes()
        yield from self.objects()
        yield from page.commands()
        yield "plot " + ", ".join(self.plots())

    def page(self, points):
        """The texts and the plot, from the top to the bottom."""
        page = Page(points)
        page.skip(GAP)
        page.headline(self.plan.description.title or title(self.subject))
        for note in self.notes():
            page.centred(note)
        page.skip(GAP)
        page.plot(self.beside, self.label)
        page.skip(GAP + LINE_HEIGHT * max((len(lines) for _, lines in self.marks), default=0))
        page.centred(time_heading(self.clock, self.left, self.right))
        page.skip(GAP)
        page.legend(list(self.legend()))
        page.skip(GAP)
        return page


def mark_text(mark):
    """A mark of an axis for gnuplot: what stands there, in one line or two, and where."""
    place, lines = mark
    return '"' + r"\n".join(lines) + f'" {number(place)}'


def block(name, lines):
    yield f"{name} << END"
    yield from (" ".join(map(number, line)) for line in lines)
    yield "END"


def is_whole(picture, ending):
    """Whether a picture's bytes end as those of its kind do. gnuplot does not say so where a disk is full."""
    return picture.rstrip().endswith(b"</svg>") if ending == ".svg" else picture.endswith(b"IEND\xaeB`\x82")


def script(plan, search, subject, file, ending):
    """gnuplot's script for one picture."""
    return "\n".join(Picture(plan, search, subject).script(file, ending)) + "\n"
