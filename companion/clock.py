"""The times of the rows: on the clock where the description has one, else as plain numbers of its unit of time. Row j
stands at j times the description's step. The sheet's step is that step rounded, which `write` has said."""

import datetime
from fractions import Fraction
from math import ceil, floor

from units import decimal, near, unit, with_unit

SECOND = unit("s")
# Places behind the second that are shown at most, but for steps of less than ten of the last. Plain numbers have as many
# more.
FINEST = 3


class Clock:
    """A description's clock."""

    def __init__(self, time):
        self.time = time
        self.is_clock = time.begin is not None
        instants = [self.seconds(row) for row in range(time.steps + 1)]
        most = self.finest() + (0 if self.is_clock else FINEST)
        self.digits = next((digits for digits in range(most) if all(is_whole(s * 10**digits) for s in instants)), most)
        self.in_minutes = self.is_clock and all(is_whole(instant / 60) for instant in instants)

    def finest(self):
        """How many places are shown at most: so many that every window begins before it ends."""
        step, places = abs(self.seconds(1) - self.seconds(0)), FINEST
        while step * 10**places < 10:
            places += 1
        return places

    def seconds(self, row):
        """A row's time: seconds since midnight of the first day, or in the unit of time from the start."""
        since = row * self.time.step
        if not self.is_clock:
            return since
        begin = self.time.begin
        midnight = datetime.datetime.combine(begin.date(), datetime.time())
        passed = begin - midnight
        return passed.seconds + Fraction(passed.microseconds, 10**6) + since * unit(self.time.scale.unit).size

    def text(self, row, rounded=near):
        """A row's time. A window is told with its beginning rounded up and its end rounded down."""
        if not self.is_clock:
            return decimal(self.seconds(row), self.digits, rounded)
        parts = rounded(self.seconds(row) * 10**self.digits)
        day, within = divmod(parts, 86400 * 10**self.digits)
        seconds, part = divmod(within, 10**self.digits)
        hours, minutes, seconds = seconds // 3600, seconds // 60 % 60, seconds % 60
        told = f"{hours:02}:{minutes:02}"
        if not self.in_minutes:
            told += f":{seconds:02}" + (f".{part:0{self.digits}}" if self.digits else "")
        return self.on_day(day, told)

    def told(self, row, rounded=near):
        """A row's time for a sentence: a plain number has its unit."""
        text = self.text(row, rounded)
        return text if self.is_clock else with_unit(text, self.time.scale.unit)

    def on_day(self, day, told):
        if self.time.dated:
            return f"{self.time.begin.date() + datetime.timedelta(days=day)} {told}"
        return told if day == 0 else f"{told} {day:+} d"

    def window(self, first, last):
        """From when to when a run of rows answers for its steps, earlier time first: from the row before the first. Where
        both are of one date, it is told once."""
        ends = sorted((first - 1, last), key=self.seconds)
        begin, end = self.text(ends[0], ceil), self.told(ends[1], floor)
        is_one_day = self.time.dated and begin.split()[0] == end.split()[0]
        return begin, end.split()[1] if is_one_day else end

    def heading(self):
        if self.time.offset:
            return f"time ({self.time.offset})"
        return "time" if self.is_clock or self.time.scale.unit == "1" else f"time, {self.time.scale.unit}"


def is_whole(number):
    return number.denominator == 1


def length(time, amount, rounded=near):
    """A length of time in words, to a thousandth: in hours, minutes and seconds where the unit of time is known."""
    kind = unit(time.scale.unit)
    if kind is None or not kind.is_like(SECOND):
        return decimal(amount, 2 * FINEST, rounded)
    parts = rounded(amount * kind.size * 10**FINEST)
    minutes, seconds = divmod(parts, 60 * 10**FINEST)
    hours, minutes = divmod(minutes, 60)
    told = decimal(Fraction(seconds, 10**FINEST), FINEST).rstrip("0").rstrip(".")
    words = [f"{hours} h"] * (hours > 0) + [f"{minutes} min"] * (minutes > 0)
    return " ".join(words + [f"{told} s"] * (seconds > 0 or not words))
