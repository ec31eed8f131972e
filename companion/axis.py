"""The marks of a picture's axes: at round numbers or round clock times, and what stands under each, the day too where
it changes."""

import datetime
from fractions import Fraction
from math import ceil, floor

from lines import pixels
from units import decimal

DAY = 86400
# Seconds between two marks. Those up to a day divide it, so that midnight has a mark wherever it is.
PARTS = tuple(Fraction(each, 10**places) for places in range(6, 0, -1) for each in (1, 2, 5))
CLOCK = (1, 2, 5, 10, 15, 30, 60, 120, 300, 600, 900, 1800, 3600, 7200, 10800, 21600, 43200)
SPACINGS = (*PARTS, *CLOCK, *(DAY * days for days in (1, 2, 4, 7, 14, 28, 56)))
MONTHS = ("Jan", "Feb", "Mar", "Apr", "May", "Jun", "Jul", "Aug", "Sep", "Oct", "Nov", "Dec")
MOST_MARKS = 12
APART = 10  # Pixels between the texts of two marks, at the least.


def multiples(least, most, spacing):
    """The multiples of a spacing from the least to the most."""
    return [spacing * each for each in range(ceil(least / spacing), floor(most / spacing) + 1)]


def number_spacing(span, most_marks):
    """The narrowest round spacing that has no more marks: 1, 2 or 5 of some place, and how many places it has behind
    the point."""
    places = 0
    while span * 10**places < 1:
        places += 1
    places += 2
    while True:
        for each in (1, 2, 5):
            spacing = each * Fraction(10) ** -places
            if span / spacing <= most_marks:
                return spacing, max(places, 0)
        places -= 1


def number_marks(least, most, most_marks=MOST_MARKS):
    """Marks at round numbers, each with its text."""
    spacing, places = number_spacing(most - least, most_marks)
    return [(mark, (decimal(mark, places),)) for mark in multiples(least, most, spacing)]


def fits(marks, left, right, width):
    """Whether no two texts touch on an axis that is so many pixels wide."""
    broadest = max((pixels(line) for _, lines in marks for line in lines), default=0)
    places = [mark for mark, _ in marks]
    return all((later - mark) / (right - left) * width >= broadest + APART for mark, later in zip(places, places[1:]))


def numbers_across(left, right, width):
    """Marks at round numbers, as many as have room beside each other."""
    tried = (number_marks(left, right, most) for most in range(MOST_MARKS, 1, -1))
    return next((marks for marks in tried if fits(marks, left, right, width)), number_marks(left, right, 2))


def times_across(clock, left, right, width):
    """Marks at round clock times, as many as have room beside each other; where they leave out the day on which the
    axis begins, one more on that day, if there is room."""

    def has_room(times):
        return fits(clock_marks(clock, left, times), left, right, width)

    spacings = [spacing for spacing in SPACINGS if (right - left) / spacing <= MOST_MARKS]
    tried = ([(mark, spacing) for mark in multiples(left, right, spacing)] for spacing in spacings)
    times = next(times for times in tried if has_room(times))
    before = ([first, *times] for first in first_day(left) if times and day_of(times[0][0]) != day_of(left))
    return clock_marks(clock, left, next((more for more in before if has_room(more)), times))


def first_day(left):
    """Times of the day on which the axis begins, the roundest first."""
    firsts = ((spacing * ceil(left / spacing), spacing) for spacing in reversed(SPACINGS))
    return [first for first in firsts if day_of(first[0]) == day_of(left)]


def day_of(time):
    return floor(time / DAY)


def clock_marks(clock, left, times):
    """Marks at times of the clock, which are told as finely as they are spaced. The day stands under the first and
    wherever another begins; without a date, the first day needs no word."""
    marks, last = [], None if clock.time.dated or left < 0 else 0
    for mark, spacing in times:
        day = day_of(mark)
        lines = [time_text(mark - day * DAY, spacing)]
        if day != last:
            lines.append(day_text(clock.time, day))
        marks.append((mark, tuple(lines)))
        last = day
    return marks


def time_text(since_midnight, spacing):
    """A time of the day, as finely as its marks are spaced."""
    seconds = floor(since_midnight)
    told = f"{seconds // 3600:02}:{seconds // 60 % 60:02}"
    if spacing % 60 == 0:
        return told
    places = next(places for places in range(7) if spacing * 10**places % 1 == 0)
    part = f".{(since_midnight - seconds) * 10**places // 1:0{places}}" if places else ""
    return f"{told}:{seconds % 60:02}{part}"


def day_text(time, day):
    """A day: its date, or where there is none how many days it lies after the first."""
    if not time.dated:
        return f"{day:+} d" if day else "0 d"
    date = date_of(time, day)
    return f"{date.day} {MONTHS[date.month - 1]}"


def date_of(time, day):
    return time.begin.date() + datetime.timedelta(days=day)


def time_heading(clock, left, right):
    """What stands under the axis of time: of a clock, its offset, and from which day to which, or what its days are
    counted from."""
    if not clock.is_clock:
        return clock.heading()
    told = f"clock time ({clock.time.offset})" if clock.time.offset else "clock time"
    days = list(dict.fromkeys((day_of(left), day_of(right))))
    if clock.time.dated:
        dates = (f"{day_text(clock.time, day)} {date_of(clock.time, day).year}" for day in days)
        return f"{told}, " + " to ".join(dates)
    return told if days == [0] else f"{told}; days are counted from the one on which it begins"
