"""What several tests work on: a description and edits of it, an answer to it, and the gallery's plans, each made once."""

from functools import cache

import description
import programs
from plan import plan, with_answer
from sheet import Writer

SHEETS = programs.ROOT / "sheets"

TIDE = """\
title = "a tide"

[time]
unit = "h"
begin = 08:00:00
step = "10 min"
length = "1 h"

[accuracy]
tail = 10

[constants]
m2 = "28.9841042 deg/h"

[quantity.rise]
unit = "m"
start = -1.8
good_to = 0
rate = "m2 * fall"

[quantity.fall]
unit = "m"
start = 0
good_to = 0
rate = "-m2 * rise"

[quantity.water]
about = "over the sill"
unit = "m"
start = 1.60
good_to = "4 cm"
tolerance = "5 cm"
rate = '''
m2 * fall
'''

[clearance]
weights = { water = 1, rise = -0.5 }
unit = "m"
base = -1
need = 0.5
for = "25 min"
"""

# An answer to it, refused at step 2.
ANSWER = """\
row=1
degree=2
value=-16777216
radius=1
low=-16777217
high=16777217
value=0
radius=0
low=0
high=0
value=33554432
radius=838860
low=30000000
high=36000000
result=8
at=2
"""


def edited(*edits):
    text = TIDE
    for old, new in edits:
        assert text.count(old) == 1, old
        text = text.replace(old, new)
    return text


def plan_of(text, answer):
    read = description.read(text)
    return with_answer(read, Writer(read).sheet(), answer)


@cache
def read(name):
    return description.read((SHEETS / f"{name}.toml").read_text())


@cache
def planned(name):
    return plan(read(name))
