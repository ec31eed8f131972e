"""The physics that each sheet of the gallery stands for, as what its quantities are at a time, from a start and with the
sheet's coefficients: closed forms, or a fine integration of the original equation.
"""

from functools import cache
from math import asin, cos, exp, log, sin, sqrt

PATH_STEP = 1 / 2000  # Of the fine integration, in units of time.


def tide(rate, height, speed, time):
    """The harmonic motion h' = rate * g, g' = -rate * h."""
    angle = rate * time
    return (
        height * cos(angle) + speed * sin(angle),
        speed * cos(angle) - height * sin(angle),
    )


def tide_over_sill(start, coefs, time):
    """Two such motions and the level that rises with both; before the start where the time is below 0."""
    lunar = tide(coefs[0], start[0], start[1], time)
    solar = tide(coefs[2], start[2], start[3], time)
    level = start[4] + lunar[0] - start[0] + solar[0] - start[2]
    return [*lunar, *solar, level]


def over_low_water(start, coefs, time):
    """One such motion and the level that rises with it."""
    height, speed = tide(coefs[0], start[0], start[1], time)
    return [height, speed, start[2] + height - start[0]]


def harmonic(start, coefs, time):
    """One such motion and nothing else: the tide by feedback, or sine and cosine."""
    return list(tide(coefs[0], start[0], start[1], time))


def basin_through_sluice(start, coefs, time):
    """Torricelli: the root of the head falls evenly, and what the head loses the level gains."""
    root = start[0] + coefs[0] * time
    level = start[1] + start[0] ** 2 - root**2
    return [root, level]


def ship(speed, drag, time):
    """Speed and distance run under v' = -drag * v^2."""
    slowing = 1 + drag * speed * time
    return speed / slowing, log(slowing) / drag


def ship_losing_way(start, coefs, time):
    drag = -coefs[0]
    speed, run = ship(start[0], drag, time)
    return [speed, start[1] + run, start[2] + drag * time]


def approach_over_sill(start, coefs, time):
    height, rise = tide(coefs[0], start[0], start[1], time)
    drag = -coefs[2]
    speed, run = ship(start[2], drag, time)
    squat = start[3] * (speed / start[2]) ** 2
    clearance = start[4] + height - start[0] + start[3] - squat
    root, level = basin_through_sluice(start[6:], coefs[7:], time)
    return [height, rise, speed, squat, clearance, start[5] + run, root, level]


def drag_corrected(start, coefs, time):
    """A ship losing way, its drag the sum of two terms; the clearance gains what the squat loses."""
    speed, run = ship(start[0], -(coefs[0] + coefs[1]), time)
    squat = start[2] * (speed / start[0]) ** 2
    return [speed, start[1] + run, squat, start[3] + start[2] - squat]


def jacobi(start, coefs, time):
    """sn, cn and dn of parameter 1/2 by the arithmetic-geometric mean."""
    ladder = [(1.0, sqrt(0.5))]
    mean, geometric = 1.0, sqrt(0.5)
    while ladder[-1][1] > 1e-16:
        mean, geometric, rest = (mean + geometric) / 2, sqrt(mean * geometric), (mean - geometric) / 2
        ladder.append((mean, rest))
    angle = 2 ** (len(ladder) - 1) * mean * time
    for mean, rest in reversed(ladder[1:]):
        angle = (angle + asin(rest / mean * sin(angle))) / 2
    return [sin(angle), cos(angle), sqrt(1 - 0.5 * sin(angle) ** 2)]


def square(start, coefs, time):
    """x' = x^2 from 1."""
    return [1 / (1 - time)]


def logistic(start, coefs, time):
    """x' = x - x^2 from 1/2."""
    return [1 / (1 + exp(-time))]


def runge_kutta(rates, state, h):
    """A step of the classical Runge-Kutta method along the motion with these rates."""

    def ahead(part, slopes):
        return [number + part * slope for number, slope in zip(state, slopes)]

    a = rates(*state)
    b = rates(*ahead(h / 2, a))
    c = rates(*ahead(h / 2, b))
    d = rates(*ahead(h, c))
    return ahead(h / 6, [p + 2 * q + 2 * r + s for p, q, r, s in zip(a, b, c, d)])


@cache
def path(rates, start):
    """The motion at the multiples of PATH_STEP, as far as it has been followed."""
    return [start]


def motion(rates, start, time):
    """Where the motion is at a time: along its path and by a last part of a step."""
    followed, steps = path(rates, start), int(time / PATH_STEP)
    while len(followed) <= steps:
        followed.append(runge_kutta(rates, followed[-1], PATH_STEP))
    return runge_kutta(rates, followed[steps], time - steps * PATH_STEP)


def van_der_pol_rates(y, slope):
    """y'' = (1 - y^2) y' - y."""
    return slope, (1 - y * y) * slope - y


def van_der_pol(start, coefs, time):
    y, slope = motion(van_der_pol_rates, (start[0], start[1]), time)
    return [y, slope, start[2] + start[0] ** 2 - y * y]


def brusselator_rates(x, y, loss):
    """The two equations before their reduction, and their parameter, which stays as it is."""
    turned = x * x * y
    return 2 + turned - (loss + 1) * x, loss * x - turned, 0


def brusselator(start, coefs, time):
    """The two quantities, and the two added ones as they follow from them, at the start too."""
    x, y, loss = motion(brusselator_rates, (start[0], start[1], -coefs[4]), time)
    return [x, y, x * y - loss, x * x]


def nested_sine_rates(x, t):
    """x' = sin(x * e^(t^2)) / root(t), and the time itself."""
    return sin(x * exp(t**2)) / sqrt(t), 1


def nested_sine(start, coefs, time):
    """The quantity, and the added ones as they follow from it and the time, at the start too."""
    x, t = motion(nested_sine_rates, (start[0], start[4]), time)
    size, angle = exp(t**2) / sqrt(t), x * exp(t**2)
    return [x, size * sin(angle), size * cos(angle), t * angle, t, 1 / t, exp(-(t**2))]


def cavitating_sphere(start, coefs, time):
    """r^(3/2) is a sum of R^(3/2) and R^(-3/2), by the start's r, r' / r and 1 / R."""
    radius = 1 / start[2]
    ratio, slope = 1 + time / radius, start[1] * radius
    grown, shrunk = (1 + slope) / 2 * ratio**1.5, (1 - slope) / 2 * ratio**-1.5
    now = radius + time
    return [start[0] * (grown + shrunk) ** (2 / 3), (grown - shrunk) / (grown + shrunk) / now, 1 / now]


def cube(start, coefs, time):
    """y' = 3 y / x, and 1 / x."""
    ratio = 1 + start[1] * time
    return [start[0] * ratio**3, start[1] / ratio]


FORMS = {
    "approach-over-sill": approach_over_sill,
    "basin-through-sluice": basin_through_sluice,
    "bell": lambda start, coefs, time: [1 / (1 + time**2), time / (1 + time**2)],
    "brusselator": brusselator,
    "cavitating-sphere": cavitating_sphere,
    "cube": cube,
    "drag-corrected": drag_corrected,
    "euler": harmonic,
    "euler-half": harmonic,
    "exponential": lambda start, coefs, time: [exp(time)],
    "growing-oscillation": lambda start, coefs, time: [
        sqrt(time + 1) * cos(time**2),
        sqrt(time + 1) * sin(time**2),
        time,
        1 / (time + 1),
    ],
    "jacobi": jacobi,
    "logarithm": lambda start, coefs, time: [log(time + 1), 1 / (time + 1)],
    "logistic": logistic,
    "logistic-fine": logistic,
    "mark-at-quay": tide_over_sill,
    "nested-sine": nested_sine,
    "over-low-water": over_low_water,
    "ship-losing-way": ship_losing_way,
    "simplest": square,
    "sine-3": harmonic,
    "sine-5": harmonic,
    "sine-7": harmonic,
    "square": square,
    "tide-by-feedback": harmonic,
    "tide-over-sill": tide_over_sill,
    "van-der-pol": van_der_pol,
}
