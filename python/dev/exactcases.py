"""Cases for tools/exactness: a leg, a rectangle and a period, made from a seed, with the right answers as fractions.

Each case asks whether a feature was inside the rectangle, edges included, at some moment of the period. Coordinates are
whole numbers of 10^-7, moments whole milliseconds. Of each kind one half is to be answered yes; of the narrow kinds the
other half is the same but for 10^-7 of a coordinate, or a millisecond, and is to be answered no.
"""
import random
import sys
from fractions import Fraction
from pathlib import Path
from typing import NamedTuple

sys.path.insert(0, str(Path(__file__).resolve().parents[2] / "examples"))
import check  # noqa: E402

START = check.instant("2024-01-01T00:00:00Z")
# One unit of a coordinate, and how long a case has for itself.
UNIT = Fraction(1, 10**7)
DAY = 86_400_000
YEAR = 365 * DAY


class Case(NamedTuple):
    """A leg from `start` at `t0` to `end` at `t1`, a rectangle `((x1, x2), (y1, y2))`, and a period; what of it is
    wanted is `is_inside`."""

    kind: str
    number: int
    start: tuple
    end: tuple
    t0: int
    t1: int
    rect: tuple
    period: tuple

    def leg(self):
        return check.Leg(self.name(), self.t0, self.t1, self.start, self.end, [])

    def name(self):
        return f"{self.kind.replace(' ', '-')}-{self.number}"

    def stay(self):
        """The first and the last moment inside, as fractions of a millisecond; None where there is none."""
        return self.leg().inside(self.rect, *self.period)

    def is_inside(self):
        return self.stay() is not None


def tenths(pick, least, most, digits=1):
    """A random number of so many digits behind the point."""
    return Fraction(pick.randint(least * 10**digits, most * 10**digits), 10**digits)


def past_corner(pick, corner, digits, reach, misses):
    """A leg that touches a corner of a rectangle in one point, or passes it 10^-7 further out."""
    sx, sy = pick.choice([-1, 1]), pick.choice([-1, 1])
    step = (tenths(pick, 1, 9, digits) * sx, -tenths(pick, 1, 9, digits) * sy)
    before, behind = pick.randint(1, reach), pick.randint(1, reach)
    out = -UNIT * sx if misses else 0
    start = (corner[0] - before * step[0] + out, corner[1] - before * step[1])
    end = (corner[0] + behind * step[0] + out, corner[1] + behind * step[1])
    rect = tuple(tuple(sorted([at, at + 10 * side])) for at, side in zip(corner, (sx, sy)))
    return start, end, rect


def corner(pick, misses):
    at = (tenths(pick, -100, 100), tenths(pick, -100, 100))
    start, end, rect = past_corner(pick, at, 1, 9, misses)
    return start, end, 10_000, rect, None


def pier_head(pick, misses):
    """A leg over the very end of a line, or 10^-7 beside it."""
    side, half = pick.choice([-1, 1]), tenths(pick, 20, 99)
    step = (tenths(pick, 1, 9) * pick.choice([-1, 1]), tenths(pick, 1, 9))
    before, behind = pick.randint(1, 9), pick.randint(1, 9)
    head = side * half + (side * UNIT if misses else 0)
    start = (head - before * step[0], -before * step[1])
    end = (head + behind * step[0], behind * step[1])
    return start, end, 30_000, ((-half, half), (Fraction(0), Fraction(0))), None


def between_milliseconds(pick, misses):
    """A gate of 10^-7 in x that is passed between two milliseconds, while y is on the gate's edge or 10^-7 beside."""
    speed, moment = pick.choice([3, 7, 9, 11, 13]), pick.randint(100, 900)
    # At `moment` the feature is at x = moment * speed / 1000, and a third of a millisecond later in the gate.
    gate = (Fraction(moment * speed, 1000) + Fraction(speed, 3000)) // UNIT * UNIT
    y = tenths(pick, 0, 9)
    rect = ((gate, gate + UNIT), (y + (UNIT if misses else 0), y + 1))
    return (Fraction(0), y), (Fraction(speed), y), 1000, rect, (moment, moment + 1)


def last_moment(pick, misses):
    """A leg that reaches an edge at a whole millisecond, which is the period's last one or comes behind it."""
    length, moment = 60_000, pick.randint(20_000, 40_000)
    speed = Fraction(pick.randint(1, 99), 10_000)
    start, y = tenths(pick, -100, 100), tenths(pick, -100, 100)
    edge = start + moment * speed
    rect = ((edge, edge + 500), (y - 1, y + 1))
    last = moment - 1 if misses else moment
    return (start, y), (start + length * speed, y), length, rect, (pick.randint(0, 10_000), last)


def metres_of_a_grid(pick, misses):
    """The corner of a rectangle in UTM metres with 7 places behind the point."""
    at = (691_000 + tenths(pick, 0, 900, 7), 5_334_000 + tenths(pick, 0, 900, 7))
    start, end, rect = past_corner(pick, at, 7, 9, misses)
    return start, end, 10_000, rect, None


def long_leg(pick, misses):
    """A corner on a leg of thousands of kilometres that takes a year."""
    at = (tenths(pick, -100, 100), tenths(pick, -100, 100))
    start, end, rect = past_corner(pick, at, 1, 400_000, misses)
    return start, end, YEAR, rect, None


def short_visit(pick, misses):
    """A rectangle that is crossed in a tenth to nine tenths of a second, or passed a metre beside."""
    speed, width = pick.randint(5, 20), Fraction(pick.randint(10, 90), 100)
    at = Fraction(pick.randint(2000, 8000), 1000) * speed
    y = tenths(pick, -9, 9)
    low = y + 1 if misses else y - 1
    return (Fraction(0), y), (Fraction(10 * speed), y), 10_000, ((at, at + width * speed), (low, low + 2)), None


def plain(pick, misses):
    """A rectangle of tens of metres that is crossed for seconds, or passed by metres."""
    y, speed = tenths(pick, -50, 50), pick.randint(3, 9)
    at = Fraction(pick.randint(10, 30)) * speed
    low = y + pick.randint(5, 20) if misses else y - pick.randint(5, 20)
    return (Fraction(0), y), (Fraction(60 * speed), y + 2), 60_000, ((at, at + 15 * speed), (low, low + 40)), None


KINDS = {
    "plain": plain,
    "short visit": short_visit,
    "between two milliseconds": between_milliseconds,
    "last moment": last_moment,
    "corner": corner,
    "pier head": pier_head,
    "metres of a grid": metres_of_a_grid,
    "long leg": long_leg,
}


def decimal(text):
    """The places of a leg or a rectangle, as fractions."""
    return tuple(Fraction(word) for word in text.split())


def worked():
    """The cases that docs/proof/EXACTNESS.md works out by hand: names, ends of a leg, milliseconds, rectangle, period."""
    rows = [
        ("Ekko", "-78.9 -28.5", "-35.5 38", 30_000, "-60.3 0 60.3 0", (0, 30_000)),
        ("Fjord", "-78.9000001 -28.5", "-35.5000001 38", 30_000, "-60.3 0 60.3 0", (0, 30_000)),
        ("gate", "0 0", "10 0", 1000, "3.3333333 -1 3.3333334 1", (333, 334)),
        ("corner", "8.4 75.1", "-67.6 36.1", 10_000, "-39.6 55.6 -29.6 65.6", (0, 10_000)),
        ("last moment", "-92.5 -97", "-14.5 -97", 60_000, "-49.3231 -98 450.6769 -96", (0, 33_213)),
        (
            "grid",
            "691790.2508207 5334539.9348554",
            "691746.4949855 5334502.1857066",
            10_000,
            "691758.3729031 5334521.060281 691768.3729031 5334531.060281",
            (0, 10_000),
        ),
        ("year", "-1230003.8 690002.9", "409992.1 -229994.8", YEAR, "0.3 0.6 100 100", (0, YEAR)),
    ]
    begin = START
    for name, start, end, lasts, rect, (first, last) in rows:
        x1, y1, x2, y2 = decimal(rect)
        sides = ((x1, x2), (y1, y2))
        yield Case(name, 0, decimal(start), decimal(end), begin, begin + lasts, sides, (begin + first, begin + last))
        begin += DAY if lasts <= DAY else 2 * YEAR


def beside(seed, count):
    """Cases for least boxes, in metres of a grid: a rectangle that touches a leg's box, or lies so far beside it."""
    begin = START
    for kind, far in BESIDE.items():
        pick = random.Random(f"{seed} {kind}")
        for number in range(count):
            start = (691_000 + tenths(pick, 0, 900, 7), 5_334_000 + tenths(pick, 0, 900, 7))
            end = (start[0] + tenths(pick, 1, 90, 7), start[1] + tenths(pick, 1, 90, 7))
            rect = ((end[0] + far, end[0] + far + 10), (start[1], start[1] + 10))
            yield Case(kind, number, start, end, begin, begin + 10_000, rect, (begin, begin + 10_000))
            begin += DAY


# Of the cases of least boxes: how far beside the rectangle lies.
BESIDE = {
    "touching": Fraction(0),
    "10^-7 m beside": UNIT,
    "1 cm beside": Fraction(1, 100),
    "10 cm beside": Fraction(1, 10),
    "1 m beside": Fraction(1),
}


def made(kinds, seed, count):
    """So many of each kind, every second one to be answered no: the kind, the number, whether it is yes, and what is
    made."""
    for kind, make in kinds.items():
        pick = random.Random(f"{seed} {kind}")
        for number in range(count):
            misses = number % 2 == 1
            yield kind, number, not misses, make(pick, misses)


def cases(seed, count):
    """The cases of a seed. Each has days of its own."""
    begin = START
    for kind, number, is_inside, (start, end, lasts, rect, period) in made(KINDS, seed, count):
        first, last = period or (0, lasts)
        case = Case(kind, number, start, end, begin, begin + lasts, rect, (begin + first, begin + last))
        assert case.is_inside() == is_inside, case
        yield case
        begin += DAY if lasts <= DAY else 2 * YEAR
