"""Cases of zones for tools/exactness: a leg and a polygon or a gate, made from a seed, with the right answers as fractions.

Each case asks of a leg whether it is in the zone at some moment, or at each. Of each kind one half is to be answered
yes. The other half is the same, but the leg lies 10^-7 beside, and is to be answered no.
"""
from fractions import Fraction
from typing import NamedTuple

import zone_cases
from exactcases import DAY, START, UNIT, check, made, tenths

LASTS = 10_000


class ZoneCase(NamedTuple):
    """A leg from `start` at `t0` to `end` at `t1`, the parts of a zone, each with its rings, and whether `ever` or
    `always` is asked. A zone of a single ring of two positions is a gate."""

    kind: str
    number: int
    question: str
    start: tuple
    end: tuple
    t0: int
    t1: int
    parts: tuple

    def name(self):
        return f"{self.kind.replace(' ', '-')}-{self.number}"

    def is_gate(self):
        return len(self.parts[0][0]) == 2

    def wkt(self):
        def positions(ring):
            return ", ".join(" ".join(check.shown(value) for value in place) for place in ring)

        if self.is_gate():
            return f"LINESTRING ({positions(self.parts[0][0])})"
        rings = [", ".join(f"({positions([*ring, ring[0]])})" for ring in part) for part in self.parts]
        return f"POLYGON ({rings[0]})" if len(rings) == 1 else f"MULTIPOLYGON ({', '.join(f'({it})' for it in rings)})"

    def is_inside(self):
        """The right answer, from the stays as fractions of the leg."""
        rings = [[units(place) for place in ring] for part in self.parts for ring in part]
        course = (units(self.start), units(self.end))
        stays = zone_cases.plain_stays(course, Fraction(0), Fraction(1), rings)
        return bool(stays) if self.question == "ever" else stays == [(0, 1)]


def units(place):
    return tuple(int(value / UNIT) for value in place)


def moved(place, step, times=1):
    return tuple(value + by * times for value, by in zip(place, step))


def turned(step):
    """A step to the left of another, as long."""
    return -step[1], step[0]


def cross(one, other):
    return one[0] * other[1] - one[1] * other[0]


def random_step(pick, digits):
    step = (tenths(pick, 1, 9, digits), tenths(pick, 1, 9, digits))
    return tuple(value * pick.choice([-1, 1]) for value in step)


def beside(pick, step, left):
    """A move by 10^-7 to one side of a step."""
    moves = [(UNIT, 0), (-UNIT, 0), (0, UNIT), (0, -UNIT)]
    return pick.choice([move for move in moves if (cross(step, move) > 0) == left])


def random_place(pick):
    """A place in tenths, or in metres of a grid with seven digits, and so many digits."""
    if pick.random() < 0.5:
        return (tenths(pick, -100, 100), tenths(pick, -100, 100)), 1
    return (691_000 + tenths(pick, 0, 900, 7), 5_334_000 + tenths(pick, 0, 900, 7)), 7


def leg_over(pick, place, step, off):
    """The ends of a leg that goes over a place by whole steps, moved by `off`."""
    return moved(moved(place, off), step, -pick.randint(1, 9)), moved(moved(place, off), step, pick.randint(1, 9))


def wedge(pick, place, step):
    """A triangle with a corner at a place, to the left of a step."""
    left = turned(step)
    return (
        place,
        moved(moved(place, left, pick.randint(1, 9)), step, pick.randint(1, 9)),
        moved(moved(place, left, pick.randint(1, 9)), step, -pick.randint(1, 9)),
    )


def corner(pick, misses):
    """A leg over a polygon's corner, which else lies to its left."""
    place, digits = random_place(pick)
    step = random_step(pick, digits)
    off = beside(pick, step, False) if misses else (0, 0)
    return "ever", *leg_over(pick, place, step, off), ((wedge(pick, place, step),),)


def edge(pick, misses):
    """A leg along a part of a polygon's edge."""
    place, digits = random_place(pick)
    step = random_step(pick, digits)
    off = beside(pick, step, False) if misses else (0, 0)
    first, last = sorted(pick.sample(range(10), 2))
    ends = [moved(moved(place, off), step, times) for times in (first, last)]
    top = moved(moved(place, turned(step), pick.randint(1, 9)), step, pick.randint(0, 9))
    return "always", *ends, (((place, moved(place, step, 9), top),),)


def hole(pick, misses):
    """A leg over a corner of a polygon's hole, which else lies to its left."""
    place, digits = random_place(pick)
    step = random_step(pick, digits)
    off = beside(pick, step, True) if misses else (0, 0)
    x, y = place
    outer = ((x - 200, y - 200), (x + 200, y - 200), (x + 200, y + 200), (x - 200, y + 200))
    return "always", *leg_over(pick, place, step, off), ((outer, wedge(pick, place, step)),)


def shared(pick, misses):
    """A leg out of one part of a zone at a corner, and in that corner into the other part."""
    place, digits = random_place(pick)
    step = random_step(pick, digits)
    off = beside(pick, step, pick.random() < 0.5) if misses else (0, 0)
    parts = []
    for far in (-10, 10):
        base = moved(place, step, far)
        parts.append(
            ((place, moved(base, turned(step), pick.randint(1, 9)), moved(base, turned(step), -pick.randint(1, 9))),)
        )
    return "always", *leg_over(pick, place, step, off), tuple(parts)


def gate_end(pick, misses):
    """A leg over an end of a gate, which else lies to its left."""
    place, digits = random_place(pick)
    step = random_step(pick, digits)
    off = beside(pick, step, False) if misses else (0, 0)
    other = moved(moved(place, turned(step), pick.randint(1, 9)), step, pick.randint(-9, 9))
    return "ever", *leg_over(pick, place, step, off), (((place, other),),)


def on_gate(pick, misses):
    """A leg that comes from the left of a gate and ends on it."""
    place, digits = random_place(pick)
    step = random_step(pick, digits)
    off = beside(pick, step, True) if misses else (0, 0)
    gate = (moved(place, step, -pick.randint(1, 9)), moved(place, step, pick.randint(1, 9)))
    start = moved(moved(place, turned(step), pick.randint(1, 9)), step, pick.randint(-9, 9))
    return "ever", moved(start, off), moved(place, off), ((gate,),)


KINDS = {
    "through a corner": corner,
    "along an edge": edge,
    "through a hole's corner": hole,
    "out at a corner and in again": shared,
    "touching a gate's end": gate_end,
    "ending on a gate": on_gate,
}


def zone_kinds(seed, count):
    """The cases of a seed. Each has a day of its own."""
    begin = START
    for kind, number, is_inside, (question, start, end, parts) in made(KINDS, seed, count):
        case = ZoneCase(kind, number, question, start, end, begin, begin + LASTS, parts)
        assert case.is_inside() == is_inside, case
        yield case
        begin += DAY
