"""What is judged of fixes in the order of time: how far apart they are, and which cannot be."""

from __future__ import annotations

import math
from collections.abc import Sequence
from decimal import Decimal
from typing import NamedTuple

EARTH = 6_371_008.8
# Metres of a degree of a great circle: no degree of longitude or latitude is longer.
DEGREE = math.radians(1) * EARTH


class Fix(NamedTuple):
    """A position of a feature as it may be an end of a leg: its texts are those of a record."""

    moment: int
    time: str
    place: str
    x: float
    y: float
    further: str
    segment: int
    # Whether it is in a leg.
    in_leg: bool


def metres(one: Fix, two: Fix) -> float:
    """About how many metres there are between two places of degrees, on a sphere."""
    x, y, u, v = map(math.radians, (one.x, one.y, two.x, two.y))
    half = math.sin((v - y) / 2) ** 2
    half += math.cos(y) * math.cos(v) * math.sin((u - x) / 2) ** 2
    return 2 * EARTH * math.asin(math.sqrt(min(half, 1)))


def plane(one: Fix, two: Fix) -> float:
    """The distance of two places of a plane."""
    return math.dist((one.x, one.y), (two.x, two.y))


class Speed:
    """What is too fast: more than so many metres a second."""

    def __init__(self, most: float, in_degrees: bool) -> None:
        self.distance = metres if in_degrees else plane
        # In metres a millisecond; and in units a millisecond, what is slow enough at a glance.
        self.most = most / 1000
        self.glance = self.most / (DEGREE if in_degrees else 1)

    def exceeded(self, before: Fix, here: Fix) -> bool:
        """Whether it takes more to go from one position to a later one."""
        span = here.moment - before.moment
        if abs(here.x - before.x) + abs(here.y - before.y) <= self.glance * span:
            return False
        return self.distance(before, here) > self.most * span


def over_date_line(one: Fix, two: Fix) -> bool:
    """Whether two longitudes are nearer to each other the other way round."""
    begin, end = (fix.place.split(" ", 1)[0] for fix in (one, two))
    if (begin[0] == "-") == (end[0] == "-"):
        return False
    return abs(Decimal(begin) - Decimal(end)) > 180


def meets(box: Sequence[float], one: Fix, two: Fix) -> bool:
    """Whether the box of two places meets a box (x1, y1, x2, y2)."""
    wide = min(one.x, two.x) <= box[2] and max(one.x, two.x) >= box[0]
    return wide and min(one.y, two.y) <= box[3] and max(one.y, two.y) >= box[1]
