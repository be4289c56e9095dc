"""From the plane to pixels: what is seen of it, and the ink of many legs."""

from __future__ import annotations

import math
import re
from array import array
from collections.abc import Iterable, Sequence
from typing import Any, NamedTuple, TypeAlias

from mftb.feeds.fixes import DEGREE

WIDTH, LEAST, GREATEST = 640, 320, 640
# From so many legs on ink is kept by pixel.
MANY = 20_000
# From a pixel to the one below it; twice the width, so that of two pixels the difference says how far they are apart.
ROW = 2 * WIDTH + 1
# So many ways from a pixel to another one are kept.
WAYS = 4096
DEGREES = re.compile(r"crs:?84|[^0-9]4326$|degrees", re.I)
METRES = re.compile(r"metres?|meters?", re.I)
NAUTICAL, MILE = 1852, 1609.344
# A place of the plane, or a pixel: to the right of the plot's left side, and below its top.
Place: TypeAlias = tuple[float, float]
# A line from one to another one.
Piece: TypeAlias = tuple[Place, Place]


class Seen(NamedTuple):
    """A leg: its file or its store, its record, its number there, and its two places."""

    source: Any
    row: list[str]
    number: int
    x: float
    y: float
    u: float
    v: float


def in_degrees(crs: str) -> bool:
    """Whether the coordinates of a CRS are taken as longitudes and latitudes."""
    return bool(DEGREES.search(crs))


def in_words(crs: str) -> str:
    """A CRS in words, with its name."""
    if not in_degrees(crs):
        return f"x and y of {crs}"
    return f"longitude and latitude in degrees ({crs.removeprefix('urn:ogc:def:crs:')})"


# What is seen


class Extent:
    """The least rectangle of places; of many, without those that lie far off all others."""

    def __init__(self) -> None:
        self.xs, self.ys, self.step, self.count = array("d"), array("d"), 1, 0

    def add(self, x: float, y: float) -> None:
        self.count += 1
        if self.count % self.step == 0:
            self.xs.append(x)
            self.ys.append(y)
            if len(self.xs) > 2 * MANY:
                self.xs, self.ys, self.step = self.xs[::2], self.ys[::2], self.step * 2

    def corners(self, whole: bool = False) -> list[Place]:
        """Two corners, or nothing where there is no place."""
        if not self.xs:
            return []
        (left, right), (low, high) = ((min(it), max(it)) if whole else bulk(it) for it in (self.xs, self.ys))
        return [(left, low), (right, high)]


def bulk(values: Iterable[float]) -> Place:
    """The least and the greatest of values, but of those four times as far off the middle as nine of ten."""
    order = sorted(values)
    middle = order[len(order) // 2]
    far = sorted(abs(value - middle) for value in order)
    reach = 4 * far[int(0.9 * (len(far) - 1))]
    if len(order) < 20 or not reach:
        return order[0], order[-1]
    near = [value for value in order if abs(value - middle) <= reach]
    return near[0], near[-1]


def size(places: Iterable[Place]) -> float:
    """The longer side of the least rectangle that has the places."""
    return max(max(side) - min(side) for side in zip(*places))


class View:
    """Which part of the plane is seen, and where a place of it lies in the picture.

    In degrees a degree of longitude is as much narrower as it is at the middle of what is seen.
    """

    def __init__(self, points: Iterable[Place], degrees: bool, exact: bool = False) -> None:
        points = list(points)
        xs, ys = zip(*points)
        margin = 0 if exact else (size(points) or 1) / 5
        wide, high = max(xs) - min(xs) + margin or 1, max(ys) - min(ys) + margin or 1
        middle = min(max((min(ys) + max(ys)) / 2, -85), 85)
        self.degrees = degrees
        self.narrow = math.cos(math.radians(middle)) if degrees else 1
        self.scale = min(WIDTH / (wide * self.narrow), GREATEST / high)
        self.across = self.scale * self.narrow
        self.height = round(min(max(high * self.scale, LEAST), GREATEST))
        self.x = (min(xs) + max(xs)) / 2 - WIDTH / self.across / 2
        self.y = (min(ys) + max(ys)) / 2 + self.height / self.scale / 2

    def at(self, place: Sequence[float]) -> Place:
        """The pixels of a place: to the right of the plot's left side, and below its top."""
        return (place[0] - self.x) * self.across, (self.y - place[1]) * self.scale

    def shows(self, one: Place, two: Place) -> bool:
        """Whether the box of two pixels meets the plot."""
        wide = min(one[0], two[0]) <= WIDTH and max(one[0], two[0]) >= 0
        return wide and min(one[1], two[1]) <= self.height and max(one[1], two[1]) >= 0

    def edges(self) -> tuple[float, float, float, float]:
        """The least and the greatest x and y that are seen."""
        right, low = self.x + WIDTH / self.across, self.y - self.height / self.scale
        return self.x, right, low, self.y


def nice(length: float) -> tuple[float, int]:
    """The greatest of 1, 2 and 5 with zeros that is not above a length, and its digits."""
    power = math.floor(math.log10(length))
    first = max(digit for digit in (1, 2, 5) if digit * 10.0**power <= length * (1 + 1e-9))
    return first * 10.0**power, max(-power, 0)


def scale_bar(view: View, crs: str, unit: str) -> tuple[float, str]:
    """The length of the scale bar in pixels, and what it says."""
    if view.degrees:
        metres = DEGREE
    elif METRES.search(crs):
        metres = 1
    else:
        length, digits = nice(WIDTH / view.scale / 5)
        return length * view.scale, f"{length:.{digits}f} in units of {crs}"
    own = {"metres": 1, "miles": MILE, "nautical": NAUTICAL}[unit]
    length, digits = nice(WIDTH / view.scale / 5 * metres / own)
    pixels, words = length * own / metres * view.scale, {"miles": "mi", "nautical": "nmi"}
    if unit == "metres" and length >= 1000:
        return pixels, f"{length / 1000:.0f} km"
    return pixels, f"{length:.{digits}f} {words.get(unit, 'm')}"


# Ink


def px(value: float) -> str:
    """A number of pixels, to a tenth."""
    text = f"{value:.1f}".removesuffix(".0")
    return "0" if text == "-0" else text


def pair(point: Place) -> str:
    return f"{px(point[0])} {px(point[1])}"


class Ink:
    """The legs of one colour that are seen: each by itself, or where they are many by pixel."""

    def __init__(self, view: View, many: int = MANY) -> None:
        self.high, self.many = view.height, many
        self.pieces: list[tuple[str, Place, Place]] = []
        self.cells: bytearray | None = None
        # The steps from a pixel to another one that were worked out already.
        self.ways: dict[int, tuple[int, ...]] = {}

    def __bool__(self) -> bool:
        return bool(self.pieces) or self.cells is not None

    def add(self, name: str, x: float, y: float, u: float, v: float, is_within: bool = False) -> None:
        """Takes a leg of a feature that is seen, from one pixel to another one; both may be known to be in the plot."""
        cells = self.cells
        if cells is None:
            self.pieces.append((name, (x, y), (u, v)))
            if len(self.pieces) > self.many:
                self.spill()
            return
        if not is_within:
            self.mark(x, y, u, v)
            return
        start = int(y) * ROW + int(x)
        way = int(v) * ROW + int(u) - start
        cells[start] = 1
        if way:
            for step in self.ways.get(way) or self.way(way):
                cells[start + step] = 1

    def way(self, way: int) -> tuple[int, ...]:
        """The steps along a way, which are kept."""
        if len(self.ways) == WAYS:
            self.ways.clear()
        return self.ways.setdefault(way, steps(way))

    def spill(self) -> None:
        """Begins to keep ink by pixel."""
        self.cells, pieces = bytearray(ROW * (self.high + 1)), self.pieces
        self.pieces = []
        for _, one, two in pieces:
            self.mark(*one, *two)

    def mark(self, x: float, y: float, u: float, v: float) -> None:
        """Marks the pixels of a leg."""
        if abs(u - x) + abs(v - y) > 100:
            x, y, u, v = clipped(x, y, u, v, WIDTH, self.high)
        steps = int(max(abs(u - x), abs(v - y))) + 1
        cells, high = self.cells, self.high
        assert cells is not None
        for k in range(steps + 1):
            a, b = int(x + (u - x) * k / steps), int(y + (v - y) * k / steps)
            if 0 <= a <= WIDTH and 0 <= b <= high:
                cells[b * ROW + a] = 1

    def path(self) -> str:
        """The path of all legs."""
        if self.cells is None:
            own: dict[str, list[Piece]] = {}
            for name, one, two in self.pieces:
                own.setdefault(name, []).append((one, two))
            return "".join(path_of(found) for found in own.values())
        words = []
        for y in range(self.high + 1):
            for run in re.finditer(b"\x01+", self.cells[y * ROW : (y + 1) * ROW]):
                words.append(f"M{run.start()}.5 {y}.5h{run.end() - run.start() - 1}")
        return "".join(words)


def steps(way: int) -> tuple[int, ...]:
    """The steps from the first pixel of a line to each of its pixels; that to the last one is the way."""
    down = round(way / ROW)
    across = way - down * ROW
    count = max(abs(across), abs(down), 1)
    return tuple({round(down * k / count) * ROW + round(across * k / count) for k in range(count + 1)})


def clipped(x: float, y: float, u: float, v: float, wide: float, high: float) -> tuple[float, float, float, float]:
    """The part of a line in the plot; nothing but its beginning where none is."""
    first, last = 0.0, 1.0
    for start, way, most in ((x, u - x, wide), (y, v - y, high)):
        if way:
            ends = sorted((-start / way, (most - start) / way))
            first, last = max(first, ends[0]), min(last, ends[1])
    if first > last:
        return x, y, x, y
    return x + (u - x) * first, y + (v - y) * first, x + (u - x) * last, y + (v - y) * last


def path_of(pieces: Iterable[Piece]) -> str:
    """The path of legs of a feature: no part of it is further than half a pixel from ink."""
    words: list[str] = []
    end: Place | None = None
    drawn: Place | None = None
    for one, two in pieces:
        if one != end:
            finish(words, end, drawn)
            words.append("M" + pair(one))
            drawn = one
        end = two
        if drawn is None or math.dist(drawn, two) >= 0.5 or one == two:
            words.append("L" + pair(two))
            drawn = two
    finish(words, end, drawn)
    return "".join(words)


def finish(words: list[str], end: Place | None, drawn: Place | None) -> None:
    """Draws what is left of a line: a place where it was too short."""
    if end is not None and end != drawn:
        words.append("L" + pair(end))
    elif words and words[-1][0] == "M":
        words.append("h0")
