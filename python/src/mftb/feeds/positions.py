"""Positions as they wait for their legs: packed, in a temporary file, and in the order of time."""

from __future__ import annotations

import marshal
import tempfile
from array import array
from collections.abc import Callable, Iterable, Iterator, Sequence
from dataclasses import dataclass
from decimal import Decimal
from itertools import islice
from typing import Any, NamedTuple, TypeAlias

from mftb.sources import BATCH

# The texts of one coordinate, and their numbers.
Axis: TypeAlias = tuple[Sequence[str], list[float]]


class Position(NamedTuple):
    """Where a feature was at a moment (in milliseconds since 1970), with its attribute values."""

    feature: str
    moment: int
    place: tuple
    values: tuple = ()
    segment: int = 0


@dataclass
class Positions:
    """Positions, as a list for each of their fields."""

    features: list[str]
    moments: list[int]
    # The texts of the coordinates, with blanks between them.
    places: list[str]
    xs: list[float]
    ys: list[float]
    # The attribute values as fields of a record, each with its comma.
    further: list[str]
    segments: list[int]

    def packed(self) -> bytes:
        """The same as bytes."""
        moments = array("q", self.moments).tobytes()
        xs, ys = array("d", self.xs).tobytes(), array("d", self.ys).tobytes()
        segments = self.segments if any(self.segments) else []
        return marshal.dumps((self.features, self.places, self.further, moments, xs, ys, segments))

    def axes(self) -> list[Axis]:
        """The coordinates, axis by axis."""
        return axes_of([place.split(" ") for place in self.places])


def unpacked(packed: bytes) -> Positions:
    """The positions that were packed."""
    features, places, further, *numbers, segments = marshal.loads(packed)
    moments, xs, ys = (array(kind, it).tolist() for kind, it in zip("qdd", numbers))
    return Positions(features, moments, places, xs, ys, further, segments or [0] * len(features))


def axes_of(places: Iterable[Sequence[str]]) -> list[Axis]:
    """The coordinates of places, axis by axis."""
    return [(texts, list(map(float, texts))) for texts in zip(*places)]


class Bounds:
    """The first and the last moment of positions, and the corners of their places."""

    def __init__(self) -> None:
        # Nothing is bounded so far.
        self.first, self.last = 0, 0
        self.low: list[str] = []
        self.high: list[str] = []

    def join(self, others: Bounds) -> None:
        """Takes in what later positions are bounded by."""
        if others.low:
            self.widen([others.first, others.last], axes_of([others.low, others.high]))

    def widen(self, moments: list[int], axes: list[Axis]) -> None:
        """Takes in moments and places, of which there is at least one."""
        ends = [self.first, self.last] if self.low else moments
        self.first, self.last = min(min(moments), ends[0]), max(max(moments), ends[-1])
        none: list[str | None] = [None] * len(axes)
        lows, highs = self.low or none, self.high or none
        self.low = [corner(*axis, min, end) for axis, end in zip(axes, lows)]
        self.high = [corner(*axis, max, end) for axis, end in zip(axes, highs)]


def corner(texts: Sequence[str], numbers: list[float], most: Callable[..., Any], end: str | None) -> str:
    """The first of the least texts of numbers, or of the greatest, where `end` was that so far."""
    # As floats keep the order, they only spare most comparisons of the decimals.
    found = most(numbers)
    if end is not None and most(found, float(end)) != found:
        return end
    if numbers.count(found) == 1:
        ties = {texts[numbers.index(found)]: None}
    else:
        ties = dict.fromkeys(text for text, number in zip(texts, numbers) if number == found)
    if end is not None and float(end) == found:
        ties = {end: None, **ties}
    return most(ties, key=Decimal) if len(ties) > 1 else next(iter(ties))


class Spool:
    """Positions in a temporary file, in the order in which they came, and their bounds."""

    def __init__(self) -> None:
        self.file, self.bounds = tempfile.TemporaryFile(), Bounds()
        self.sizes: list[int] = []

    def add(self, packed: bytes, bounds: Bounds) -> None:
        """Keeps positions."""
        self.bounds.join(bounds)
        self.sizes.append(self.file.write(packed))

    def __iter__(self) -> Iterator[Positions]:
        self.file.seek(0)
        for size in self.sizes:
            yield unpacked(self.file.read(size))


class Sorted:
    """Positions by their moments, those of one moment as they came; memory does not grow."""

    def __init__(self, positions: Iterable[Positions]) -> None:
        # Few feeds have to be sorted.
        import sqlite3

        # An empty name is a temporary file, which is removed when it is closed.
        self.store = sqlite3.connect("")
        self.store.execute("pragma temp_store = file")
        self.store.execute("create table position (moment integer, number integer primary key, rest blob)")
        rows = (row for it in positions for row in zip(*vars(it).values()))
        rest = ((row[1], marshal.dumps(row)) for row in rows)
        self.store.executemany("insert into position (moment, rest) values (?, ?)", rest)

    def __iter__(self) -> Iterator[Positions]:
        found = self.store.execute("select rest from position order by moment, number")
        while rows := [marshal.loads(rest) for (rest,) in islice(found, BATCH)]:
            yield Positions(*[list(column) for column in zip(*rows)])


class Unwrapped:
    """Positions whose longitudes go on where a feature passes the date line; `begins` are longitudes before."""

    def __init__(self, positions: Iterable[Positions], begins: dict[str, float]) -> None:
        self.positions, self.begins = positions, begins

    def __iter__(self) -> Iterator[Positions]:
        ends = dict(self.begins)
        for it in self.positions:
            for place, (feature, x) in enumerate(zip(it.features, it.xs)):
                turns = round((ends.get(feature, x) - x) / 360)
                if turns:
                    text, rest = it.places[place].split(" ", 1)
                    text = f"{Decimal(text) + 360 * turns:f}"
                    it.places[place], it.xs[place] = f"{text} {rest}", float(text)
                ends[feature] = it.xs[place]
            yield it
