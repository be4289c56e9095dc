"""Legs as columns of whole numbers, as the page holds them.

A track is what one feature did. It is a list of strips; a strip is a list of positions, and between
each two neighbours lies a leg. A gap in time or a jump begins a new strip. Coordinates are whole
numbers of 10^-7, times are milliseconds after the store's first instant: both are exact.
"""

from __future__ import annotations

from array import array
from bisect import bisect_right
from collections.abc import Iterator
from dataclasses import dataclass, field
from fractions import Fraction
from typing import NamedTuple

UNITS = 10_000_000

Place = tuple[int, ...]
Values = tuple[str, ...]


@dataclass
class Head:
    """What a store says of all its legs."""

    crs: str = ""
    dimension: int = 2
    # The first instant, in milliseconds since 1970.
    base: int = 0
    columns: list[tuple[str, str]] = field(default_factory=list)


class Track:
    """The positions of a feature, where its strips begin, and the attribute row of each leg."""

    __slots__ = ("begins", "places", "rows", "strips", "times")

    def __init__(self) -> None:
        self.places: list[Place] = []
        self.times: list[int] = []
        self.strips: list[int] = []
        self.rows: list[int] = []
        # The first moment of each leg.
        self.begins: list[int] = []

    def add(self, begin: int, end: int, first: Place, last: Place, row: int) -> None:
        """Takes the leg that follows."""
        if not self.times or self.times[-1] != begin or self.places[-1] != first:
            self.strips.append(len(self.times))
            self.times.append(begin)
            self.places.append(first)
        self.times.append(end)
        self.places.append(last)
        self.begins.append(begin)
        self.rows.append(row)


class Count(NamedTuple):
    """How many features and legs there are."""

    features: int
    legs: int


class Legs:
    """All legs of a page, by feature in the order of their first legs."""

    def __init__(self, head: Head) -> None:
        self.head = head
        self.tracks: dict[str, Track] = {}
        self.values: dict[Values, int] = {}

    def add(self, name: str, begin: int, end: int, first: Place, last: Place, values: Values = ()) -> None:
        """Takes a leg; those of a feature come in the order of their times."""
        track = self.tracks.get(name)
        if track is None:
            track = self.tracks[name] = Track()
        row = self.values.setdefault(values, len(self.values))
        track.add(begin, end, first, last, row)

    def count(self) -> Count:
        """Counts features and legs."""
        return Count(len(self.tracks), sum(len(track.rows) for track in self.tracks.values()))

    def numbers(self) -> dict[str, int]:
        """The number of each feature."""
        return {name: number for number, name in enumerate(self.tracks)}

    def leg_at(self, name: str, moment: Fraction | int) -> int | None:
        """The first moment of the feature's last leg that begins at or before a moment, if any."""
        track = self.tracks.get(name)
        place = bisect_right(track.begins, moment) - 1 if track else -1
        return track.begins[place] if track and place >= 0 else None

    def column(self, axis: int) -> array[int]:
        """One coordinate of all positions, feature by feature."""
        every = array("q")
        for track in self.tracks.values():
            every.extend([place[axis] for place in track.places])
        return every

    def times(self) -> array[int]:
        """The moments of all positions."""
        every = array("q")
        for track in self.tracks.values():
            every.extend(track.times)
        return every

    def rows(self) -> array[int]:
        """The attribute row of each leg."""
        every = array("q")
        for track in self.tracks.values():
            every.extend(track.rows)
        return every

    def strip_sizes(self) -> array[int]:
        """How many positions each strip has."""
        return array("q", self._strip_sizes())

    def _strip_sizes(self) -> Iterator[int]:
        for track in self.tracks.values():
            ends = [*track.strips[1:], len(track.times)]
            yield from (end - start for start, end in zip(track.strips, ends))

    def track_sizes(self) -> array[int]:
        """How many strips each feature has."""
        return array("q", [len(track.strips) for track in self.tracks.values()])
