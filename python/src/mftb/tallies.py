"""Visits and dwells by spans of a clock: how many begin in each, and how long each has, exactly."""

from __future__ import annotations

from bisect import bisect_right
from collections.abc import Callable, Hashable, Iterator
from dataclasses import dataclass, field
from datetime import tzinfo
from fractions import Fraction
from itertools import pairwise
from typing import TYPE_CHECKING, Generic, TypeAlias, TypeVar

from mftb.clocks import Clock
from mftb.records import Dwell, DwellTime, Visit, VisitCount
from mftb.results import Answer, framing

if TYPE_CHECKING:
    import pandas

Record = TypeVar("Record")
Key: TypeAlias = Callable[[Visit], Hashable]
# The first and the last moment of a period, in seconds since 1970.
Ends: TypeAlias = tuple[Fraction, Fraction]


class Table(list[Record], Generic[Record]):
    """Records that are all there at once."""

    def to_pandas(self) -> pandas.DataFrame:
        """The records as a frame, a row each."""
        return framing().of_records(self)

    def __repr__(self) -> str:
        return f"<{len(self)} records{f': {self[0]!r}, ..' if self else ''}>"


@dataclass
class Tally:
    """What is counted of a span."""

    entered: int = 0
    left: int = 0
    features: set[str] = field(default_factory=set)


class Visits(Answer[Visit]):
    """Visits of a rectangle, or of rectangles that have names."""

    def __init__(self, question: str, crs: str | None, zones: list[str], ends: Ends) -> None:
        super().__init__(question, crs)
        self._zones, self._ends = zones, ends

    def by(self, span: str, tz: str | tzinfo = "UTC", key: Key | None = None) -> Table[VisitCount]:
        """Counts visits by the spans of a clock: a record for each span of the period, also where nothing is.

        `key` gives each visit a name, which is counted apart; a visit whose name is `None` is left out.
        """
        clock = Clock(span, tz)
        edges = clock.edges(*self._ends)
        groups: dict[tuple[str, Hashable], dict[int, Tally]] = {}
        if key is None:
            groups = {(zone, ""): {} for zone in self._zones}
        for visit in self:
            name = "" if key is None else key(visit)
            if name is not None:
                count(groups.setdefault((visit.zone, name), {}), edges, visit)
        none = Tally()
        found: Table[VisitCount] = Table()
        for place, (begin, end) in enumerate(pairwise(map(clock.shown, edges))):
            for (zone, name), tallies in groups.items():
                it = tallies.get(place, none)
                found.append(VisitCount(begin, end, zone, name, it.entered, it.left, len(it.features)))
        return found


class Dwells(Answer[Dwell]):
    """How long features are inside in all; `visits` asks for the visits that this is the sum of."""

    def __init__(self, question: str, crs: str | None, visits: Callable[[], Visits]) -> None:
        super().__init__(question, crs)
        self._visits = visits

    def by(self, span: str, tz: str | tzinfo = "UTC") -> Table[DwellTime]:
        """How long each feature is inside in each span of a clock; there is no record where it never is."""
        visits = self._visits()
        clock = Clock(span, tz)
        edges = clock.edges(*visits._ends)
        sums: dict[tuple[str, str, int], Fraction] = {}
        for visit in visits:
            for place, part in parts(edges, visit):
                key = visit.zone, visit.feature, place
                sums[key] = sums.get(key, Fraction(0)) + part
        found: Table[DwellTime] = Table()
        for (zone, feature, place), seconds in sums.items():
            begin, end = edges[place : place + 2]
            found.append(DwellTime(clock.shown(begin), clock.shown(end), zone, feature, seconds, end - begin))
        return found


def count(tallies: dict[int, Tally], edges: list[int], visit: Visit) -> None:
    """Counts a visit where it begins, where it ends, and in each span that has a moment of it."""
    first, last = place_of(edges, visit.enters), place_of(edges, visit.leaves)
    for place in range(first, last + 1):
        tallies.setdefault(place, Tally()).features.add(visit.feature)
    tallies[first].entered += visit.enters_by != "period"
    tallies[last].left += visit.leaves_by != "period"


def parts(edges: list[int], visit: Visit) -> Iterator[tuple[int, Fraction]]:
    """The spans that have a moment of a visit, with the seconds of it in each."""
    first, last = place_of(edges, visit.enters), place_of(edges, visit.leaves)
    for place in range(first, last + 1):
        part = min(visit.leaves, Fraction(edges[place + 1])) - max(visit.enters, Fraction(edges[place]))
        if part or first == last:
            yield place, part


def place_of(edges: list[int], moment: Fraction) -> int:
    """The span that has a moment; the last one has its end too."""
    return min(bisect_right(edges, moment), len(edges) - 1) - 1
