"""What the library answers with: one frozen class for each kind of record."""

from __future__ import annotations

from collections.abc import Hashable, Mapping
from dataclasses import dataclass, field
from datetime import datetime
from fractions import Fraction


@dataclass(frozen=True, slots=True)
class Leg:
    """A straight way of a feature between two positions that follow one another.

    `begin` and `end` are exact, to the millisecond. `attributes` are texts, as they stood in the file.
    """

    feature: str
    begin: datetime
    end: datetime
    start: tuple[float, ...]
    finish: tuple[float, ...]
    attributes: Mapping[str, str]


@dataclass(frozen=True, slots=True)
class Feature:
    """A feature that a question names; `zone` is empty for a rectangle without a name."""

    feature: str
    zone: str = ""


@dataclass(frozen=True, slots=True)
class Inside:
    """A time inside a zone.

    `enters` and `leaves` are exact: seconds since 1970-01-01T00:00:00Z. `enters_at` is rounded down
    to the microsecond and `leaves_at` up, so that the true moments lie between. `enters_by` and
    `leaves_by` are `edge`, `leg` or `period`, or empty if the program does not say them.
    """

    feature: str
    enters: Fraction
    leaves: Fraction
    enters_at: datetime
    leaves_at: datetime
    place_in: tuple[float, ...]
    place_out: tuple[float, ...]
    enters_by: str
    leaves_by: str


@dataclass(frozen=True, slots=True)
class Stay(Inside):
    """A leg's time inside.

    `zone` is empty where the zone has no name. `from_side` and `to_side` say on which side of a gate the
    feature is just before and just after: `left`, `right` or `none`; for other zones they are empty.
    `edge_in` and `edge_out` are the edges of a rectangle that the leg meets: `left`, `right`, `bottom`, `top`, or
    two as `left+top`; empty where the time does not begin or end by an edge.
    `attributes` are those of the leg if they were asked for: texts, as they stood in the file.
    """

    zone: str = ""
    from_side: str = ""
    to_side: str = ""
    edge_in: str = ""
    edge_out: str = ""
    attributes: Mapping[str, str] = field(default_factory=dict)


@dataclass(frozen=True, slots=True)
class Visit(Inside):
    """A feature's time inside, over legs without a gap in time; the last fields are those of a stay."""

    legs: int
    zone: str = ""
    from_side: str = ""
    to_side: str = ""
    edge_in: str = ""
    edge_out: str = ""


@dataclass(frozen=True, slots=True)
class Dwell:
    """How long a feature was inside in all, in seconds: at least `least` and at most `most`."""

    feature: str
    visits: int
    least: Fraction
    most: Fraction
    zone: str = ""


@dataclass(frozen=True, slots=True)
class VisitCount:
    """Visits in a span of a clock, which has its begin and not its end.

    `entered` and `left` are how many begin and end in it; one that the period cuts has no such end.
    `features` is how many features are inside at some moment of it.
    """

    begin: datetime
    end: datetime
    zone: str
    key: Hashable
    entered: int
    left: int
    features: int


@dataclass(frozen=True, slots=True)
class DwellTime:
    """How long a feature is inside in a span of a clock, in `seconds`; `length` is how many the span has."""

    begin: datetime
    end: datetime
    zone: str
    feature: str
    seconds: Fraction
    length: int

    @property
    def is_whole(self) -> bool:
        """Whether the feature is inside all the time."""
        return self.seconds == self.length


@dataclass(frozen=True, slots=True)
class Gap:
    """A time without a position of a feature, between two of its legs; both ends are exact."""

    feature: str
    begin: datetime
    end: datetime
    start: tuple[float, ...]
    finish: tuple[float, ...]


@dataclass(frozen=True, slots=True)
class Counts:
    """How many legs and features there are."""

    legs: int
    features: int


@dataclass(frozen=True, slots=True)
class Loaded(Counts):
    """What a load put into a store: the legs and features of the file, and its data records."""

    records: int
    file: str


@dataclass(frozen=True, slots=True)
class Report(Counts):
    """What a check found: the legs and features of a sound store, and its pages."""

    pages: int


@dataclass(frozen=True, slots=True)
class Info:
    """What a store holds; what only a loaded file says is `None` before the first load."""

    legs: int
    features: int
    crs: str | None
    dimension: int | None
    start: datetime | None
    columns: tuple[tuple[str, str], ...]
    first: datetime | None
    last: datetime | None
    extent: tuple[float, float, float, float] | None
    most_legs: int
    most_features: int
    pages: int
    bytes: int
    version: int
    state: str
