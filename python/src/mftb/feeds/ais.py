"""Position reports of ships (AIS) as a file of legs, in the profile of docs/user/FILES.md.

The layout is told by the header line. A feature is an MMSI; x is the longitude, y the latitude.
"""

from __future__ import annotations

from argparse import Namespace
from collections.abc import Callable, Iterator, Sequence
from dataclasses import dataclass
from functools import lru_cache
from itertools import compress
from operator import and_
from typing import Any

from mftb import sources, texts
from mftb.feeds import arguments, conversion
from mftb.feeds.judging import Batch, Judge
from mftb.feeds.positions import Position

EXAMPLE = """example:
  tools/from_ais --columns VesselName --skip-bad positions.csv -o ships.csv
and day after day:
  tools/from_ais --after state --state state monday.csv.gz -o monday-legs.csv

The header line tells one of two layouts, in upper or lower case, with or without underscores:
  MMSI,BaseDateTime,LAT,LON,...                            2024-06-03T09:00:00, in UTC
  # Timestamp,Type of mobile,MMSI,Latitude,Longitude,...   03/06/2024 09:00:00, in UTC
Positions that are not available (latitude 91, longitude 181, or 0 0) are left out, as are those of
base stations and aids to navigation. Reports may come in any order; where a ship goes back in time,
all are sorted on disk, and that is said.
This tool is no part of any proof."""

NO_SHIPS = {"basestation", "aton", "aidtonavigation", "aidstonavigation"}


def year_first(text: str) -> int:
    """The moment of 2024-06-03T09:00:00, or with a blank, Z or an offset."""
    if text[4:5] + text[7:8] + text[10:11] == "--T" and len(text) == 19:
        return texts.moment((text[:4], text[5:7], text[8:10]), text[11:])
    return texts.read_instant(text)


def day_first(text: str) -> int:
    """The moment of 03/06/2024 09:00:00, or of what begins with the year."""
    if text[2:3] + text[5:6] + text[10:11] != "// ":
        return year_first(text)
    return texts.moment((text[6:10], text[3:5], text[:2]), text[11:])


# Of each layout: the names of the columns of instant, feature, x and y; how an instant is read, and
# its form.
LAYOUTS = [
    (
        (["BaseDateTime"], ["MMSI"], ["LON", "longitude"], ["LAT", "latitude"]),
        year_first,
        "yyyy-mm-ddThh:mm:ss",
    ),
    (
        (["# Timestamp"], ["MMSI"], ["Longitude"], ["Latitude"]),
        day_first,
        "dd/mm/yyyy hh:mm:ss",
    ),
]


def layout(header: list[str], kept: sources.Columns) -> sources.RowReader:
    """What reads a row below this header line."""
    for names, moment, form in LAYOUTS:
        if sources.place_of(header, *names[0]) is not None:
            return row_reader(header, kept, names, moment, form)
    raise texts.BadLine("the header line has neither 'BaseDateTime' nor '# Timestamp'")


def row_reader(
    header: list[str], kept: sources.Columns, names: tuple, moment: Callable[[str], int], form: str
) -> sources.RowReader:
    at, mmsi, x, y = (sources.column(header, *own) for own in names)
    reader = Reports(header, at, mmsi, (x, y), kept.reader(header), texts.Clock(moment), form)
    return sources.RowReader(reader.one, reader.table, reader.columns)


@dataclass
class Reports:
    """What reads reports: where their fields stand, and how their instants are read."""

    header: list[str]
    at: int
    mmsi: int
    axes: tuple[int, int]
    values: sources.Values
    clock: texts.Clock
    form: str

    def __post_init__(self) -> None:
        self.kind = sources.place_of(self.header, "Type of mobile")
        self.features = Features(self.header[self.mmsi])
        # Where no column tells ships from others, each is taken for one by its MMSI.
        kind = self.mmsi if self.kind is None else self.kind
        self.columns = [self.at, kind, self.mmsi, *self.axes, *self.values.columns]

    def one(self, row: list[str]) -> Position:
        """The position of a report."""
        if self.kind is not None and is_no_ship(row[self.kind]):
            raise texts.LeftOut("of base stations and aids to navigation")
        try:
            when = self.clock.moment(row[self.at])
        except ValueError:
            what = f"{self.header[self.at]} {row[self.at]!r}"
            raise texts.BadLine(f"{what} is no instant of the form {self.form}") from None
        x, y = self.axes
        place = texts.degrees(row[x], row[y], [self.header[axis] for axis in self.axes])
        return Position(self.features[row[self.mmsi]], when, place, self.values.of(row))

    def table(self, columns: list[Sequence[str]], row_at: sources.RowAt) -> sources.Table | None:
        """What is read of reports; nothing where one of an unusual form has a position."""
        found: list[Any] = [*columns[:5], *map(texts.numbers, columns[3:5]), *columns[5:]]
        kept = self.are_usual(columns[1], *found[5:7])
        faults: list[tuple[int, Any]] = []
        if not all(kept):
            items = sources.RowReader(self.one)
            faults = [(place, items.item(row_at(place), len(self.header))) for place, it in enumerate(kept) if not it]
            found = [list(compress(column, kept)) for column in found]
        at, _, mmsi, x, y, xs, ys, *values = found
        further = self.values.further(values, len(at))
        if further is None or any(isinstance(why, tuple) for _, why in faults):
            return None
        try:
            moments, features = self.clock.moments(at), list(map(self.features.__getitem__, mmsi))
        except (ValueError, texts.BadLine):
            return None
        rows = list(compress(range(len(kept)), kept))
        return sources.Table(rows, features, moments, [(x, xs), (y, ys)], further, [0] * len(at), faults)

    def are_usual(self, kinds: Sequence[str], xs: list[float], ys: list[float]) -> list[bool]:
        """Of each report whether it is one of a ship, with a position in its usual form."""
        found = [-180 < x < 180 and -90 < y < 90 and (x != 0 or y != 0) for x, y in zip(xs, ys)]
        if self.kind is None:
            return found
        ships = {kind for kind in set(kinds) if not is_no_ship(kind)}
        return list(map(and_, found, map(ships.__contains__, kinds)))


class Features(dict):
    """The features' names by the fields that were met."""

    def __init__(self, what: str) -> None:
        super().__init__()
        self.what = what

    def __missing__(self, field: str) -> str:
        self[field] = name = texts.feature_name(field, self.what)
        return name


@lru_cache(maxsize=1000)
def is_no_ship(kind: str) -> bool:
    return sources.plain_name(kind) in NO_SHIPS


def reader(options: Namespace) -> conversion.FileReader:
    def read(path: str, judge: Judge) -> Iterator[Batch]:
        work = sources.Work(judge, options.jobs)
        return sources.read_table(path, lambda header: layout(header, options.kept), work, options.encoding)

    return read


def parse(given: Sequence[str] | None = None) -> Namespace:
    """The options of the command line, or of words that are given."""
    words = arguments.words(
        __doc__, EXAMPLE, gap="10m", why="since ships at anchor report every 3 minutes", most="100kn", usual="100kn"
    )
    arguments.add_encoding(words)
    words.add_argument(
        "--jobs",
        type=arguments.jobs,
        default=1,
        metavar="N",
        help="read by so many processes; what is written is the same (without: 1)",
    )
    return words.parse_args(given)


def main() -> int:
    return conversion.run("from_ais", parse(), reader)
