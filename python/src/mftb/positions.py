"""Positions of a frame as a file of legs, which a store or a fleet loads."""

from __future__ import annotations

import csv
import tempfile
import warnings
from collections.abc import Iterable, Iterator, Mapping
from contextlib import contextmanager
from dataclasses import dataclass
from datetime import timedelta
from pathlib import Path
from typing import Any

import numpy
import pandas

from mftb.feeds.arguments import LONGITUDE_LATITUDE, WITH_ELEVATION
from mftb.runs import MftbWarning
from mftb.texts import instant, several

KINDS = {"i": "xsd:integer", "u": "xsd:integer", "f": "xsd:decimal", "b": "xsd:boolean"}
HALF_TURN, MILLION = 180, 1_000_000


@dataclass(frozen=True)
class Table:
    """Positions by feature and then by time: the features' numbers, milliseconds since 1970, places, and rows."""

    features: numpy.ndarray
    moments: numpy.ndarray
    places: numpy.ndarray
    rows: numpy.ndarray

    def only(self, kept: numpy.ndarray) -> Table:
        return Table(self.features[kept], self.moments[kept], self.places[kept], self.rows[kept])


@contextmanager
def legs_file(
    frame: pandas.DataFrame,
    *,
    feature: str = "feature",
    time: str = "time",
    x: str | None = None,
    y: str | None = None,
    z: str | None = None,
    crs: str | None = None,
    attributes: Iterable[str] | Mapping[str, str] = (),
    gap: str | timedelta | None = "1h",
    tz: str | None = None,
) -> Iterator[str]:
    """A file of the legs between positions that follow one another.

    `feature`, `time`, `x`, `y` and `z` name columns; without `x` and `y` the frame has a geometry of
    points. Without `crs` coordinates are degrees of longitude and latitude, or what the geometry says.
    No leg lasts longer than `gap`. `attributes` are columns that are kept, with their types if they are a
    mapping; a leg has those of its first position. `tz` is the zone of times that have none.
    """
    places, crs, in_degrees = places_of(frame, [x, y, z], crs)
    table = positions(frame, feature, moments_of(frame, time, tz), places)
    legs = legs_of(table, gap, in_degrees)
    kinds = attributes if isinstance(attributes, Mapping) else {it: kind_of(column(frame, it)) for it in attributes}
    with tempfile.TemporaryDirectory(prefix="mftb-") as folder:
        path = Path(folder, "frame.csv")
        write(path, frame, table, legs, feature, crs, kinds)
        yield str(path)


# Columns


def column(frame: pandas.DataFrame, name: str) -> pandas.Series:
    if name not in frame:
        raise ValueError(f"there is no column {name!r}, only {', '.join(map(repr, frame.columns))}")
    return frame[name]


def kind_of(values: pandas.Series) -> str:
    """The type of an attribute, by that of its column."""
    return KINDS.get(values.dtype.kind, "xsd:string")


def places_of(frame: Any, names: list[str | None], crs: str | None) -> tuple[numpy.ndarray, str, bool]:
    """The coordinates, a row each, the name of their system, and whether they are degrees."""
    named = [name for name in names if name is not None]
    axes = [column(frame, name) for name in named]
    if len(named) < 2:
        geometry = getattr(frame, "geometry", None)
        if named or geometry is None:
            raise ValueError("x and y are wanted, or a geometry of points")
        axes = [geometry.x, geometry.y]
        crs = crs or (geometry.crs and geometry.crs.to_string())
    degrees = WITH_ELEVATION if len(axes) == 3 else LONGITUDE_LATITUDE
    crs = crs or degrees
    places = numpy.column_stack([pandas.to_numeric(axis).to_numpy(dtype=float) for axis in axes])
    in_degrees = crs in (LONGITUDE_LATITUDE, WITH_ELEVATION, "EPSG:4326", "OGC:CRS84")
    if in_degrees and (abs(places[:, :2]) > (HALF_TURN, HALF_TURN / 2)).any():
        raise ValueError(f"a place is no longitude and latitude: name another crs than {crs}, or exchange x and y")
    return places, crs, in_degrees


def moments_of(frame: pandas.DataFrame, name: str, tz: str | None) -> pandas.Series:
    """The moments of a column, in UTC."""
    values = column(frame, name)
    if values.dtype.kind in "iuf":
        raise ValueError(
            f"{name} has numbers: say what they count, as by pandas.to_datetime({name}, unit='s', utc=True)"
        )
    moments = pandas.to_datetime(values)
    if moments.dt.tz is None and tz is None:
        raise ValueError(f"{name} has no zone: say which, as tz='UTC'")
    return (moments.dt.tz_localize(tz) if moments.dt.tz is None else moments).dt.tz_convert("UTC")


# Legs


def positions(frame: pandas.DataFrame, feature: str, moments: pandas.Series, places: numpy.ndarray) -> Table:
    """The positions by feature and then by time; of a repeated instant the first one is kept."""
    features, _ = pandas.factorize(column(frame, feature))
    known = ~numpy.isnan(places).any(axis=1) & moments.notna().to_numpy() & (features >= 0)
    tell(len(known) - known.sum(), "without a feature, a moment or a place")
    rows = numpy.flatnonzero(known)
    since = moments.to_numpy(dtype="datetime64[ns]")[rows].astype("int64") // MILLION
    order = numpy.lexsort((since, features[rows]))
    table = Table(features[rows][order], since[order], places[rows][order], rows[order])
    repeated = numpy.zeros(len(rows), bool)
    repeated[1:] = (numpy.diff(table.features) == 0) & (numpy.diff(table.moments) == 0)
    tell(repeated.sum(), "with a repeated instant")
    return table.only(~repeated)


def legs_of(table: Table, gap: str | timedelta | None, in_degrees: bool) -> numpy.ndarray:
    """Where in a table legs begin, in the order of time; each ends at the next position."""
    follows = numpy.diff(table.features) == 0
    if gap is not None:
        follows &= numpy.diff(table.moments) <= pandas.Timedelta(gap) // pandas.Timedelta("1ms")
    if in_degrees:
        follows &= abs(numpy.diff(table.places[:, 0])) <= HALF_TURN
    begins = numpy.flatnonzero(follows)
    if not len(begins):
        raise ValueError("there is no leg: no two positions of a feature follow one another within the gap")
    return begins[numpy.argsort(table.moments[begins], kind="stable")]


def tell(count: int, what: str) -> None:
    if count:
        warnings.warn(f"left out: {several(int(count), 'row')} {what}", MftbWarning, stacklevel=6)


# The file


def write(
    path: Path,
    frame: pandas.DataFrame,
    table: Table,
    legs: numpy.ndarray,
    feature: str,
    crs: str,
    kinds: Mapping[str, str],
) -> None:
    """Writes the two header lines and a record for each leg."""
    ends = table.only(legs), table.only(legs + 1)
    start = int(ends[0].moments.min()) // 1000 * 1000
    low, high = (" ".join(map(shown, of(table.places, axis=0))) for of in (numpy.min, numpy.max))
    bounds = [f"{table.places.shape[1]}D", low, high, instant(start), instant(int(ends[1].moments.max())), "sec"]
    heads = [["@stboundedby", crs, *bounds], ["@columns", "mfidref", "trajectory", *sum(kinds.items(), ())]]
    records = {"feature": frame[feature].iloc[ends[0].rows].astype(str).to_numpy()}
    records |= {name: (end.moments - start) / 1000 for name, end in zip(("begin", "end"), ends)}
    records["trajectory"] = trajectories(numpy.hstack([end.places for end in ends]))
    values = {f"value {name}": column(frame, name).iloc[ends[0].rows].to_numpy() for name in kinds}
    with open(path, "w", encoding="utf-8", newline="") as out:
        csv.writer(out, lineterminator="\n").writerows(heads)
        pandas.DataFrame(records | values).to_csv(out, header=False, index=False, lineterminator="\n")


def shown(value: float) -> str:
    return f"{value:.7f}"


def trajectories(places: numpy.ndarray) -> list[str]:
    """Rows of coordinates as texts, with as many digits as the program keeps."""
    form = " ".join(["%.7f"] * places.shape[1])
    return [form % row for row in map(tuple, places.tolist())]
