"""Answers with a time a vertex: a GeoPackage, which QGIS plays, and trips, which kepler.gl plays."""

from __future__ import annotations

import json
import re
import shutil
import sqlite3
import struct
import tempfile
from collections.abc import Callable, Iterable, Iterator, Mapping, Sequence
from dataclasses import dataclass
from itertools import groupby
from pathlib import Path
from typing import Any, BinaryIO, TextIO, TypeAlias

from mftb.answers import period_of
from mftb.asking import Row
from mftb.draw.plot import in_degrees
from mftb.texts import instant, read_instant

# What reads a value of a type.
Reader: TypeAlias = Callable[[str], Any]


@dataclass(frozen=True)
class Tracks:
    """The legs of the features that questions named, and whether all of them are shown."""

    legs: Mapping[str, list[Row]]
    is_whole: bool = False

    def of(self, row: Row) -> list[Row]:
        """The legs of the feature that a row names: those that have a part in the period of its question."""
        legs = self.legs.get(row.feature, [])
        period = None if self.is_whole else period_of(row.words)
        if not period:
            return legs
        first, last = period
        return [leg for leg in legs if read_instant(leg.begin) <= last and read_instant(leg.end) >= first]


@dataclass
class Strip:
    """Legs of an answer that follow one another: a row, with the words of its question, vertices and their moments."""

    row: Row
    places: list[tuple[str, ...]]
    moments: list[str]

    def goes_on(self, leg: Row) -> bool:
        """Whether a leg begins when and where this ends."""
        return self.moments[-1] == leg.begin and self.places[-1] == leg.places[0]


def legs_of(rows: Iterable[Row], tracks: Tracks) -> Iterator[Row]:
    """The legs of answers, and those of features that were named."""
    for row in rows:
        if row.begin:
            yield row
        else:
            yield from (leg._replace(number=row.number, words=row.words) for leg in tracks.of(row))


def strips_of(legs: Iterable[Row]) -> Iterator[Strip]:
    """The legs of each question and feature, joined where they go on."""
    for _, own in groupby(legs, lambda leg: leg.number):
        found: dict[str, list[Strip]] = {}
        for leg in own:
            strips = found.setdefault(leg.feature, [])
            if not strips or not strips[-1].goes_on(leg):
                strips.append(Strip(leg, [leg.places[0]], [leg.begin]))
            strips[-1].places.append(leg.places[1])
            strips[-1].moments.append(leg.end)
        for strips in found.values():
            yield from strips


# Trips


def write_trips(out: TextIO, rows: Iterable[Row], tracks: Tracks) -> None:
    """GeoJSON whose positions are x, y, z and the milliseconds since 1970; without a height z is 0."""
    out.write('{"type": "FeatureCollection", "features": [')
    between = "\n"
    for strip in strips_of(legs_of(rows, tracks)):
        said = {"question": strip.row.number, "words": strip.row.words, "feature": strip.row.feature}
        said |= {"begin": strip.moments[0], "end": strip.moments[-1]}
        positions = ", ".join(map(position, strip.places, strip.moments))
        line = f'{{"type": "LineString", "coordinates": [{positions}]}}'
        out.write(
            f'{between}{{"type": "Feature", "geometry": {line}, "properties": {json.dumps(said, ensure_ascii=False)}}}'
        )
        between = ",\n"
    out.write("\n]}\n")


def position(place: Sequence[str], moment: str) -> str:
    """A position with its moment, each number with the digits that the program printed."""
    return f"[{', '.join([*place, '0'][:3])}, {read_instant(moment)}]"


# GeoPackages

APPLICATION, VERSION = 0x47504B47, 10300
UNDEFINED, DEGREES = -1, 4326
WGS84 = (
    'GEOGCS["WGS 84",DATUM["WGS_1984",SPHEROID["WGS 84",6378137,298.257223563,AUTHORITY["EPSG","7030"]],'
    'AUTHORITY["EPSG","6326"]],PRIMEM["Greenwich",0,AUTHORITY["EPSG","8901"]],UNIT["degree",0.0174532925199433,'
    'AUTHORITY["EPSG","9122"]],AUTHORITY["EPSG","4326"]]'
)
TABLES = """
CREATE TABLE gpkg_spatial_ref_sys (srs_name TEXT NOT NULL, srs_id INTEGER NOT NULL PRIMARY KEY,
  organization TEXT NOT NULL, organization_coordsys_id INTEGER NOT NULL, definition TEXT NOT NULL, description TEXT);
CREATE TABLE gpkg_contents (table_name TEXT NOT NULL PRIMARY KEY, data_type TEXT NOT NULL, identifier TEXT UNIQUE,
  description TEXT DEFAULT '', last_change DATETIME NOT NULL DEFAULT (strftime('%Y-%m-%dT%H:%M:%fZ','now')),
  min_x DOUBLE, min_y DOUBLE, max_x DOUBLE, max_y DOUBLE, srs_id INTEGER REFERENCES gpkg_spatial_ref_sys);
CREATE TABLE gpkg_geometry_columns (table_name TEXT NOT NULL UNIQUE REFERENCES gpkg_contents, column_name TEXT NOT NULL,
  geometry_type_name TEXT NOT NULL, srs_id INTEGER NOT NULL REFERENCES gpkg_spatial_ref_sys, z TINYINT NOT NULL,
  m TINYINT NOT NULL, PRIMARY KEY (table_name, column_name));
"""
OWN = {"question": "INTEGER", "words": "TEXT", "feature": "TEXT", "begin": "DATETIME", "end": "DATETIME"}
INTEGERS = {"integer", "int", "long", "short", "byte", "nonNegativeInteger", "positiveInteger", "unsignedInt"}
READERS: dict[str, Reader] = {"INTEGER": int, "DOUBLE": float, "TEXT": str}
FORMS = {
    "INTEGER": re.compile("[+-]?[0-9]{1,18}"),
    "DOUBLE": re.compile(r"[+-]?(?:[0-9]+\.?[0-9]*|\.[0-9]+)(?:[eE][+-]?[0-9]+)?"),
    "TEXT": re.compile(".*", re.S),
}


class Book:
    """A GeoPackage that is written: the layers `legs`, with begin and end, and `tracks`, with moments as M."""

    def __init__(self, path: str, crs: str, dimension: int, columns: Sequence[tuple[str, str]]) -> None:
        self.base = sqlite3.connect(path)
        self.dimension, self.srs = dimension, srs_of(crs)
        self.names = unlike([name for name, _ in columns], [*OWN, "fid", "geom"])
        self.kinds = [kind_of(kind) for _, kind in columns]
        self.corners = [float("inf")] * 2 + [float("-inf")] * 2
        self.base.execute(f"PRAGMA application_id = {APPLICATION}")
        self.base.execute(f"PRAGMA user_version = {VERSION}")
        self.base.executescript(TABLES)
        systems = [
            ("undefined cartesian", -1, "NONE", -1, "undefined"),
            ("undefined degrees", 0, "NONE", 0, "undefined"),
        ]
        systems.append(("WGS 84", DEGREES, "EPSG", DEGREES, WGS84))
        if self.srs not in (UNDEFINED, DEGREES):
            systems.append((crs, self.srs, "EPSG", self.srs, "undefined"))
        self.base.executemany("INSERT INTO gpkg_spatial_ref_sys VALUES (?, ?, ?, ?, ?, NULL)", systems)

    def write(self, legs: Iterable[Row]) -> None:
        """Writes both layers, and closes the book."""
        self.base.execute(f"CREATE TEMP TABLE read (geom, {', '.join(map(quoted, [*OWN, *self.names]))})")
        marks = ", ".join("?" * (1 + len(OWN) + len(self.names)))
        read = self.reading(legs, f"INSERT INTO read VALUES ({marks})")
        self.layer("tracks", list(OWN.items()), self.tracks(read), True)
        columns = [*OWN.items(), *zip(self.names, self.kinds)]
        self.layer("legs", columns, self.typed(self.base.execute("SELECT * FROM read ORDER BY rowid")), False)
        self.base.commit()
        self.base.close()

    def reading(self, legs: Iterable[Row], insert: str) -> Iterator[Row]:
        """Keeps each leg as it is read; a column with a value that is not of its type becomes one of texts."""
        for leg in legs:
            values = [*leg.values, *[""] * (len(self.names) - len(leg.values))]
            for place, text in enumerate(values):
                if text and not FORMS[self.kinds[place]].fullmatch(text):
                    self.kinds[place] = "TEXT"
            self.base.execute(insert, [self.line(leg.places), *own(leg, leg.begin, leg.end), *values])
            yield leg

    def tracks(self, legs: Iterator[Row]) -> Iterator[list[Any]]:
        for strip in strips_of(legs):
            seconds = [read_instant(moment) / 1000 for moment in strip.moments]
            yield [self.line(strip.places, seconds), *own(strip.row, strip.moments[0], strip.moments[-1])]

    def typed(self, rows: Iterable[tuple]) -> Iterator[list[Any]]:
        first, readers = 1 + len(OWN), [READERS[kind] for kind in self.kinds]
        for row in rows:
            yield [*row[:first], *(read(text) if text else None for read, text in zip(readers, row[first:]))]

    def layer(self, name: str, columns: Sequence[tuple[str, str]], rows: Iterable[Sequence[Any]], has_m: bool) -> None:
        """Writes a layer of lines."""
        fields = ", ".join(f"{quoted(it)} {kind}" for it, kind in columns)
        self.base.execute(f"CREATE TABLE {name} (fid INTEGER PRIMARY KEY AUTOINCREMENT NOT NULL, geom BLOB, {fields})")
        marks = ", ".join("?" * (1 + len(columns)))
        names = ", ".join(quoted(it) for it, _ in columns)
        self.base.executemany(f"INSERT INTO {name} (geom, {names}) VALUES ({marks})", rows)
        is_empty = self.corners[0] > self.corners[2]
        corners = [None if is_empty else corner for corner in self.corners]
        self.base.execute(
            "INSERT INTO gpkg_contents (table_name, data_type, identifier, min_x, min_y, max_x, max_y, srs_id) "
            "VALUES (?, 'features', ?, ?, ?, ?, ?, ?)",
            [name, name, *corners, self.srs],
        )
        kinds = [name, "geom", "LINESTRING", self.srs, int(self.dimension == 3), int(has_m)]
        self.base.execute("INSERT INTO gpkg_geometry_columns VALUES (?, ?, ?, ?, ?, ?)", kinds)

    def line(self, places: Sequence[Sequence[str]], seconds: Sequence[float] | None = None) -> bytes:
        """A line as GeoPackage has it: a header with its box, and WKB."""
        rows = [tuple(map(float, place)) for place in places]
        xs, ys = ([row[axis] for row in rows] for axis in (0, 1))
        low_x, low_y, high_x, high_y = self.corners
        self.corners = [min(low_x, *xs), min(low_y, *ys), max(high_x, *xs), max(high_y, *ys)]
        head = struct.pack("<2sBBi4d", b"GP", 0, 0b11, self.srs, min(xs), max(xs), min(ys), max(ys))
        kind = 2 + 1000 * (self.dimension == 3) + 2000 * (seconds is not None)
        if seconds is not None:
            rows = [(*row, moment) for row, moment in zip(rows, seconds)]
        numbers = [number for row in rows for number in row]
        return head + struct.pack(f"<BII{len(numbers)}d", 1, kind, len(rows), *numbers)


def write_geopackage(
    out: BinaryIO, crs: str, dimension: int, columns: Sequence[tuple[str, str]], rows: Iterable[Row], tracks: Tracks
) -> None:
    """Writes the legs of answers as a GeoPackage."""
    with tempfile.TemporaryDirectory(prefix="mftb-") as folder:
        path = Path(folder, "answers.gpkg")
        Book(str(path), crs, dimension, columns).write(legs_of(rows, tracks))
        with open(path, "rb") as made:
            shutil.copyfileobj(made, out)


def own(row: Row, begin: str, end: str) -> list[Any]:
    """The columns that each layer has."""
    return [row.number, row.words, row.feature, to_the_millisecond(begin), to_the_millisecond(end)]


def to_the_millisecond(moment: str) -> str:
    """An instant with three digits behind the point, as GeoPackage wants it."""
    milliseconds = read_instant(moment)
    return f"{instant(milliseconds // 1000 * 1000)[:-1]}.{milliseconds % 1000:03}Z"


def srs_of(crs: str) -> int:
    """The number of a coordinate reference system; of a name without one it is that of an unknown plane."""
    authority, _, number = crs.rpartition(":")
    if authority.upper().split(":")[-1] == "EPSG" and number.isdigit():
        return int(number)
    return DEGREES if in_degrees(crs) else UNDEFINED


def kind_of(kind: str) -> str:
    """The type of a column, by that of the attribute."""
    name = kind.rpartition(":")[2]
    return "INTEGER" if name in INTEGERS else "DOUBLE" if name in ("decimal", "double", "float") else "TEXT"


def unlike(names: Sequence[str], taken: Sequence[str]) -> list[str]:
    """Names of columns, each with as many `_` behind it as it takes to be a new one in a base that knows no case."""
    found: list[str] = []
    seen = set(taken)
    for name in names:
        while name.lower() in seen:
            name += "_"
        seen.add(name.lower())
        found.append(name)
    return found


def quoted(name: str) -> str:
    return '"' + name.replace('"', '""') + '"'
