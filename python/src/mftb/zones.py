"""Zones of a question: rectangles and polygons, with or without names, and how the program is asked of them."""

from __future__ import annotations

import csv
import os
import re
import tempfile
from collections.abc import Iterator, Mapping
from contextlib import contextmanager
from dataclasses import dataclass
from pathlib import Path as FilePath
from typing import Any, NamedTuple, Protocol, TypeAlias

from mftb import errors, geojson, lines, texts, zonefiles
from mftb.lines import Path, Period, Rectangle


class HasGeometry(Protocol):
    """A geometry of shapely, or a frame of geopandas."""

    @property
    def __geo_interface__(self) -> Mapping[str, Any]:
        ...


# A rectangle, a text of WKT, a geometry, or a mapping of GeoJSON.
Shape: TypeAlias = Rectangle | str | HasGeometry | Mapping[str, Any]
# One shape, shapes by their names, or a file of them.
Zones: TypeAlias = Shape | Mapping[str, Shape] | Path
# The sides of a rectangle as texts, or a text of WKT.
Known: TypeAlias = tuple[str, ...] | str
WKT = re.compile(r"\s*(MULTIPOLYGON|POLYGON|LINESTRING)\b", re.I)
# What stands for a zone without a name in a file.
NAMELESS = "zone"


class Words(NamedTuple):
    """What the program is asked: its command, the words before the store, and those behind it."""

    command: str
    before: list[str]
    behind: list[str]


@dataclass(frozen=True)
class Asked:
    """Zones as texts, by their names; one without a name has the empty one. Or they stand in a file."""

    shapes: Mapping[str, Known]
    path: str = ""

    def names(self) -> list[str]:
        """The names of the zones, in their order."""
        if not self.path:
            return list(self.shapes)
        try:
            return [zone.name for zone in zonefiles.read(self.path)]
        except texts.Refused as why:
            raise errors.ZonesRefused(str(why), status=2) from None

    @property
    def has_names(self) -> bool:
        return "" not in self.shapes

    @property
    def are_rectangles(self) -> bool:
        return not self.path and all(isinstance(shape, tuple) for shape in self.shapes.values())

    def as_polygons(self) -> Asked:
        """The same zones, none of which is a rectangle any more."""
        return Asked({name: wkt_of(shape) for name, shape in self.shapes.items()}, self.path)

    def question(self, flags: list[str], period: Period) -> str:
        """The question in one line."""
        command = "moments" if self.are_rectangles else "zones"
        shapes = (" ".join(it) if isinstance(it, tuple) else it for it in self.shapes.values())
        places = self.path or ", ".join(self.shapes if self.has_names else shapes)
        return " ".join([command, *flags, places, *map(lines.moment, period)])

    @contextmanager
    def words(self, flags: list[str], period: Period) -> Iterator[Words]:
        """What the program is asked, while the files are there that it reads."""
        if len(period) != 2:
            raise ValueError("a period is its first and its last moment")
        times = [lines.moment(moment) for moment in period]
        if self.path:
            yield Words("zones", flags, [self.path, *times])
            return
        # By leg is how `moments` prints anyway.
        own = [flag for flag in flags if flag != "--legs"]
        if self.are_rectangles and not self.has_names:
            yield Words("moments", own, [*self.shapes[""], *times])
            return
        with tempfile.TemporaryDirectory(prefix="mftb-") as folder:
            path = os.path.join(folder, "zones.csv")
            self.write(path)
            if self.are_rectangles:
                yield Words("moments", [*own, "--rects", path], times)
            else:
                yield Words("zones", flags, [path, *times])

    def write(self, path: str) -> None:
        """Writes a file of rectangles, or of zones where one is a polygon."""
        with open(path, "w", encoding="utf-8", newline="") as out:
            table = csv.writer(out, lineterminator="\n")
            if self.are_rectangles:
                table.writerow(["name", "x1", "y1", "x2", "y2"])
                table.writerows([name, *sides] for name, sides in self.shapes.items())
                return
            table.writerow(["name", "wkt"])
            table.writerows([name or NAMELESS, wkt_of(shape)] for name, shape in self.shapes.items())


def wkt_of(shape: Known) -> str:
    """A shape as WKT; a rectangle is a ring of its corners."""
    if isinstance(shape, str):
        return shape
    left, low, right, top = shape
    corners = (left, low), (right, low), (right, top), (left, top), (left, low)
    return f"POLYGON (({', '.join(map(' '.join, corners))}))"


def asked(zones: Zones) -> Asked:
    """The zones that are given in some form."""
    if isinstance(zones, os.PathLike) or (isinstance(zones, str) and is_path(zones)):
        return of_file(os.fspath(zones))
    given = interface(zones)
    if isinstance(given, Mapping):
        if given.get("type") == "FeatureCollection":
            return Asked(geojson.named(given))
        if not geojson.is_geojson(given):
            return Asked(of_mapping(given))
    return Asked({"": known(given)})


def is_path(text: str) -> bool:
    """Whether a text names a file, and is not meant as WKT."""
    return not WKT.match(text) and ("(" not in text or os.path.exists(text))


def interface(given: Any) -> Any:
    """What a geometry or a frame says of itself as GeoJSON; all else as it is."""
    return getattr(given, "__geo_interface__", given)


def of_file(path: str) -> Asked:
    """The zones of a file: of a zone file, or of GeoJSON."""
    if FilePath(path).suffix.lower() not in geojson.SUFFIXES:
        return Asked({}, path)
    try:
        return Asked(geojson.read(path))
    except OSError as why:
        raise errors.FileUnreadable(f"cannot read {path}: {why.strerror}") from None
    except texts.Refused as why:
        raise errors.ZonesRefused(str(why), status=2) from None


def of_mapping(zones: Mapping[str, Shape]) -> dict[str, Known]:
    """Shapes by their names."""
    if not all(isinstance(name, str) and name for name in zones):
        raise ValueError("each zone has a name, which is a text")
    if not zones:
        raise ValueError("there is no zone")
    return {name: known(shape) for name, shape in zones.items()}


def known(shape: Any) -> Known:
    """A shape as texts."""
    if isinstance(shape, str):
        if not WKT.match(shape):
            raise ValueError(f"{shape!r} is no WKT of a POLYGON, a MULTIPOLYGON or a LINESTRING")
        return shape
    shape = interface(shape)
    if isinstance(shape, Mapping):
        return geojson.wkt(shape)
    return lines.sides(shape)
