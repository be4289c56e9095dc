"""Polygons of other files as a zone file: CSV with the columns name and wkt.

It reads GeoJSON, keeping each number as it is written, and where geopandas is there all that it reads,
such as shapefiles. It also makes a circle, as a polygon of corners on it. A zone is a polygon, several,
or a line of two positions, which is a gate.
"""

from __future__ import annotations

import argparse
import csv
import importlib.util
import math
import sys
from collections.abc import Iterator, Mapping
from contextlib import contextmanager
from decimal import Decimal
from pathlib import Path
from typing import IO

from mftb import geojson, texts, zonefiles
from mftb.commands import ended, example, say
from mftb.legfiles import beside

EXAMPLE = """example:
  tools/zones_from districts.geojson -o districts.csv
  tools/zones_from harbours.shp --property PORT_NAME -o harbours.csv
  tools/zones_from --circle 10.2 54.4 0.05 64 --name anchorage -o anchorage.csv

Coordinates stay what they are: they have to be of the store's system. A circle is one of the plane,
in units of the coordinates. A third ordinate is left out. This tool is no part of any proof."""
MOST_CORNERS = 100_000


def words() -> argparse.ArgumentParser:
    """The words of the command line."""
    parser = argparse.ArgumentParser(
        description=__doc__, epilog=example(EXAMPLE), formatter_class=argparse.RawDescriptionHelpFormatter
    )
    parser.add_argument("file", metavar="FILE", nargs="?", help="GeoJSON, or what geopandas reads")
    parser.add_argument("-o", dest="output", metavar="OUT", help="the zone file; else standard output")
    parser.add_argument("--property", default="name", help="the property that names zones (name)")
    parser.add_argument(
        "--circle", nargs=4, metavar=("X", "Y", "R", "N"), help="a circle about X Y, as a polygon of N corners"
    )
    parser.add_argument("--name", default="circle", help="the circle's name (circle)")
    return parser


def circle(x: str, y: str, radius: str, corners: str) -> str:
    """A polygon whose corners lie on a circle, to seven digits behind the point."""
    if not corners.isdigit() or not 3 <= int(corners) <= MOST_CORNERS:
        raise texts.Refused(f"{corners!r} is no number of corners from 3 to {MOST_CORNERS}")
    for text in (x, y, radius):
        if not texts.PLAIN_DECIMAL.fullmatch(text):
            raise texts.Refused(f"{text!r} is no plain decimal")
    turns = [2 * math.pi * place / int(corners) for place in range(int(corners))]
    places = [
        " ".join(shown(Decimal(middle) + Decimal(radius) * Decimal(part)) for middle, part in zip((x, y), parts))
        for parts in ((math.cos(turn), math.sin(turn)) for turn in turns)
    ]
    return f"POLYGON (({', '.join([*places, places[0]])}))"


def shown(value: Decimal) -> str:
    """A number to seven digits behind the point."""
    text = f"{value:.7f}".rstrip("0").rstrip(".")
    return "0" if text == "-0" else text


def by_geopandas(path: str, name: str) -> dict[str, str]:
    """The shapes of a file that geopandas reads."""
    if not importlib.util.find_spec("geopandas"):
        wanted = "Debian's package python3-geopandas, for /usr/bin/python3"
        raise texts.Refused(f"{path}: only GeoJSON is read without geopandas ({wanted})")
    import geopandas

    try:
        frame = geopandas.read_file(path)
        say("zones_from", f"coordinates of {path}: {frame.crs.to_string() if frame.crs else 'of no known system'}")
        return geojson.named(frame.__geo_interface__, name)
    except ValueError as why:
        raise texts.Refused(f"{path}: {why}") from None
    except Exception as why:
        # What is below geopandas has errors of its own.
        raise texts.Refused(f"{path} cannot be read: {why}") from None


def shapes_of(options: argparse.Namespace) -> dict[str, str]:
    """The zones that are asked for, by their names."""
    if options.circle:
        return {options.name: circle(*options.circle)}
    if Path(options.file).suffix.lower() in geojson.SUFFIXES:
        return geojson.read(options.file, options.property)
    return by_geopandas(options.file, options.property)


def checked(shapes: Mapping[str, str], path: str) -> Mapping[str, str]:
    """The zones, each of which a zone file may have."""
    for place, (name, wkt) in enumerate(shapes.items(), 1):
        try:
            zonefiles.named_shape(name, wkt)
        except zonefiles.Fault as why:
            raise texts.Refused(f"{path}: zone {place}, {name!r}: {why}: {zonefiles.REASONS[str(why)]}") from None
    return shapes


@contextmanager
def output(path: str | None) -> Iterator[IO[str]]:
    """The file of -o, or standard output."""
    if path is None or path == "-":
        yield sys.stdout
        sys.stdout.flush()
        return
    with beside(path) as out:
        yield out


def work(options: argparse.Namespace) -> int:
    """Writes the zone file, and says how many zones it has."""
    shapes = checked(shapes_of(options), options.file or "the circle")
    with output(options.output) as out:
        table = csv.writer(out, lineterminator="\n")
        table.writerow(["name", "wkt"])
        table.writerows(shapes.items())
    say("zones_from", texts.several(len(shapes), "zone"))
    return 0


def main() -> int:
    """The command `mftb-zones-from`."""
    parser = words()
    options = parser.parse_args()
    if bool(options.file) == bool(options.circle):
        parser.error("either a FILE is wanted, or --circle")
    return ended("zones_from", lambda: work(options), "stopped; no file is written")
