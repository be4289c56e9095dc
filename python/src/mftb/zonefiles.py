"""Reads zones: a CSV file with the columns `name` and `wkt`, as GIS programs write it.

Other columns are passed over. A zone is a POLYGON, a MULTIPOLYGON or a LINESTRING. A file is read
whole or refused with the number of the record, from 1 for the header line.
"""

import csv
import re
from collections.abc import Iterator
from contextlib import contextmanager
from dataclasses import dataclass
from typing import Any, TypeAlias

from mftb.sources import as_text, opened
from mftb.texts import GREATEST, PLAIN_DECIMAL, Refused, exact_units

REASONS = {
    "Z1": "the text is not UTF-8",
    "Z2": "there is no column name or wkt",
    "Z3": "the name is empty, over 255 bytes, or there already",
    "Z4": "the wkt is no POLYGON, MULTIPOLYGON or LINESTRING",
    "Z5": "a coordinate is no plain decimal, or out of range",
    "Z6": "a ring is not closed, or too short",
    "Z7": "the wkt is EMPTY, or a position has not two coordinates",
}
LONGEST = 1 << 28
TOKEN = re.compile(r"[(),]|[^\s(),]+")
# How deep the lists of each kind are nested.
DEPTHS = {"LINESTRING": 1, "POLYGON": 2, "MULTIPOLYGON": 3}

Ring = list[int]
# A list of positions or of such lists; a position is a list of texts.
Nested: TypeAlias = list[Any]


class Fault(Exception):
    """The code of what is wrong with a zone."""


@dataclass
class Zone:
    """A name, and the rings of a polygon or the one path of a line, as x, y, x, y, .. in units."""

    name: str
    kind: str
    rings: list[Ring]


def read(path: str) -> list[Zone]:
    """Reads the zones of a file."""
    zones: dict[str, Zone] = {}
    record, first = 1, [""]
    with opened(path) as raw, long_fields():
        table = csv.reader(as_text(raw))
        try:
            first = next(table, first) or first
            columns = header(first)
            for row in table:
                record += 1
                if any(map(str.strip, row)):
                    zone = zone_of(row, columns)
                    if zone.name in zones:
                        raise Fault("Z3")
                    zones[zone.name] = zone
        except Fault as why:
            code = str(why)
            raise Refused(f"{path} record {record}: {code}: {reason(code, first[0])}") from None
        except csv.Error as why:
            raise Refused(f"{path} record {record}: {why}") from None
    return list(zones.values())


def names(path: str) -> list[str]:
    """The names in a file of zones or of rectangles, in its order, without a look at the shapes."""
    with opened(path) as raw, long_fields():
        head, *rows = csv.reader(as_text(raw))
    place = [name.strip(" \t").lower() for name in head].index("name")
    return [row[place].strip(" \t") for row in rows if place < len(row)]


@contextmanager
def long_fields() -> Iterator[None]:
    """Lets a field be as long as the WKT of a coast."""
    before = csv.field_size_limit(LONGEST)
    try:
        yield
    finally:
        csv.field_size_limit(before)


def header(row: list[str]) -> dict[str, int]:
    """Where the columns of the header line are."""
    places = {name.strip().lower(): place for place, name in reversed([*enumerate(row)])}
    if "name" not in places or "wkt" not in places:
        raise Fault("Z2")
    return places


def reason(code: str, start: str) -> str:
    """Why a file is refused, in words, by how it starts."""
    is_geojson = code == "Z2" and start.lstrip().startswith("{")
    return REASONS[code] + (" (tools/zones_from makes a file of zones of GeoJSON)" if is_geojson else "")


def zone_of(row: list[str], columns: dict[str, int]) -> Zone:
    """Reads the zone of a record."""
    try:
        "".join(row).encode()
    except UnicodeEncodeError:
        raise Fault("Z1") from None
    last = max(columns["name"], columns["wkt"])
    row = row + [""] * (last + 1 - len(row))
    return named_shape(row[columns["name"]].strip(" \t"), row[columns["wkt"]])


def named_shape(name: str, text: str) -> Zone:
    """Reads a shape that has a name."""
    if not name or len(name.encode()) > 255:
        raise Fault("Z3")
    return shape(name, text)


def shape(name: str, text: str) -> Zone:
    """Reads a shape in WKT."""
    tokens = TOKEN.findall(text)
    kind = tokens[0].upper() if tokens else ""
    if kind not in DEPTHS:
        raise Fault("Z4")
    if [it.upper() for it in tokens[1:2]] in (["EMPTY"], ["Z"], ["M"], ["ZM"]):
        raise Fault("Z7")
    found, depth = nested(tokens[1:])
    if depth != DEPTHS[kind]:
        raise Fault("Z4")
    paths = [found] if depth == 1 else found if depth == 2 else [it for part in found for it in part]
    rings = [ring(path) for path in paths]
    if kind == "LINESTRING":
        if len(rings[0]) < 4:
            raise Fault("Z6")
        return Zone(name, "line", rings)
    for it in rings:
        if len(it) < 8 or it[:2] != it[-2:]:
            raise Fault("Z6")
    return Zone(name, "polygon", rings)


def nested(tokens: list[str]) -> tuple[Nested, int]:
    """The lists that brackets make, and how deep the positions in them lie; all are as deep."""
    open_lists: list[Nested] = [[]]
    depths = set()
    before = ","
    for token in tokens:
        if token == "(":
            # A list begins, or stands behind a comma.
            if before not in "(,":
                raise Fault("Z4")
            open_lists.append([])
        elif token == ")":
            if before in "(," or len(open_lists) == 1:
                raise Fault("Z4")
            done = open_lists.pop()
            open_lists[-1].append(done)
        elif token != ",":
            add_number(open_lists[-1], token, before)
            depths.add(len(open_lists) - 1)
        elif before in "(,":
            raise Fault("Z4")
        before = token
    if len(open_lists) != 1 or len(open_lists[0]) != 1 or len(depths) != 1:
        raise Fault("Z4")
    return open_lists[0][0], depths.pop()


def add_number(positions: Nested, token: str, before: str) -> None:
    """Takes a number: of a new position, or of the one that was begun."""
    if before in "(,":
        positions.append([token])
    elif positions and isinstance(positions[-1][0], str):
        positions[-1].append(token)
    else:
        raise Fault("Z4")


def ring(positions: Nested) -> Ring:
    """The coordinates of positions, in units."""
    return list(numbers(positions))


def numbers(positions: Nested) -> Iterator[int]:
    for position in positions:
        if not isinstance(position[0], str):
            raise Fault("Z4")
        if len(position) != 2:
            raise Fault("Z7")
        for text in position:
            if not PLAIN_DECIMAL.fullmatch(text) or len(text) > 40:
                raise Fault("Z5")
            value = exact_units(text)
            if abs(value) > GREATEST * 10**7:
                raise Fault("Z5")
            yield value
