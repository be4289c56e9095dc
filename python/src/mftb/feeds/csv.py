"""Any table of positions (CSV) as a file of legs, in the profile of docs/user/FILES.md.

The columns are said by their names, or by their numbers from 1.
"""

from __future__ import annotations

import argparse
from argparse import Namespace
from collections.abc import Sequence
from datetime import datetime, timezone, tzinfo
from zoneinfo import ZoneInfo

from mftb import texts
from mftb.feeds import arguments, conversion, layouts
from mftb.feeds.positions import Position
from mftb.sources import RowReader

EXAMPLE = """example:
  tools/from_csv --id taxi --time time --x lon --y lat --tz America/New_York taxis.csv -o legs.csv
  tools/from_csv --id 1 --time 2 --x 3 --y 4 --crs metres walk.csv -o legs.csv

The delimiter (, ; tab |) and whether there is a header line are found, or said. Times are ISO 8601
with or without a zone; numbers of seconds, milliseconds, micro- or nanoseconds since 1970, told by
the size of the first; or dates with the year first, with dots and the day first, or with the month
in letters. 03/06/2024 could be two days, and takes --format. Where --crs is not said, coordinates
are degrees of longitude and latitude; with another name they are taken as they are, in a plane.
This tool is no part of any proof."""


def layout(table: layouts.Table, options: Namespace, clock: layouts.Clock) -> RowReader:
    """What reads a row of a table."""
    names = options.id, options.time, options.x, options.y
    who, at, x, y = map(table.place, names)
    z = None if options.z is None else table.place(options.z)
    values = options.kept.reader(table.header)
    name, time, *axes = (table.header[place] for place in (who, at, x, y))
    comma = options.decimal == ","

    def read(row: list[str]) -> Position:
        if not row[x].strip() and not row[y].strip():
            raise texts.LeftOut("without a position")
        try:
            when = clock.read(row[at].strip(" \t"))
        except (ValueError, OverflowError) as why:
            raise texts.BadLine(f"{time} {row[at]!r} is no moment: {why}") from None
        place = tuple([layouts.plain_number(row[it], table.header[it], comma) for it in (x, y)])
        if options.in_degrees:
            place = texts.degrees(place[0], place[1], axes)
        if z is not None:
            place += (layouts.plain_number(row[z], table.header[z], comma),)
        place = tuple([texts.plain_decimal(text, "a coordinate") for text in place])
        return Position(texts.feature_name(row[who], name), when, place, values.of(row))

    return RowReader(read)


def reader(options: Namespace) -> conversion.FileReader:
    clock = layouts.Clock(options.tz or timezone.utc, options.format)
    options.remarks += [lambda: None if options.tz else clock.remark_zone(), clock.remark_days]
    names = [options.id, options.time, options.x, options.y, *([options.z] if options.z else [])]

    def layout_of(table: layouts.Table) -> RowReader:
        return layout(table, options, clock)

    return lambda path, judge: layouts.read(path, names, options, layout_of, judge)


def zone(text: str) -> tzinfo | None:
    """A zone by its name, or by its offset."""
    try:
        if text[:1] in "+-":
            return datetime.fromisoformat(f"2000-01-01T00:00{text}").tzinfo
        return ZoneInfo(text)
    except (ValueError, OSError, KeyError):
        raise argparse.ArgumentTypeError(
            f"{text!r} is no zone such as Europe/Berlin, nor an offset such as +01:00"
        ) from None


def delimiter(text: str) -> str:
    found = {"tab": "\t", "\\t": "\t"}.get(text, text)
    if len(found) != 1:
        raise argparse.ArgumentTypeError(f"{text!r} is no single sign, nor tab")
    return found


def words() -> arguments.Words:
    parser = arguments.words(
        __doc__, EXAMPLE, gap="1h", why="which is a guess: say what fits the table", most="off", usual="1200km/h"
    )
    for name, what in [
        ("id", "whose position it is"),
        ("time", "when"),
        ("x", "x, or the longitude"),
        ("y", "y, or the latitude"),
    ]:
        parser.add_argument(f"--{name}", metavar="COL", required=True, help=f"the column that says {what}")
    parser.add_argument("--z", metavar="COL", help="the column that says the height; else 2D")
    add_forms(parser)
    arguments.add_encoding(parser)
    return parser


def add_forms(parser: argparse.ArgumentParser) -> None:
    parser.add_argument(
        "--tz",
        type=zone,
        metavar="ZONE",
        help="the zone of times that say none, as Europe/Berlin or +01:00 (without: UTC)",
    )
    parser.add_argument(
        "--format",
        help="the form of times: s, ms, us or ns since 1970, or as Python's strptime has it, such "
        "as '%%m/%%d/%%Y %%I:%%M:%%S %%p'",
    )
    parser.add_argument("--delimiter", type=delimiter, metavar="SIGN", help="what is between fields, or tab")
    parser.add_argument(
        "--header",
        action=argparse.BooleanOptionalAction,
        help="whether the first row has the names (without: found)",
    )
    parser.add_argument("--decimal", choices=".,", default=".", help="what stands before fractions (.)")


def parse(given: Sequence[str] | None = None) -> Namespace:
    """The options of the command line, or of words that are given."""
    parser = words()
    options = parser.parse_args(given)
    if options.z is not None:
        options.dimension = "3D"
    if options.z is not None and options.crs == arguments.LONGITUDE_LATITUDE:
        options.crs = arguments.WITH_ELEVATION
    options.in_degrees = options.crs in (arguments.LONGITUDE_LATITUDE, arguments.WITH_ELEVATION)
    if options.unwrap and not options.in_degrees:
        parser.error("--unwrap is for degrees")
    return options


def main() -> int:
    return conversion.run("from_csv", parse(), reader, "row")
