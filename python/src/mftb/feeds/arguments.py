"""The words of the command line that all readers of feeds take."""

from __future__ import annotations

import argparse
import codecs
import csv
from typing import Any

from mftb import commands
from mftb.sources import UTF_8
from mftb.texts import bound, duration, number, speed

LONGITUDE_LATITUDE = "urn:ogc:def:crs:OGC:1.3:CRS84"
WITH_ELEVATION = "longitude-latitude-degrees-elevation-metres"


def add_encoding(parser: argparse.ArgumentParser) -> None:
    """The word for what reads text, and not XML."""
    parser.add_argument(
        "--encoding",
        type=encoding,
        default=UTF_8,
        metavar="NAME",
        help="the encoding of the files, as latin-1 or cp1252 (without: UTF-8)",
    )


def encoding(text: str) -> str:
    """The name of an encoding, which is one."""
    try:
        # As bytes of UTF-8 are kept until they are used, a mark at the start is left out.
        return UTF_8 if codecs.lookup(text).name == "utf-8" else codecs.lookup(text).name
    except LookupError:
        raise argparse.ArgumentTypeError(f"{text!r} is no encoding such as utf-8, latin-1 or cp1252") from None


def jobs(text: str) -> int:
    """A number of processes."""
    if not (text.isascii() and text.isdigit() and 0 < int(text) <= 256):
        raise argparse.ArgumentTypeError(f"{text!r} is no number of processes from 1 to 256")
    return int(text)


def column_list(text: str) -> list[tuple[str, str]]:
    """The names and types of NAME[=TYPE],..., where a name with a comma stands in quotes."""
    return [(name, kind or "xsd:string") for name, kind in pairs(text)]


def renames(text: str) -> list[tuple[str, str]]:
    """The names of OLD=NEW,..."""
    found = pairs(text)
    if not all(new for _, new in found):
        raise argparse.ArgumentTypeError("a column has no new name")
    return found


def pairs(text: str) -> list[tuple[str, str]]:
    found = []
    for word in next(csv.reader([text]), []):
        one, _, two = word.partition("=")
        if not one.strip():
            raise argparse.ArgumentTypeError("a column has no name")
        found.append((one.strip(), two.strip()))
    return found


class Words(argparse.ArgumentParser):
    """A parser whose options say further what follows from them."""

    def parse_args(self, *words: Any) -> argparse.Namespace:  # type: ignore[override]
        options: argparse.Namespace = super().parse_args(*words)
        options.most = speed(options.max_speed)
        options.usual = speed(options.usual_speed)
        options.dimension, options.in_degrees = "2D", True
        own = [] if options.source is None else [(options.source, "xsd:string")]
        options.written = [*options.columns, *own]
        box = options.bbox
        if box and (box[0] > box[2] or box[1] > box[3]):
            self.error("X1 is above X2, or Y1 above Y2")
        if options.start is not None and options.end is not None and options.start > options.end:
            self.error("--from is after --to")
        # What is said at the end: each gives words, or nothing.
        options.remarks = []
        # What --after is called in words.
        options.before = options.after
        if options.after == "-" or options.state == "-":
            self.error("--after and --state take files")
        return options


def checked_speed(text: str) -> str:
    """The text of a speed, which is one."""
    speed(text)
    return text


def words(about: str | None, example: str, gap: str, why: str, most: str, usual: str) -> Words:
    """The words that all readers take; `why` says why `gap` is the gap of this field.

    `most` is the greatest speed of a fix that is kept, and `usual` what is warned of otherwise.
    """
    parser = Words(
        description=about, epilog=commands.example(example), formatter_class=argparse.RawDescriptionHelpFormatter
    )
    parser.set_defaults(usual_speed=usual)
    parser.add_argument(
        "files",
        metavar="FILE",
        nargs="+",
        help="read in this order; may be packed (.gz, or .zip with one file); - is standard input",
    )
    parser.add_argument("-o", dest="output", metavar="OUT", help="else standard output")
    parser.add_argument(
        "--gap",
        type=duration,
        default=duration(gap),
        metavar="TIME",
        help=f"no leg lasts longer than this, as 90s, 10m, 6h, 1d (without: {gap}, {why})",
    )
    add_columns(parser)
    add_cuts(parser)
    parser.add_argument(
        "--max-speed",
        type=checked_speed,
        default=most,
        metavar="SPEED",
        help="a fix that needs more from the last one is left out and counted, as 50kn, 90km/h, "
        f"25m/s, or off (without: {most}); legs of more than {usual} are counted in any case",
    )
    parser.add_argument(
        "--skip-bad",
        action="store_true",
        help="name the first twenty lines that cannot be read, count them, and go on",
    )
    return parser


def add_columns(parser: argparse.ArgumentParser) -> None:
    parser.add_argument(
        "--columns",
        type=column_list,
        default=[],
        metavar="NAME[=TYPE],...",
        help="columns to keep as attributes, with the type that is written (xsd:string)",
    )
    parser.add_argument(
        "--rename",
        type=renames,
        default=[],
        metavar="OLD=NEW,...",
        help="a column that is called OLD in some files is the column NEW",
    )
    parser.add_argument(
        "--source",
        metavar="COLUMN",
        help="a further column, with the file and the line of each leg's first position",
    )
    parser.add_argument(
        "--crs",
        metavar="NAME",
        default=LONGITUDE_LATITUDE,
        help="name of the coordinate reference system (without: %(default)s)",
    )
    parser.add_argument(
        "--prefix",
        metavar="TEXT",
        help="stands before each feature's name, so that equal names of two sources are two features",
    )
    parser.add_argument(
        "--unwrap",
        action="store_true",
        help="longitudes go on past 180 and -180 where a feature passes the date line",
    )


def add_cuts(parser: argparse.ArgumentParser) -> None:
    parser.add_argument(
        "--after",
        metavar="PREVIOUS",
        help="begin where features ended in the day before: its feed, its file of legs, the state "
        "that its conversion left, or the store that it was loaded into; what is not later is left out",
    )
    parser.add_argument(
        "--state",
        metavar="STATE",
        help="write here where features ended, for --after of the next day",
    )
    parser.add_argument("--from", dest="start", type=bound, metavar="T", help="leave out what is before")
    parser.add_argument("--to", dest="end", type=bound, metavar="T", help="leave out what is after")
    parser.add_argument(
        "--bbox",
        nargs=4,
        type=number,
        metavar=("X1", "Y1", "X2", "Y2"),
        help="keep only the legs whose box meets this one",
    )
