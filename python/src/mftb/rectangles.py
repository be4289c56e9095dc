"""Rectangles that have names: as the command line takes them, and in a file as `mftb moments --rects` reads it."""

from __future__ import annotations

import argparse
import csv
import re
from typing import NamedTuple

from mftb import texts
from mftb.sources import as_text, opened

RECTANGLE = re.compile(r"(?:(.*)=)?([^=]*)", re.S)
SIDES = ["x1", "y1", "x2", "y2"]


class Rectangle(NamedTuple):
    """A rectangle that is shown: its name, and its sides as the texts that were given."""

    name: str
    sides: tuple[str, ...]


def add_words(parser: argparse.ArgumentParser, what: str) -> None:
    """The words that name rectangles and zones."""
    parser.add_argument(
        "--rect", action="append", default=[], type=rectangle, metavar="NAME=X1,Y1,X2,Y2", help=f"a rectangle{what}"
    )
    parser.add_argument(
        "--rects", action="append", default=[], metavar="FILE", help="rectangles: CSV with name, x1, y1, x2 and y2"
    )
    parser.add_argument("--zones", action="append", default=[], metavar="FILE", help="zones: CSV with name and wkt")


def rectangle(text: str) -> Rectangle:
    """A rectangle as --rect takes it."""
    found = RECTANGLE.fullmatch(text)
    assert found
    sides = tuple(side.strip() for side in found[2].split(","))
    if len(sides) != 4:
        raise argparse.ArgumentTypeError(f"{text!r} is not NAME=X1,Y1,X2,Y2")
    return checked(Rectangle((found[1] or "").strip(), sides))


def checked(given: Rectangle) -> Rectangle:
    """A rectangle whose sides are numbers in their order."""
    for side in given.sides:
        if not texts.PLAIN_DECIMAL.fullmatch(side):
            raise argparse.ArgumentTypeError(f"{side!r} is no plain decimal")
    left, bottom, right, top = map(float, given.sides)
    if left > right or bottom > top:
        raise argparse.ArgumentTypeError("X1 is above X2, or Y1 above Y2")
    return given


def read(path: str) -> list[Rectangle]:
    """The rectangles of a file."""
    found: list[Rectangle] = []
    with opened(path) as raw:
        table = csv.reader(as_text(raw))
        names = [name.strip(" \t").lower() for name in next(table, [])]
        if not {"name", *SIDES} <= set(names):
            raise texts.Refused(f"{path} record 1: there are no columns name, x1, y1, x2 and y2")
        places = [names.index(name) for name in ("name", *SIDES)]
        for record, row in enumerate(table, 2):
            if not any(map(str.strip, row)):
                continue
            try:
                name, *sides = (row[place].strip(" \t") for place in places)
                found.append(checked(Rectangle(name, tuple(sides))))
            except (IndexError, argparse.ArgumentTypeError) as why:
                raise texts.Refused(f"{path} record {record}: {why}") from None
    return found
