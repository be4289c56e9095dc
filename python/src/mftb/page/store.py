"""A store of the library as a page."""

from __future__ import annotations

import argparse
import os
import tempfile
from typing import NamedTuple

from mftb import errors, lines, texts
from mftb.page import command
from mftb.rectangles import Rectangle, checked
from mftb.zones import Asked


class Wanted(NamedTuple):
    """A page that is wanted: of which store, by which program, where, and with what title and period."""

    path: str
    program: str
    file: str
    title: str | None = None
    period: lines.Period | None = None


def save(wanted: Wanted, rectangles: Asked | None, zones: Asked | None) -> None:
    """Writes the page of a store."""
    words = [wanted.path, "-o", wanted.file, "--program", wanted.program]
    options = command.words().parse_args([*words, *(["--title", wanted.title] if wanted.title else [])])
    try:
        options.rect = of_sides(rectangles) if rectangles else []
        options.period = tuple(texts.bound(lines.moment(moment)) for moment in wanted.period) if wanted.period else None
        with tempfile.TemporaryDirectory(prefix="mftb-") as folder:
            options.zones = [outlines(zones, os.path.join(folder, "zones.csv"))] if zones else []
            command.save(options)
    except argparse.ArgumentTypeError as why:
        raise ValueError(str(why)) from None
    except texts.Refused as why:
        raise errors.MftbError(str(why)) from None


def of_sides(given: Asked) -> list[Rectangle]:
    """The rectangles that are given."""
    sides = {name: shape for name, shape in given.shapes.items() if isinstance(shape, tuple)}
    if given.path or len(sides) < len(given.shapes):
        raise ValueError("polygons are zones=, and no rectangles=")
    return [checked(Rectangle(name, shape)) for name, shape in sides.items()]


def outlines(given: Asked, path: str) -> str:
    """The file of zones: the one that is given, or one at the path."""
    if given.path:
        return given.path
    given.as_polygons().write(path)
    return path
