"""Zones and rectangles that have names: their outlines in a picture."""

from __future__ import annotations

from argparse import Namespace
from collections.abc import Iterator, Sequence
from typing import NamedTuple

from mftb import rectangles, zonefiles
from mftb.draw.plot import WIDTH, Extent, Piece, Place, View, clipped, pair
from mftb.draw.svg import clean
from mftb.page.data import UNITS

STYLE = (
    ".zone{fill:currentColor;fill-rule:evenodd;fill-opacity:.06}.zone,.gate{stroke:currentColor;stroke-width:1.2}"
    ".gate{stroke-width:3;stroke-linecap:butt}"
)


class Outline(NamedTuple):
    """A name, and the rings of a polygon or the one path of a line."""

    name: str
    is_line: bool
    rings: list[list[Place]]


def wanted(options: Namespace) -> list[Outline]:
    """The outlines that the command line names."""
    named = [*options.rect, *(one for path in options.rects for one in rectangles.read(path))]
    return [*map(of_rectangle, named), *(of_zone(zone) for path in options.zones for zone in zonefiles.read(path))]


def of_rectangle(given: rectangles.Rectangle) -> Outline:
    """The outline of a rectangle; one without width or height is a line."""
    left, low, right, top = map(float, given.sides)
    if left == right or low == top:
        return Outline(given.name, True, [[(left, low), (right, top)]])
    return Outline(given.name, False, [[(left, low), (right, low), (right, top), (left, top), (left, low)]])


def of_zone(zone: zonefiles.Zone) -> Outline:
    """The outline of a zone of a file."""
    rings = [[(x / UNITS, y / UNITS) for x, y in zip(ring[::2], ring[1::2])] for ring in zone.rings]
    return Outline(zone.name, zone.kind == "line", rings)


def extend(extent: Extent, outlines: Sequence[Outline]) -> None:
    """Takes the corners of outlines into what is seen."""
    for outline in outlines:
        for ring in outline.rings:
            for place in ring:
                extent.add(*place)


def path(view: View, outline: Outline) -> str:
    """The outline in the picture."""
    ways = ("M" + "L".join(pair(view.at(place)) for place in ring) for ring in outline.rings)
    kind, end = ("gate", "") if outline.is_line else ("zone", "Z")
    return f'<path class="{kind}" d="{"".join(way + end for way in ways)}"><title>{clean(outline.name)}</title></path>'


def edges(view: View, outline: Outline) -> Iterator[Piece]:
    """The parts of an outline's edges that are seen, in pixels."""
    for ring in outline.rings:
        places = list(map(view.at, ring))
        for one, two in zip(places, places[1:]):
            if view.shows(one, two):
                x, y, u, v = clipped(*one, *two, WIDTH, view.height)
                yield (x, y), (u, v)
