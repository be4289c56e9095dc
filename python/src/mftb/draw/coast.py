"""Coastlines of a shapefile, by Debian's package python3-pyshp."""

from __future__ import annotations

from collections.abc import Iterator, Sequence
from typing import Any

from mftb.draw.plot import Piece, Place, View, path_of
from mftb.texts import Refused


def path(view: View, file: str) -> str:
    """The path of the coastlines that are seen."""
    try:
        import shapefile
    except ImportError:
        raise Refused("--coast takes Python's module shapefile (Debian's python3-pyshp)") from None
    if not view.degrees:
        raise Refused("--coast is for longitudes and latitudes in degrees")
    left, right, low, top = view.edges()
    try:
        with shapefile.Reader(file) as reader:
            shapes = (it for it in reader.iterShapes() if it.shapeType)
            near = [it for it in shapes if meets(it.bbox, (left, low, right, top))]
            return "".join(path_of(seen(view, line)) for shape in near for line in lines(shape))
    except (shapefile.ShapefileException, ValueError) as why:
        raise Refused(f"{file} is no shapefile: {why}") from None


def meets(one: Sequence[float], two: Sequence[float]) -> bool:
    """Whether two boxes meet."""
    return one[0] <= two[2] and two[0] <= one[2] and one[1] <= two[3] and two[1] <= one[3]


def lines(shape: Any) -> Iterator[Sequence[Place]]:
    """The lines of a shape."""
    ends = [*shape.parts[1:], len(shape.points)]
    return (shape.points[start:end] for start, end in zip(shape.parts, ends))


def seen(view: View, line: Sequence[Place]) -> list[Piece]:
    """The pieces of a line that are seen, in pixels."""
    points = [view.at(place) for place in line]
    return [pair for pair in zip(points, points[1:]) if view.shows(*pair)]
