"""Writes a page: the template with its style, its program and its data, in one file."""

import html
import json
import re
from dataclasses import dataclass, field
from pathlib import Path
from typing import TextIO

from mftb.draw.plot import METRES, in_degrees, in_words
from mftb.draw.svg import DARK, LIGHT
from mftb.page.columns import Column, block, columns_block, packed
from mftb.page.data import Legs
from mftb.page.layers import Layer
from mftb.rectangles import Rectangle
from mftb.zonefiles import Zone

FOLDER = Path(__file__).resolve().parent
SCRIPTS = ["columns.js", "tracks.js", "view.js", "painting.js", "panel.js", "timeline.js", "page.js"]
PLACE = re.compile(r"\{\{(\w+)\}\}")


@dataclass
class Page:
    """All that is on a page."""

    title: str
    legs: Legs
    rectangles: list[Rectangle] = field(default_factory=list)
    zones: list[Zone] = field(default_factory=list)
    layers: list[Layer] = field(default_factory=list)
    # The place of the column by whose values features are called, if they are.
    label: int | None = None
    units: str = "metres"


def write(page: Page, out: TextIO) -> None:
    """Writes a page, piece by piece."""
    parts = {
        "title": html.escape(page.title),
        "style": source("page.css"),
        "script": "\n".join(map(source, SCRIPTS)),
    }
    parts |= blocks(page)
    template = source("template.html")
    for place, text in enumerate(PLACE.split(template)):
        out.write(parts[text] if place % 2 else text)


def source(name: str) -> str:
    """A file beside this one."""
    return (FOLDER / name).read_text(encoding="utf-8")


def blocks(page: Page) -> dict[str, str]:
    """The blocks of data: what the page says first, positions, and what waits for a click."""
    legs = page.legs
    dimension = legs.head.dimension
    positions = {
        "features": packed(legs.track_sizes()),
        "strips": packed(legs.strip_sizes()),
        "x": packed(legs.column(0)),
        "y": packed(legs.column(1)),
        "times": packed(legs.times()),
    }
    details = {"rows": packed(legs.rows())}
    if dimension == 3:
        details["z"] = packed(legs.column(2))
    head = head_of(page) | {
        "positions": shapes(positions),
        "details": shapes(details),
    }
    return {
        "head": block([as_json(head)]),
        "positions": columns_block(positions.values()),
        "details": columns_block(details.values()),
        "values": block([as_json([list(row) for row in legs.values])]),
    }


def head_of(page: Page) -> dict[str, object]:
    """What the page says of its legs, and what lies over them."""
    head = page.legs.head
    return {
        "title": page.title,
        "crs": head.crs,
        "crsWords": in_words(head.crs),
        "inDegrees": in_degrees(head.crs),
        "inMetres": bool(METRES.search(head.crs)) and not in_degrees(head.crs),
        "base": head.base,
        "dimension": head.dimension,
        "columns": head.columns,
        "names": list(page.legs.tracks),
        "labels": labels(page),
        "units": page.units,
        "palettes": {"light": LIGHT, "dark": DARK},
        "rectangles": [{"name": it.name, "sides": list(map(float, it.sides))} for it in page.rectangles],
        "zones": [{"name": it.name, "kind": it.kind, "rings": it.rings} for it in page.zones],
        "layers": [layer.as_json() for layer in page.layers],
    }


def labels(page: Page) -> list[str] | None:
    """What each feature is called: its last value in the column of labels, else its name."""
    if page.label is None:
        return None
    rows = list(page.legs.values)
    found = []
    for name, track in page.legs.tracks.items():
        row = rows[track.rows[-1]]
        found.append((row[page.label] if page.label < len(row) else "") or name)
    return found


def shapes(columns: dict[str, Column]) -> dict[str, list[int]]:
    """The shapes of columns by their names, in the order in which they are written."""
    return {name: column.shape() for name, column in columns.items()}


def as_json(thing: object) -> bytes:
    """A thing as JSON."""
    return json.dumps(thing, ensure_ascii=False, separators=(",", ":")).encode()
