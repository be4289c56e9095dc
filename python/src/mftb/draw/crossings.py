"""Where and when legs cross a rectangle's edges, as `mftb moments` prints it."""

from __future__ import annotations

import csv
from collections.abc import Iterator, Sequence
from typing import NamedTuple

from mftb.sources import as_text, opened
from mftb.texts import Refused

ENDS = [("x_in", "y_in", "enters_at", "enters_by"), ("x_out", "y_out", "leaves_at", "leaves_by")]


class Crossing(NamedTuple):
    """A place at an edge of the rectangle, where a feature enters or leaves it, and the instant."""

    name: str
    place: tuple
    at: str


def read(path: str) -> list[Crossing]:
    """The crossings in what `mftb moments` printed; an end that is the leg's or the period's is none."""
    with opened(path) as raw:
        table = csv.DictReader(as_text(raw))
        try:
            return [
                Crossing(row["feature"], (float(row[x]), float(row[y])), row[at])
                for row in table
                # A leg that only touches enters and leaves at one moment.
                for x, y, at, by in ENDS[: 1 if row["enters"] == row["leaves"] else 2]
                if row[by] == "edge"
            ]
        except (KeyError, TypeError, ValueError):
            raise Refused(f"{path} line {table.line_num}: not what mftb moments prints") from None


def times(crossings: Sequence[Crossing]) -> Iterator[str]:
    """The instants as they are written in a picture: without the day where all are of one day."""
    days = {crossing.at[:10] for crossing in crossings}
    for crossing in crossings:
        text = crossing.at[11:] if len(days) == 1 else crossing.at
        yield text.rstrip("Z").replace("T", " ")
