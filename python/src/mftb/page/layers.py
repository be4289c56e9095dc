"""What lies over the tracks: answers of `mftb run`, and what `mftb moments` printed.

A layer is a list of spans. A span is a feature with two moments between which its track is shown in
colour: one leg, one stay, or all of it. A ring is a place where a feature crosses an edge.
"""

import csv
import io
import re
import subprocess
from collections.abc import Iterable, Iterator
from dataclasses import dataclass, field
from fractions import Fraction
from pathlib import Path
from typing import NamedTuple

from mftb import answers
from mftb.page.data import Legs
from mftb.page.reading import Period, units
from mftb.program import find
from mftb.rectangles import Rectangle
from mftb.sources import as_text, opened
from mftb.texts import Refused, instant, several

MOMENTS = re.compile(r'^"?(?:zone"?,"?)?feature"?,')


class Span(NamedTuple):
    """A part of a feature's track; the moments are milliseconds after the base."""

    feature: int
    first: float
    last: float


class Ring(NamedTuple):
    """A crossing: the feature, the exact moment, the place in units, and what is said of it."""

    feature: int
    moment: float
    x: int
    y: int
    exact: str
    at: str
    way: str
    zone: str


class End(NamedTuple):
    """The columns of an end of a stay, and what the end is called."""

    moment: str
    at: str
    x: str
    y: str
    by: str
    edge: str
    visit: str


ENDS = [
    End("enters", "enters_at", "x_in", "y_in", "enters_by", "enters", "visit begins"),
    End("leaves", "leaves_at", "x_out", "y_out", "leaves_by", "leaves", "visit ends"),
]


@dataclass
class Layer:
    """Spans and rings with a title, and the rectangle that was asked about if it is known."""

    title: str
    kind: str
    note: str = ""
    spans: list[Span] = field(default_factory=list)
    rings: list[Ring] = field(default_factory=list)
    box: list[float] | None = None

    def as_json(self) -> dict[str, object]:
        """The layer as the page reads it."""
        return {
            "title": self.title,
            "note": self.note,
            "kind": self.kind,
            "spans": [list(column) for column in zip(*merged(self.spans))] or [[], [], []],
            "rings": [list(ring) for ring in sorted(self.rings, key=lambda ring: ring.moment)],
            "box": self.box,
        }


def merged(spans: Iterable[Span]) -> list[Span]:
    """Spans as they are drawn: one that begins where the feature's span before it ends continues it."""
    found: list[Span] = []
    lasts: dict[int, int] = {}
    for span in spans:
        place = lasts.get(span.feature)
        if place is not None and found[place].last == span.first:
            found[place] = found[place]._replace(last=span.last)
        else:
            lasts[span.feature] = len(found)
            found.append(span)
    return found


# Answers of a run


class Wanted(NamedTuple):
    """Which answers of a run are shown: the run's script, and the number of one if only one is."""

    script: str | None = None
    question: int | None = None


def read(path: str, legs: Legs, wanted: Wanted) -> list[Layer]:
    """Reads a file of answers, or what `mftb moments` printed."""
    with opened(path) as raw:
        text = as_text(raw)
        first = text.readline()
        if MOMENTS.match(first):
            return [moments(io.StringIO(first + text.read()), path, Path(path).name, legs)]
    if not re.match("(?:ok|refused) ", first):
        raise Refused(f"{path} line 1: no answer of mftb run or mftb moments")
    found = answers.chosen(answers.read_answers(path, wanted.script), wanted.question)
    layers = [layer for layer in (answer_layer(it, path, legs) for it in found) if layer]
    if not layers:
        raise Refused(f"{path}: no answer has legs or features to show")
    return layers


def answer_layer(answer: answers.Answer, path: str, legs: Legs) -> Layer | None:
    """The layer of an answer; nothing if it has no legs and no features."""
    place = f"{path} answer {answer.number}"
    step, numbers = legs.head.dimension, legs.numbers()
    if answer.rows and all(len(row) == 1 for row in answer.rows):
        layer = titled(answer, "feature")
        for record, row in enumerate(answer.rows, 1):
            layer.spans.append(whole(row[0], f"{place} record {record}", legs, numbers))
        return layer
    if not answer.rows or not is_legs(answer, step):
        return None
    layer = titled(answer, "leg")
    for record, hit in enumerate(answers.hits([answer], step), 1):
        first = round(hit.first)
        if legs.leg_at(hit.name, first) != first:
            raise Refused(f"{place} record {record}: the store has no such leg (see --period)")
        layer.spans.append(Span(numbers[hit.name], first, round(hit.last)))
    return layer


def titled(answer: answers.Answer, what: str) -> Layer:
    """A layer with the words of an answer's question, if they are known."""
    box, words = answer.box(), answer.words.split(" ")
    count = several(len(answer.rows), what)
    if not box:
        return Layer(f"{answer.words or f'question {answer.number}'}: {count}", f"{what}s")
    first, last = words[-2:]
    note = noted(words[-6:-2], first, last)
    return Layer(f"{' '.join(words[:-6])}: {count}", f"{what}s", note, box=box)


def noted(sides: Iterable[str], first: str, last: str) -> str:
    """A rectangle and a period in two lines; the day is said once if it is the same."""
    end = last[11:] if last[:10] == first[:10] else last
    return f"{' '.join(sides)}\n{first} to {end}"


def is_legs(answer: answers.Answer, dimension: int) -> bool:
    """Whether each record of an answer is a leg."""
    return sum(1 for _ in answers.hits([answer], dimension)) == len(answer.rows)


def whole(name: str, place: str, legs: Legs, numbers: dict[str, int]) -> Span:
    """The whole track of a feature."""
    track = legs.tracks.get(name)
    if track is None:
        raise Refused(f"{place}: the store has no feature {name!r} (see --period)")
    return Span(numbers[name], track.times[0], track.times[-1])


# Moments


def inside(rectangle: Rectangle, store: str, program: str | None, legs: Legs, period: Period) -> Layer:
    """When legs are inside a rectangle, as the program says."""
    words = [*rectangle.sides, instant(period.first), instant(period.last)]
    command = [find(program), "moments", store, *words]
    ended = subprocess.run(command, stdout=subprocess.PIPE, encoding="utf-8")
    if ended.returncode:
        raise Refused(f"mftb moments for {rectangle.name} ended with status {ended.returncode}")
    layer = moments(io.StringIO(ended.stdout), "mftb moments", f"inside {rectangle.name}", legs)
    layer.note = noted(rectangle.sides, *words[-2:])
    layer.rings = [ring._replace(zone=rectangle.name) for ring in layer.rings]
    return layer


def moments(text: Iterable[str], path: str, title: str, legs: Legs) -> Layer:
    """The layer of what `mftb moments` printed, by leg or by visit."""
    table = csv.DictReader(text)
    layer = Layer(title, "moments")
    numbers = legs.numbers()
    for row in table:
        place = f"{path} line {table.line_num}"
        try:
            feature = numbers.get(row["feature"])
            if feature is None:
                raise Refused(f"{place}: the store has no feature {row['feature']!r} (see --period)")
            layer.rings += rings(row, feature)
            first, last = (float(Fraction(row[end.moment])) for end in ENDS)
        except (KeyError, TypeError, ValueError, ZeroDivisionError):
            raise Refused(f"{place}: not what mftb moments prints") from None
        layer.spans.append(Span(feature, first, last))
    what = "visit" if "legs" in (table.fieldnames or []) else "leg"
    layer.title = f"{title}: {several(len(layer.spans), what)}"
    return layer


def rings(row: dict[str, str], feature: int) -> Iterator[Ring]:
    """The ends of a stay that lie on an edge; if that is not said, both ends as those of a visit."""
    touches = row["enters"] == row["leaves"]
    for end in ENDS[:1] if touches else ENDS:
        by = row.get(end.by)
        if by not in ("edge", None):
            continue
        way = end.edge if by else end.visit
        yield Ring(
            feature,
            float(Fraction(row[end.moment])),
            units(row[end.x]),
            units(row[end.y]),
            row[end.moment],
            row[end.at],
            "meets" if touches and by else way,
            row.get("zone") or "",
        )
