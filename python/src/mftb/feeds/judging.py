"""What is judged of the positions of some lines at once, in this process or in one beside it."""

from __future__ import annotations

from argparse import Namespace
from collections.abc import Mapping, Sequence
from dataclasses import dataclass
from itertools import compress
from typing import Any, TypeAlias

from mftb.feeds.positions import Axis, Bounds, Position, Positions, axes_of, unpacked
from mftb.sources import Table
from mftb.texts import BadLine, Known, LeftOut, feature_name, field, further_fields, instant

# What is read of a line: a position, or why there is none.
Item: TypeAlias = Position | Exception
FURTHER = Known(further_fields)


def table_of(items: Sequence[Item]) -> Table:
    """What was read of lines one by one, column by column."""
    kept = [(row, item) for row, item in enumerate(items) if isinstance(item, tuple)]
    faults = [(place, item) for place, item in enumerate(items) if isinstance(item, Exception)]
    columns: list[list] = [list(column) for column in zip(*[item for _, item in kept])] or [[], [], [], [], []]
    features, moments, places, values, segments = columns
    further = list(map(FURTHER.__getitem__, values))
    return Table([row for row, _ in kept], features, moments, axes_of(places), further, segments, faults)


# What is left out


class Sieve:
    """What the words of the command line leave out, line by line, or add to a position."""

    def __init__(self, options: Namespace, begins: Mapping[str, Position]) -> None:
        self.options, self.begins = options, begins
        self.latest = max((begin.moment for begin in begins.values()), default=None)
        self.names: Known[Any] = Known(self.name)
        # Of each feature that is not later than where it ended, the first and the last such moment.
        self.early: dict[str, tuple[int, int]] = {}

    def name(self, feature: str) -> str | Exception:
        """A feature's name with --prefix, or why there is none."""
        try:
            return feature_name((self.options.prefix or "") + feature, "the name with --prefix")
        except BadLine as why:
            return why.with_traceback(None)

    def sifted(self, path: str, lines: Sequence[int], table: Table) -> Table:
        """What is left of the positions of lines of a file."""
        if self.options.prefix is not None:
            table.features = list(map(self.names.__getitem__, table.features))
        if self.options.source is not None:
            places = (field(f"{path}:{lines[row]}") for row in table.rows)
            table.further = [f"{text},{place}" for text, place in zip(table.further, places)]
        if not table.rows or self.passes(table.moments):
            return table
        whys = list(map(self.why, table.features, table.moments))
        kept = [why is None for why in whys]
        more = ((row, why) for row, why in zip(table.rows, whys) if why is not None)
        faults = sorted([*table.faults, *more], key=lambda fault: fault[0])
        columns: list[Sequence] = [table.rows, table.features, table.moments, table.further, table.segments]
        rows, features, moments, further, segments = (list(compress(column, kept)) for column in columns)
        axes: list[Axis] = [
            (list(compress(texts, kept)), list(compress(numbers, kept))) for texts, numbers in table.axes
        ]
        return Table(rows, features, moments, axes, further, segments, faults)

    def passes(self, moments: list[int]) -> bool:
        """Whether all positions with these moments are left as they are."""
        options, first, last = self.options, min(moments), max(moments)
        return (
            options.prefix is None
            and (options.start is None or first >= options.start)
            and (options.end is None or last <= options.end)
            and (self.latest is None or first > self.latest)
        )

    def why(self, feature: str | Exception, moment: int) -> Exception | None:
        """Why a position is left out, if it is."""
        options = self.options
        if isinstance(feature, Exception):
            return feature
        if options.start is not None and moment < options.start:
            return LeftOut("before --from")
        if options.end is not None and moment > options.end:
            return LeftOut("after --to")
        begin = self.begins.get(feature)
        if begin is None or moment > begin.moment:
            return None
        self.note(feature, moment, moment)
        return LeftOut(f"not later than {options.before}")

    def note(self, feature: str, first: int, last: int) -> None:
        """Notes moments of a feature that are not later than where it ended."""
        known = self.early.get(feature, (first, last))
        self.early[feature] = min(known[0], first), max(known[1], last)

    def taken(self) -> dict[str, tuple[int, int]]:
        """What was noted since this was asked last."""
        found, self.early = self.early, {}
        return found

    def question(self) -> str:
        """Whether these files were loaded before, in words."""
        feature, (first, last) = next(iter(self.early.items()))
        end = instant(self.begins[feature].moment)
        return f"already loaded? {feature!r} is here from {instant(first)} to {instant(last)}, and ended at {end}"


# Batches


@dataclass
class Batch:
    """What some lines of a file hold: positions, packed, and what the order and the bounds of all need of them."""

    lines: int
    last_line: int
    # The lines of the positions.
    numbers: Sequence[int]
    packed: bytes
    bounds: Bounds
    # When each feature is last.
    lasts: dict[str, int]
    # The first line and its feature that go back in time within the batch.
    disorder: tuple[int, str] | None
    # The lines without a position, and why.
    faults: list[tuple[int, Exception]]
    early: dict[str, tuple[int, int]]

    def back(self, ends: Mapping[str, int]) -> tuple[int, str] | None:
        """The first line whose feature goes back in time, from where features ended before, with the feature."""
        found = unpacked(self.packed)
        return first_back(self.numbers, found.features, found.moments, dict(ends))


@dataclass
class Judge:
    """What judges the items of lines of a file, once the sieve has left out what it leaves out."""

    path: str
    sieve: Sieve

    def __call__(self, lines: Sequence[int], items: Sequence[Item] | Table) -> Batch:
        found = items if isinstance(items, Table) else table_of(items)
        table = self.sieve.sifted(self.path, lines, found)
        return batch_of(lines, table, self.sieve.taken())


def batch_of(lines: Sequence[int], table: Table, early: dict[str, tuple[int, int]]) -> Batch:
    """What lines hold."""
    features, moments, axes = table.features, table.moments, table.axes
    numbers = [lines[row] for row in table.rows] if table.faults else lines
    faults = [(lines[place], why) for place, why in table.faults]
    bounds, packed = Bounds(), b""
    if moments:
        bounds.widen(moments, axes)
        places = list(map(" ".join, zip(*[texts for texts, _ in axes])))
        xs, ys = axes[0][1], axes[1][1]
        packed = Positions(features, moments, places, xs, ys, table.further, table.segments).packed()
    disorder = None if moments == sorted(moments) else first_back(numbers, features, moments, {})
    lasts = dict(zip(features, moments))
    return Batch(len(lines), lines[-1], numbers, packed, bounds, lasts, disorder, faults, early)


def first_back(
    lines: Sequence[int], features: Sequence[str], moments: Sequence[int], ends: dict[str, int]
) -> tuple[int, str] | None:
    """The first line whose feature goes back in time, with the feature; `ends` is where features were before."""
    for line, feature, moment in zip(lines, features, moments):
        if moment < ends.get(feature, moment):
            return line, feature
        ends[feature] = moment
    return None
