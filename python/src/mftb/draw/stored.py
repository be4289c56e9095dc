"""The legs of a store, for a picture: the store is asked for those in view, and each is read as it is printed."""

from __future__ import annotations

import csv
import subprocess
import tempfile
from collections.abc import Iterable, Iterator
from decimal import Decimal
from io import TextIOWrapper
from itertools import chain, islice
from pathlib import Path
from typing import TYPE_CHECKING, IO

from mftb import asking
from mftb.answers import HEAD
from mftb.draw.plot import Extent, Place, Seen, View
from mftb.texts import Refused, instant

if TYPE_CHECKING:
    from mftb.draw.command import Shown

# The greatest magnitude of a coordinate, and the least span between two.
GREATEST, LEAST = 100_000_000, 1e-7
# So many pixels beyond the frame the ink of a leg may still be seen.
INK = 2


class Stored:
    """The legs of a store in a period, as tools/draw takes them of files."""

    kind = "store"

    def __init__(self, store: asking.Store, period: tuple[int, int] | None = None) -> None:
        self.store, self.title = store, Path(store.path).name
        self.crs, self.dimension, self.start = store.crs, store.dimension, store.start
        self.columns = ["mfidref", "", "", "trajectory", *(name for name, _ in store.columns)]
        if not store.extent:
            raise Refused(f"{store.path}: there is no leg in this store")
        first, last = period or (store.first, store.last)
        self.first, self.last = max(first, store.first), min(last, store.last)
        if self.first > self.last:
            own = f"from {instant(store.first)} to {instant(store.last)}"
            raise Refused(f"{store.path}: there is no leg in this period; its legs are {own}")

    def legs(self, view: View) -> Iterator[Seen]:
        """Each leg that is in view: the store, its record, its number there, and its places."""
        return self.legs_of([self.question(view)])

    def legs_of(self, lines: Iterable[str]) -> Iterator[Seen]:
        """Each leg of the answers to the lines of a script."""
        step = self.dimension
        try:
            for row in printed(self.store, lines):
                numbers = [*map(float, row[3].split(" "))]
                yield Seen(self, row, 0, numbers[0], numbers[1], numbers[step], numbers[step + 1])
        except (ValueError, IndexError):
            raise Refused("mftb run printed what is no leg") from None

    def question(self, view: View) -> str:
        """What asks for the legs in view."""
        across, up = (max(INK / scale, LEAST) for scale in (view.across, view.scale))
        left, right, low, top = view.edges()
        sides = left - across, low - up, right + across, top + up
        box = " ".join(f"{min(max(side, -GREATEST), GREATEST):.7f}" for side in sides)
        return f"legs ever {box} {instant(self.first)} {instant(self.last)}"

    def corners(self) -> list[Place]:
        """Two corners of all that the store has."""
        left, low, right, top = self.store.extent
        return [(left, low), (right, top)]

    def bounds(self, shown: Shown | None, _is_whole: bool = False) -> list[Place]:
        """Two corners of what is shown of features, or of all that the store has."""
        if not shown:
            return self.corners()
        every = Extent()
        begin, end = ((moment - self.start) / 1000 for moment in (self.first, self.last))
        # A name that no line can hold is passed over.
        lines = [f"trajectory {name}" for name in shown.names if not {"\n", "\r"} & {*name}]
        for file, row, number, x, y, u, v in self.legs_of(lines):
            if float(row[1]) <= end and float(row[2]) >= begin:
                for one, two in shown.pieces(file, row, number, (x, y), (u, v)):
                    every.add(*one)
                    every.add(*two)
        return every.corners()

    def milliseconds(self, text: str) -> int:
        """The moment of a time field."""
        return self.start + int(Decimal(text) * 1000)


def printed(store: asking.Store, lines: Iterable[str]) -> Iterator[list[str]]:
    """The records of a store's answers to the lines of a script, one by one as the program prints them."""
    with tempfile.NamedTemporaryFile("w", encoding="utf-8", newline="\n", suffix=".txt") as script:
        script.writelines(f"{line}\n" for line in lines)
        script.flush()
        command = [store.program, "run", "--existing", "-q", store.path, script.name]
        with subprocess.Popen(command, stdout=subprocess.PIPE) as run:
            assert run.stdout is not None
            yield from records(TextIOWrapper(run.stdout, encoding="utf-8", newline="\n"))
        if run.returncode:
            raise Refused(f"mftb run ended with status {run.returncode}")


def records(lines: IO[str]) -> Iterator[list[str]]:
    """The records of answers, as lists of fields."""
    for line in lines:
        head = HEAD.fullmatch(line.rstrip("\n"))
        if not head:
            raise Refused(f"mftb run printed {line.rstrip()!r}, which is no answer")
        for record in islice(lines, int(head[1])):
            # A line without a quote is a record; one with quotes may go on over lines.
            if '"' in record:
                yield next(csv.reader(chain([record], lines)))
            else:
                yield record[:-1].split(",")
