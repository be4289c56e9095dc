"""Runs of mftb over a store: what the store says of itself, and the answers to a script, row by row."""

from __future__ import annotations

import csv
import json
import subprocess
import tempfile
from collections.abc import Iterator, Sequence
from decimal import Decimal
from itertools import islice
from pathlib import Path
from typing import IO, Any, NamedTuple

from mftb.answers import HEAD, read_script
from mftb.program import find
from mftb.texts import Known, Refused, instant, read_instant


class Row(NamedTuple):
    """A row of an answer: its question's number and words, its feature, and the feature's leg.

    Of a leg there are the first and the last moment, its places as texts, and its values.
    """

    number: int
    words: str
    feature: str
    begin: str = ""
    end: str = ""
    places: tuple = ()
    values: tuple = ()


def said(command: list[str], out: IO[bytes] | int = subprocess.PIPE) -> tuple[bytes, bool]:
    """What a run of the program prints; what it says stands on standard error as it says it."""
    ended = subprocess.run(command, stdout=out)
    if ended.returncode not in (0, 3):
        raise Refused(f"mftb {command[1]} ended with status {ended.returncode}")
    return ended.stdout, ended.returncode == 3


class Store:
    """A store, and what `mftb info` says of it."""

    def __init__(self, named: str | None, path: str) -> None:
        self.program, self.path = find(named), path

    def read_info(self) -> None:
        """Asks the store for its first instant, its dimension, its columns, and where and when its legs are."""
        text = said([self.program, "info", "--json", self.path])[0]
        try:
            self.take(json.loads(text))
        except (ValueError, KeyError, TypeError):
            raise Refused(f"{self.program} does not say what {self.path} holds; is it mftb?") from None

    def count(self) -> int:
        """How many legs the store has."""
        self.read_info()
        return self.legs

    def take(self, info: dict[str, Any]) -> None:
        """Takes what `mftb info` says."""
        # A store without an accepted file says none of these.
        self.crs, self.dimension = info["crs"] or "", info["dimension"] or 2
        self.start, self.legs = read_instant(info["start"]) if info["start"] else 0, info["legs"]
        self.columns = [(column["name"], column["type"]) for column in info["columns"] or []]
        # The least x and y and the greatest ones, and two moments; nothing without a leg.
        self.extent = info["extent"]
        self.first, self.last = (info[it] and read_instant(info[it]) for it in ("first", "last"))

    def run(self, script: str, files: Sequence[str] = (), words: Sequence[str] = ()) -> tuple[IO[bytes], bool]:
        """Runs a script: a file of its answers, which goes when it is closed, and whether a line was refused."""
        out = tempfile.TemporaryFile("w+b")
        command = [self.program, "run", "--strict", *words, self.path, script, *files]
        return out, said(command, out)[1]

    def rows(self, out: IO[bytes], script: str) -> Iterator[Row | None]:
        """Each record of the answers in a file to the lines of a script."""
        out.seek(0)
        questions, table = iter(read_script(script)), csv.reader(line.decode() for line in out)
        for number, fields in enumerate(table):
            head, words = HEAD.fullmatch(fields[0]), next(questions, "")
            if head:
                yield from self.records(number, words, islice(table, int(head[1])))

    def records(self, question: int, words: str, records: Iterator[list[str]]) -> Iterator[Row | None]:
        """The records of an answer; one of counts or of a file has no feature."""
        number, kind, cut = question + 1, words.partition(" ")[0], self.dimension
        if kind == "features":
            yield from (Row(number, words, fields[0]) for fields in records)
        elif kind in ("box", "legs", "trajectory"):
            times = Known(self.instant)
            for feature, begin, end, way, *values in records:
                texts = way.split()
                places = tuple(texts[:cut]), tuple(texts[cut:])
                yield Row(number, words, feature, times[begin], times[end], places, tuple(values))
        else:
            yield from (None for _ in records)

    def instant(self, seconds: str) -> str:
        """The instant of a time field."""
        return instant(self.start + int(Decimal(seconds) * 1000))

    def tracks(self, names: Sequence[str]) -> dict[str, list[Row]]:
        """The legs of features, by their names; nothing of a name that no line can hold."""
        lines = [name for name in names if "\n" not in name and "\r" not in name]
        found: dict[str, list[Row]] = {name: [] for name in names}
        with tempfile.TemporaryDirectory() as folder:
            script = Path(folder, "script")
            script.write_bytes("".join(f"trajectory {name}\n" for name in lines).encode())
            out, _ = self.run(str(script), words=("-q",))
            with out:
                for row in filter(None, self.rows(out, str(script))):
                    found[row.feature].append(row)
        return found
