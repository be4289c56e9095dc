"""A fleet as a book of the library: it is asked and loaded as a store is."""

from __future__ import annotations

import os
import re
import subprocess
import sys
import tempfile
from collections.abc import Callable, Sequence
from concurrent.futures import ThreadPoolExecutor
from pathlib import Path as FilePath
from typing import TypeVar

from mftb import errors, lines, moments, runs
from mftb.fleet import manifest
from mftb.forms import LoadForm
from mftb.lines import Path, Period
from mftb.records import Info, Loaded, Report
from mftb.store import Book, Shown, Store
from mftb.zones import NAMELESS, Asked, Words

Value = TypeVar("Value")
SOURCE = str(FilePath(__file__).resolve().parents[2])
SAID = re.compile(r"(?:fleet: )?(?:part [0-9]+: )?(?=mftb: )")


class Fleet(Book):
    """A book in parts, each of which is a store: a folder that `mftb-fleet new` made, or `Fleet.new`.

    `scheduler` is the address of a Dask cluster, and `workers` how many parts are at work at once here.
    """

    def __init__(
        self, path: Path, *, program: Path | None = None, scheduler: str | None = None, workers: int | None = None
    ) -> None:
        self.path, self.program = os.fspath(path), runs.found(program)
        self._where = ["--scheduler", scheduler] if scheduler else []
        self._where += ["--workers", str(workers)] if workers else []

    @classmethod
    def new(cls, path: Path, parts: int, *, program: Path | None = None) -> Fleet:
        """Makes a fleet of parts without a leg."""
        fleet = cls(path, program=program)
        fleet._printed("new", "--parts", str(parts))
        return fleet

    def __repr__(self) -> str:
        return f"Fleet({self.path!r})"

    def parts(self) -> list[Store]:
        """The stores of the parts."""
        held = manifest.read(self.path).parts
        return [Store(FilePath(self.path, one.store), program=self.program) for one in held]

    def load(self, *files: Path) -> list[Loaded]:
        """Loads files: all of them, or nothing."""
        names = [os.fspath(file) for file in files]
        answers = self._printed("load", *names, *self._where).splitlines()
        return [LoadForm(file=name).record(counts.split(",")) for name, counts in zip(names, answers[1::2])]

    def info(self) -> Info:
        """What the fleet holds: of sizes the sums, and of corners and moments those of all parts."""
        said = self._each(Store.info)
        some = next((one for one in said if one.legs), said[0])
        sums = {name: sum(getattr(one, name) for one in said) for name in SUMMED}
        loaded = [one for one in said if one.legs]
        corners = list(zip(*(one.extent for one in loaded if one.extent)))
        extent = corners and (min(corners[0]), min(corners[1]), max(corners[2]), max(corners[3]))
        first = min((one.first for one in loaded if one.first), default=None)
        last = max((one.last for one in loaded if one.last), default=None)
        same = {name: getattr(some, name) for name in SAME}
        return Info(first=first, last=last, extent=extent or None, **sums, **same)

    def check(self) -> Report:
        """Checks each store, and that it holds as much as the manifest says."""
        pages, legs, features = map(int, self._printed("check", *self._where).splitlines()[1].split(","))
        return Report(legs, features, pages)

    def _page(self, file: str, shown: Shown, title: str | None, period: Period | None) -> None:
        """Writes a page of all parts, by way of one store of them."""
        with tempfile.TemporaryDirectory(prefix="mftb-") as folder:
            self.write(FilePath(folder, "all.csv"))
            whole = Store(FilePath(folder, "whole"), program=self.program)
            whole.load(FilePath(folder, "all.csv"))
            whole._page(file, shown, title or FilePath(self.path).name, period)

    def _each(self, work: Callable[[Store], Value]) -> list[Value]:
        """What is made of each part, some at once."""
        with ThreadPoolExecutor() as pool:
            return list(pool.map(work, self.parts()))

    def _command(self, word: str, *rest: str) -> tuple[list[str], dict[str, str]]:
        words = [sys.executable, "-m", "mftb.fleet", word, self.path, "--program", self.program, *rest]
        paths = [SOURCE, *filter(None, [os.environ.get("PYTHONPATH")])]
        return words, os.environ | {"PYTHONPATH": os.pathsep.join(paths)}

    def _printed(self, word: str, *rest: str) -> str:
        """What a command prints, if it ends well."""
        command, environment = self._command(word, *rest)
        ended = subprocess.run(command, capture_output=True, text=True, env=environment, check=False)
        if ended.returncode:
            raise error_of(ended.returncode, ended.stdout, ended.stderr)
        return ended.stdout

    def _run(self, script: Sequence[str], files: Sequence[str], spool: runs.Spool) -> str:
        if any(lines.command_of(line) == "load" for line in script):
            raise ValueError("a fleet is loaded by .load, and not by a line of a script")
        with runs.script_file(script) as name:
            command, environment = self._command("ask", name, *self._where)
            said = runs.spooled(command, spool, environment)
        if said.status:
            raise error_of(said.status, "", said.text)
        return said.text

    def _told(self, words: Words, given: Asked) -> tuple[list[str], runs.Printed]:
        """The records of all parts, by their first moment and then by feature."""
        # A part does not know whether another one has what it lacks: its hints are passed over.
        found = self._each(lambda part: runs.table(part._said(words)[1]))
        names = found[0][0]
        rows = [row for _, printed in found for row in moments.rows_of(printed)]
        zones = [name or NAMELESS for name in given.names()]
        return names, moments.printed(moments.in_order(zones, names, rows))


SUMMED = ("legs", "features", "most_legs", "most_features", "pages", "bytes")
SAME = ("crs", "dimension", "start", "columns", "version", "state")


def error_of(status: int, printed: str, said: str) -> errors.MftbError:
    """The error of a command of a fleet, which says what a part's program said."""
    refusal = printed.strip()
    if refusal.startswith("refused "):
        return errors.of_refusal(refusal, f"{said.strip()} ({refusal})", 0)
    return errors.of_status(status, SAID.sub("", said))
