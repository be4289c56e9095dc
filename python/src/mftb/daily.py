"""Converts files of a feed day by day, and loads them into one store: each day wholly, or not at all.

Beside STORE is a folder STORE.ends. A file in it says where each feature ended when the store had so many legs.
It is written before the day is loaded, and a load is whole or absent: so the legs that the store has say which file
is right, whenever a run is killed.
"""
from __future__ import annotations

import argparse
import csv
import fcntl
import os
import subprocess
import tempfile
from collections.abc import Iterator, Sequence
from contextlib import contextmanager, suppress
from pathlib import Path
from types import ModuleType
from typing import NamedTuple

from mftb.asking import Store
from mftb.commands import ended, example, say
from mftb.feeds import ais, conversion, gpx, movebank, seams
from mftb.feeds import csv as tables
from mftb.program import NAMING, find
from mftb.sources import opened, plain_name
from mftb.texts import Refused, several

EXAMPLE = """example:
  tools/daily harbour.mftb ships-2024-06-*.csv.gz --columns VesselName --skip-bad
  tools/daily taxis.mftb monday.csv --id taxi --time time --x lon --y lat --tz America/New_York

The other words are those of the source's own tool: tools/from_ais, tools/from_movebank, tools/from_gpx, or
tools/from_csv where --id is among them. Files are taken in the order in which they stand. What the store has already is
left out, so a run may be repeated, and a file that is there already is no error. At the first file that is
refused the run ends with status 1, or 3 if the store refused it; that file and those behind it are not loaded.
This tool is no part of any proof."""
FEEDS = {
    "ais": (ais, "line"),
    "csv": (tables, "row"),
    "gpx": (gpx, "point"),
    "movebank": (movebank, "line"),
}


class Ends:
    """The folder beside a store in which it stands where features ended."""

    def __init__(self, store: str) -> None:
        self.folder = Path(f"{store}.ends")

    def of(self, legs: int) -> Path:
        """The file that is right of a store with so many legs."""
        return self.folder / f"{legs}.json"

    def keep(self, legs: int) -> None:
        """Removes what was right of the store before, or never was."""
        for it in self.folder.iterdir():
            if it != self.of(legs):
                it.unlink()


class Day(argparse.Namespace):
    """What a file's conversion and its load need: the store, its ends, the program, the source and its words."""


def legs_of(day: Day) -> int:
    """How many legs the store has; none where it is absent."""
    with suppress(FileNotFoundError):
        if os.path.getsize(day.store):
            return Store(day.program, day.store).count()
    return 0


def take(day: Day, file: str) -> int:
    """Converts a file and loads it: the status, and whether it is in the store now."""
    legs = legs_of(day)
    day.ends.folder.mkdir(exist_ok=True)
    day.ends.keep(legs)
    with tempfile.TemporaryDirectory(prefix="mftb-daily-") as folder:
        made, state = Path(folder, "legs.csv"), day.ends.folder / "made.json"
        options = day.module.parse([*day.words, str(file), "-o", str(made), "--state", str(state)])
        options.unit, options.program, options.before = day.unit, day.program, day.store
        options.after = str(day.ends.of(legs)) if day.ends.of(legs).exists() else day.store if legs else None
        try:
            feed = conversion.convert("daily", options, day.module.reader)
        except conversion.IsThere:
            say("daily", f"{file} is in {day.store} already")
            return 0
        make_durable(state)
        state.replace(day.ends.of(legs + feed.written))
        make_durable(day.ends.folder)
        return load(day, file, folder, legs) if feed.written else 0


def load(day: Day, file: str, folder: str, legs: int) -> int:
    """Loads the legs that were made of a file; the status."""
    Path(folder, "load.txt").write_text("load legs.csv\n")
    command = [day.program, "run", "--strict", "--explain", os.path.abspath(day.store), "load.txt", "legs.csv"]
    done = subprocess.run(command, cwd=folder, stdout=subprocess.PIPE, text=True)
    if done.returncode:
        why = "".join(done.stdout.splitlines()[:1]) or f"mftb ended with status {done.returncode}"
        say("daily", f"{file} is refused ({why}); {day.store} is as it was, and what is behind this file is not loaded")
        return 3 if done.returncode == 3 else 1
    _, more, features = next(csv.reader(done.stdout.splitlines()[1:]))
    day.ends.keep(legs + int(more))
    say("daily", f"{file} is loaded: {several(int(more), 'leg')} of {several(int(features), 'feature')}")
    return 0


def make_durable(path: Path) -> None:
    """Waits until a file, or a folder's names, are on disk."""
    place = os.open(path, os.O_RDONLY)
    try:
        os.fsync(place)
    finally:
        os.close(place)


@contextmanager
def alone(store: str) -> Iterator[None]:
    """Keeps other runs in the store's folder waiting."""
    place = os.open(os.path.dirname(os.path.abspath(store)), os.O_RDONLY)
    try:
        fcntl.flock(place, fcntl.LOCK_EX)
        yield
    finally:
        os.close(place)


def take_all(day: Day, files: Sequence[str]) -> int:
    """Takes each file, up to the first that is refused; the status."""
    with alone(day.store):
        for file in files:
            try:
                status = take(day, file)
            except seams.OtherWords as why:
                # The store has these words since its first file: no file of this run is loaded.
                raise Refused(f"{why}; nothing is loaded now") from None
            except Refused as why:
                raise Refused(f"{why}; {file} and what is behind it is not loaded") from None
            if status:
                return status
    return 0


# The command line


def feed_of(words: Sequence[str]) -> str | None:
    """The source that the files come from, by the words, or by how the first file begins."""
    if any(word.split("=")[0] == "--id" for word in words):
        return "csv"
    for path in filter(os.path.isfile, words[1:]):
        with opened(path) as raw:
            start = raw.read(1 << 16).lstrip(b"\xef\xbb\xbf \t\r\n")
        if start.startswith(b"<"):
            return "gpx"
        names = {plain_name(name) for name in start.split(b"\n")[0].decode(errors="replace").split(",")}
        if "mmsi" in names:
            return "ais"
        if "individuallocalidentifier" in names:
            return "movebank"
    return None


class Given(NamedTuple):
    """The words of the command line: its own, the source, the files with the store first, and the source's words."""

    own: argparse.Namespace
    module: ModuleType
    unit: str
    files: list[str]
    rest: list[str]


def words() -> Given:
    """The words of the command line."""
    parser = argparse.ArgumentParser(
        description=__doc__,
        usage="%(prog)s [--feed FEED] [--program MFTB] STORE FILES... [the words of the source's tool]",
        epilog=example(EXAMPLE),
        formatter_class=argparse.RawDescriptionHelpFormatter,
        allow_abbrev=False,
    )
    parser.add_argument("--feed", choices=sorted(FEEDS), help="the source, where the first file does not tell it")
    parser.add_argument("--program", metavar="MFTB", help=NAMING)
    own, rest = parser.parse_known_args()
    feed = own.feed or feed_of(rest)
    if feed is None:
        parser.error(
            "no file says which source it is from: a table needs --id, --time, --x and --y (tools/from_csv --help); "
            "else name the source by --feed"
        )
    module, unit = FEEDS[feed]
    options = module.parse(rest)
    if len(options.files) < 2:
        parser.error("STORE and a file are wanted")
    if options.output or options.state or options.after or "-" in options.files:
        parser.error("-o, --state, --after and standard input are not for this tool")
    return Given(own, module, unit, options.files, rest)


def work() -> int:
    """Takes the files that were named; the status."""
    own, module, unit, (store, *files), rest = words()
    # The words without the files, each of which stands there once for each time that it is named.
    for name in [store, *files]:
        rest.remove(name)
    day = Day(store=store, ends=Ends(store), program=find(own.program), module=module, unit=unit, words=rest)
    return take_all(day, files)


def main() -> int:
    return ended("daily", work, "stopped; the file that was in work is not loaded")
