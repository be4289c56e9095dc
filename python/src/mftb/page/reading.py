"""Reads the legs of a store for a page: the program writes all of them."""

import csv
import os
import subprocess
import tempfile
from collections.abc import Iterable, Iterator
from io import TextIOWrapper
from itertools import chain
from typing import NamedTuple

from mftb.page.data import UNITS, Head, Legs
from mftb.program import find
from mftb.texts import Refused, instant, read_instant


class Period(NamedTuple):
    """Two moments in milliseconds since 1970, both included."""

    first: int
    last: int


def read(path: str, program: str | None, period: Period | None) -> Legs:
    """Reads the legs of a store that have a moment in a period."""
    with tempfile.TemporaryDirectory(prefix="mftb-page-") as folder:
        script = os.path.join(folder, "script")
        with open(script, "w", encoding="ascii") as out:
            out.write("write\n")
        command = [find(program), "run", "--existing", "-q", path, script]
        with subprocess.Popen(command, stdout=subprocess.PIPE) as run:
            assert run.stdout is not None
            lines = TextIOWrapper(run.stdout, encoding="utf-8", newline="\n")
            legs = answered(lines, path, period)
    if run.returncode:
        raise Refused(f"{path}: mftb run ended with status {run.returncode}")
    if legs is None:
        raise Refused(f"{path}: there is no leg in this store")
    return wanted(legs, path, period)


def wanted(legs: Legs, path: str, period: Period | None) -> Legs:
    """The legs, of which there is one."""
    if not legs.tracks and period:
        span = f"from {instant(period.first)} to {instant(period.last)}"
        raise Refused(f"{path}: there is no leg {span}")
    if not legs.tracks:
        raise Refused(f"{path}: there is no leg in this store")
    return legs


def answered(lines: Iterator[str], path: str, period: Period | None) -> Legs | None:
    """The legs of an answer to `write`; nothing if it has none."""
    head = next(lines, "")
    if not head.startswith("ok "):
        # The lines that are left are read, so that the program ends by itself.
        for _ in lines:
            pass
        return None
    records = fields_of(lines)
    legs = Legs(read_head(records, path))
    take(legs, records, path, period)
    return legs


def fields_of(lines: Iterator[str]) -> Iterator[list[str]]:
    """The records of an answer; one with quotes may go on over lines."""
    for line in lines:
        if '"' in line:
            yield next(csv.reader(chain([line], lines)))
        else:
            yield line.rstrip("\n").split(",")


def read_head(records: Iterator[list[str]], path: str) -> Head:
    """Reads both header lines."""
    try:
        bounds, columns = next(records), next(records)
        dimension = {"2D": 2, "3D": 3}[bounds[2]]
        pairs = list(zip(columns[3::2], columns[4::2]))
        return Head(bounds[1], dimension, read_instant(bounds[5]), pairs)
    except (StopIteration, KeyError, IndexError, ValueError):
        raise Refused(f"{path}: mftb run wrote no header lines; is it mftb?") from None


def take(legs: Legs, records: Iterable[list[str]], path: str, period: Period | None) -> None:
    """Takes the legs that have a moment in a period."""
    base, step = legs.head.base, legs.head.dimension
    first = period.first - base if period else -(10**18)
    last = period.last - base if period else 10**18
    for number, row in enumerate(records, 3):
        try:
            begin, end = milliseconds(row[1]), milliseconds(row[2])
            if end < first or begin > last:
                continue
            numbers = tuple(map(units, row[3].split(" ")))
            if len(numbers) != 2 * step:
                raise ValueError("no leg")
        except (ValueError, IndexError):
            raise Refused(f"{path}: record {number} that mftb run wrote is no leg") from None
        legs.add(row[0], begin, end, numbers[:step], numbers[step:], tuple(row[4:]))


def units(text: str) -> int:
    """A coordinate in units of 10^-7.

    A kept coordinate has seven digits at most and a magnitude of 10^8 at most, so the nearest whole
    number is the exact one.
    """
    return round(float(text) * UNITS)


def milliseconds(text: str) -> int:
    """An offset in seconds, as milliseconds; as exact as `units`, for the same reason."""
    return round(float(text) * 1000)
