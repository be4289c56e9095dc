"""Runs of the program: its words, what it prints, kept in a file, and what it says."""

from __future__ import annotations

import csv
import io
import os
import subprocess
import sys
import tempfile
import warnings
import weakref
from collections.abc import Iterator, Sequence
from contextlib import contextmanager, suppress
from dataclasses import dataclass
from pathlib import Path
from typing import BinaryIO

from mftb import errors, program, texts

HEAD = b"ok "


class MftbWarning(UserWarning):
    """What the program says of an answer that is likely a mistake of who asked."""


class Spool:
    """A file of what a run printed; it goes when no answer needs it any more."""

    def __init__(self) -> None:
        handle, self.path = tempfile.mkstemp(prefix="mftb-")
        os.close(handle)
        weakref.finalize(self, remove, self.path)

    def open(self, place: int = 0) -> io.BufferedReader:
        """The file, from a place on."""
        file = open(self.path, "rb")
        file.seek(place)
        return file


def remove(path: str) -> None:
    with suppress(OSError):
        os.unlink(path)


@dataclass(frozen=True, slots=True)
class Printed:
    """Records in a spool: where they begin, how many there are, and where they end if not with the file."""

    spool: Spool
    place: int
    count: int
    end: int | None = None

    @contextmanager
    def opened(self) -> Iterator[io.BufferedReader]:
        with self.spool.open(self.place) as file:
            yield file

    def read(self) -> bytes:
        """The records as they were printed."""
        with self.opened() as file:
            return file.read() if self.end is None else file.read(self.end - self.place)


@dataclass(frozen=True, slots=True)
class Said:
    """What a run said: its exit status, and its standard error."""

    status: int
    text: str


def found(named: str | os.PathLike[str] | None) -> str:
    """The program's path."""
    try:
        return program.find(named)
    except texts.Refused as why:
        raise errors.ProgramMissing(str(why)) from None


def spooled(command: Sequence[str], spool: Spool, environment: dict[str, str] | None = None) -> Said:
    """Runs a command, whose standard output goes to a spool."""
    with open(spool.path, "wb") as out:
        ended = subprocess.run(
            command, stdin=subprocess.DEVNULL, stdout=out, stderr=subprocess.PIPE, env=environment, check=False
        )
    return Said(ended.returncode, ended.stderr.decode(errors="replace"))


@contextmanager
def script_file(lines: Sequence[str]) -> Iterator[str]:
    """A file of the lines of a script."""
    with tempfile.TemporaryDirectory(prefix="mftb-") as folder:
        path = Path(folder, "script")
        path.write_bytes("".join(f"{line}\n" for line in lines).encode())
        yield str(path)


# Answers


def skip_record(file: BinaryIO) -> None:
    """Passes over a record, in which line ends may be quoted."""
    line = file.readline()
    while line.count(b'"') % 2:
        more = file.readline()
        if not more:
            raise errors.ProgramFailed("mftb printed half a record")
        line += more


def table(spool: Spool) -> tuple[list[str], Printed]:
    """The names in the header of a spool, and the records below it."""
    with spool.open() as file:
        skip_record(file)
        place, count = file.tell(), 0
        while file.peek(1):
            skip_record(file)
            count += 1
    header = Printed(spool, 0, 1, place).read().decode()
    return next(csv.reader(io.StringIO(header, newline="")), []), Printed(spool, place, count)


def answers(spool: Spool, count: int) -> Iterator[Printed | str]:
    """The answers in a spool, so many as were asked for: records, or the line of a refusal."""
    with spool.open() as file:
        for number in range(count):
            line = file.readline()
            if not line.endswith(b"\n"):
                raise errors.ProgramFailed(f"mftb gave {number} answers to {count} questions")
            if not line.startswith(HEAD):
                yield line.decode().rstrip("\n")
                continue
            place, records = file.tell(), int(line[len(HEAD) :])
            is_last = number == count - 1
            for _ in range(0 if is_last else records):
                skip_record(file)
            yield Printed(spool, place, records, None if is_last else file.tell())


def hint(lines: Sequence[str]) -> None:
    """Warns of what the program said beside its answers."""
    for line in lines:
        warnings.warn(line.removeprefix("mftb: "), MftbWarning, stacklevel=depth())


def depth() -> int:
    """How many calls lie between here and who called the library."""
    frame, count = sys._getframe(), 0
    while frame.f_back and frame.f_globals.get("__name__", "").partition(".")[0] == "mftb":
        frame, count = frame.f_back, count + 1
    return count
