"""The errors of the library: one class for each kind, with the program's own words."""

from __future__ import annotations

import re

REFUSAL = re.compile(r"refused ([FQZ][0-9]+)(?: at ([0-9]+))?")
ZONES = re.compile(r"the zone file is refused: (Z[0-9]+) at record ([0-9]+)")
DAMAGED = re.compile(r"page ([0-9]+) damaged")


class MftbError(Exception):
    """What the program says where it does not answer.

    `status` is its exit status, `code` the refusal's code (as `F18`), `place` the record, the page or
    the script's line that is at fault, and `words` all that it said.
    """

    def __init__(self, words: str, *, status: int = 1, code: str = "", place: int | None = None) -> None:
        super().__init__(words)
        self.words, self.status, self.code, self.place = words, status, code, place


class ProgramMissing(MftbError):
    """There is no program `mftb`."""


class ProgramFailed(MftbError):
    """The program was killed, or printed what is no answer."""


class WrongWords(MftbError):
    """The command line was wrong, as a rectangle whose first corner is above its second."""


class FileUnreadable(MftbError):
    """A file cannot be read."""


class MemoryExhausted(MftbError):
    """Memory ran out."""


class OutputFailed(MftbError):
    """The answers could not be written to the disk."""


class StoreError(MftbError):
    """The store could not be opened, read or written."""


class StoreMissing(StoreError):
    """There is no store, or it has no bytes."""


class StoreInUse(StoreError):
    """Another run holds the store."""


class StoreUnfinished(StoreError):
    """A run with `in_place` stopped before the store was closed."""


class StoreVersion(StoreError):
    """The store was made in another version of the format."""


class StoreMalformed(StoreError):
    """The file is no store."""


class StoreDamaged(StoreError):
    """A page of the store is not as it was written; `place` is its number."""


class StoreFull(StoreError):
    """The store has as many pages as it may have."""


class Refused(MftbError):
    """A line or a file was refused, and nothing was changed by it; `code` says why."""


class FileRefused(Refused):
    """A file was refused; `code` is `F1` to `F20`, and `place` the record, from 1, or 0 for the whole file."""


class QuestionRefused(Refused):
    """A line of a script was refused; `code` is `Q1` to `Q10`, and `place` the line's number, from 1."""


class ZonesRefused(Refused):
    """A file of zones was refused; `code` is `Z1` to `Z7`."""


# The program's lines, behind `mftb: `.
LINES: dict[str, type[MftbError]] = {
    "memory": MemoryExhausted,
    "output": OutputFailed,
    "failed": StoreError,
    "store": StoreError,
    "no such store": StoreMissing,
    "store in use": StoreInUse,
    "store unfinished": StoreUnfinished,
    "store version": StoreVersion,
    "store malformed": StoreMalformed,
    "store full": StoreFull,
}
KINDS: dict[str, type[Refused]] = {"F": FileRefused, "Q": QuestionRefused, "Z": ZonesRefused}


def of_status(status: int, said: str) -> MftbError:
    """The error of a run that ended with a status other than 0, from what it said on standard error."""
    words = said.strip() or f"mftb ended with status {status}"
    if status < 0:
        return ProgramFailed(f"mftb was ended by signal {-status}", status=status)
    if status == 2:
        zones = ZONES.search(words)
        return (
            ZonesRefused(words, status=2, code=zones[1], place=int(zones[2])) if zones else WrongWords(words, status=2)
        )
    for line in words.splitlines():
        text = line.removeprefix("mftb: ")
        damaged = DAMAGED.fullmatch(text)
        if damaged:
            return StoreDamaged(words, status=status, place=int(damaged[1]))
        if text in LINES:
            return LINES[text](words, status=status)
        if text.startswith("cannot read "):
            return FileUnreadable(words, status=status)
    return ProgramFailed(words, status=status)


def of_refusal(line: str, said: str, place: int) -> Refused:
    """The error of a line `refused ..`, which answers the script's line with a number."""
    found = REFUSAL.fullmatch(line)
    if not found:
        raise ProgramFailed(f"mftb printed {line!r}, which is no answer")
    code, record = found[1], found[2]
    words = said.strip() or line
    return KINDS[code[0]](words, status=3, code=code, place=int(record) if record else place)
