"""Files of legs in the profile of docs/user/FILES.md: read record by record, and written whole."""

from __future__ import annotations

import csv
import os
import stat
import tempfile
from collections.abc import Iterator
from contextlib import contextmanager, suppress
from decimal import ROUND_HALF_EVEN, Decimal
from itertools import chain
from typing import Any

from mftb.sources import as_text, opened
from mftb.texts import PLAIN_DECIMAL, Refused, read_instant


class LegFile:
    """A file of legs; what its header lines say is there once its first record was read.

    A record is a list: name, first and last time field, trajectory, and the values.
    """

    def __init__(self, path: str) -> None:
        self.path = path
        self.head: list[str] = []
        self.columns: list[str] = []
        self.types: list[str] = []
        self.dimension, self.start, self.unit, self.line = 2, 0, "sec", 0

    def __iter__(self) -> Iterator[list[str]]:
        with opened(self.path) as raw:
            yield from self.records(iter(as_text(raw)))
        if not self.head:
            raise Refused(f"{self.path}: there is no line @stboundedby")

    def records(self, lines: Iterator[str]) -> Iterator[list[str]]:
        for line in lines:
            self.line += 1
            # A line without a quote is a record, cut at its commas.
            if '"' in line:
                row = self.quoted(line, lines)
            else:
                row = line.rstrip("\r\n").split(",")
            name = row[0]
            if len(row) > 3 and name[:1] not in "@ \t" and name[-1] not in " \t":
                yield row
            elif any(text.strip(" \t") for text in row):
                yield from self.odd([text.strip(" \t") for text in row])

    def quoted(self, line: str, lines: Iterator[str]) -> list[str]:
        """A record with quotes, which may go on over lines."""
        table = csv.reader(chain([line], lines))
        row = next(table)
        self.line += table.line_num - 1
        return row

    def odd(self, fields: list[str]) -> Iterator[list[str]]:
        """Takes a header line, or gives a record with blanks around its name."""
        try:
            if fields[0].lower() == "@stboundedby":
                self.head, self.dimension = fields, {"2d": 2, "3d": 3}[fields[2].lower()]
                self.start, self.unit = read_instant(fields[5]), (fields[7:] or ["sec"])[0].lower()
            elif fields[0].lower() == "@columns":
                self.columns, self.types = fields[3::2], fields[4::2]
            elif not fields[0].startswith("@"):
                if len(fields) < 4:
                    raise ValueError("too few fields")
                yield fields
        except (ValueError, IndexError, KeyError, TypeError):
            raise self.refused() from None

    def refused(self) -> Refused:
        """That the line that was read last is no record."""
        return Refused(f"{self.path} line {self.line}: no record of the profile")

    def milliseconds(self, text: str) -> int:
        """The moment of a time field, exactly."""
        text = text.strip(" \t")
        if self.unit == "absolute":
            return read_instant(text)
        if not PLAIN_DECIMAL.fullmatch(text):
            raise ValueError("no plain decimal")
        span = Decimal(text) * (60_000 if self.unit == "minute" else 1000)
        return self.start + int(span.to_integral_value(ROUND_HALF_EVEN))


# Writing


@contextmanager
def beside(path: str, mode: str = "w") -> Iterator[Any]:
    """A file that takes its name when all of it is there; what is no plain file is just written."""
    how: dict[str, Any] = {} if "b" in mode else {"encoding": "utf-8", "newline": "\n"}
    target = os.path.realpath(path)
    if os.path.exists(target) and not stat.S_ISREG(os.stat(target).st_mode):
        with open(target, mode, **how) as out:
            yield out
        return
    with named(path):
        folder, name = os.path.split(target)
        out = tempfile.NamedTemporaryFile(mode, dir=folder, prefix=f".{name}.", delete=False, **how)
    try:
        with out:
            yield out
        with named(path):
            os.chmod(out.name, mode_of(target))
            os.replace(out.name, target)
    except BaseException:
        with suppress(FileNotFoundError):
            os.unlink(out.name)
        raise


@contextmanager
def named(path: str) -> Iterator[None]:
    """Says of what cannot be written the name that was given."""
    try:
        yield
    except OSError as why:
        why.filename, why.filename2 = path, None
        raise


def mode_of(path: str) -> int:
    """The rights of the file that is replaced, or those of a new one."""
    with suppress(FileNotFoundError):
        return stat.S_IMODE(os.stat(path).st_mode)
    mask = os.umask(0)
    os.umask(mask)
    return 0o666 & ~mask
