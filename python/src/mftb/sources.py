"""The files of a feed as they come: plain, packed (.gz, or .zip with one), or standard input."""

from __future__ import annotations

import csv
import gzip
import io
import re
import shutil
import tempfile
import zipfile
import zlib
from argparse import Namespace
from collections import Counter
from collections.abc import Callable, Iterable, Iterator, Sequence
from contextlib import contextmanager
from dataclasses import dataclass
from itertools import chain, islice, repeat
from operator import itemgetter, methodcaller
from typing import IO, Any, TextIO, TypeAlias

from mftb.texts import NEEDS_QUOTES, BadLine, LeftOut, Refused, further_fields, several, utf8

# A field has fewer characters.
LONGEST = 1 << 20
csv.field_size_limit(LONGEST)
UNPACKING = EOFError, zlib.error, gzip.BadGzipFile, zipfile.BadZipFile, NotImplementedError
# UTF-8, with or without a mark at the start.
UTF_8 = "utf-8-sig"
# Rows, or records, that are held at once.
BATCH = 1000
# Signs of a text that are read at once, in this process, and in one of several.
NEAR, FAR = 1 << 16, 1 << 21
# What is read of a row: a position, or why there is none.
Item: TypeAlias = Any
Text: TypeAlias = TextIO | io.TextIOBase
NOT_A_LETTER = re.compile("[^0-9a-z]")


@dataclass
class Table:
    """What is read of lines, column by column: a position of each line that has one.

    `rows` are the places of these lines, `axes` the texts and the numbers of each coordinate, `further` the attribute
    values as fields of a record. `faults` are the places of the lines that have none, and why.
    """

    rows: Sequence[int]
    features: list[str]
    moments: list[int]
    axes: list[tuple[Sequence[str], list[float]]]
    further: list[str]
    segments: list[int]
    faults: list[tuple[int, Exception]]


# What gives the fields of a row, by its place.
RowAt: TypeAlias = Callable[[int], list[str]]


@dataclass(frozen=True)
class RowReader:
    """What reads the rows below a header line.

    `one` gives the position of a row, or says why there is none. `table` reads `columns` of rows of the usual form at
    once; or gives nothing, where they are to be read one by one.
    """

    one: Callable[[list[str]], Item]
    table: Callable[[list[Sequence[str]], RowAt], Table | None] | None = None
    columns: Sequence[int] = ()

    def items(self, rows: list[Any], wide: int) -> list[Item]:
        """What is read of rows, which ought to have `wide` fields; a row that could not be cut is why."""
        return [self.item(row, wide) for row in rows]

    def item(self, row: Any, wide: int) -> Item:
        """What is read of one row."""
        if row.__class__ is BadLine:
            return row
        if len(row) != wide:
            return BadLine(f"{several(len(row), 'field')}, where the header line has {wide}")
        try:
            return self.one(row)
        except (BadLine, LeftOut) as why:
            # What raised it would keep the rows beside this one.
            why.__context__ = None
            return why.with_traceback(None)


@contextmanager
def opened(path: str) -> Iterator[IO[bytes]]:
    """The bytes of a file, unpacked where it is packed; `-` is standard input."""
    with open(0 if path == "-" else path, "rb", closefd=path != "-") as raw:
        try:
            yield unpacked(path, raw)
        except UNPACKING as why:
            raise Refused(f"{path} cannot be unpacked: {why}") from None
        except UnicodeError as why:
            raise Refused(f"{path} is in another encoding (see --encoding): {why}") from None


def unpacked(path: str, raw: io.BufferedReader) -> IO[bytes]:
    """What is read of a file, by its first bytes."""
    start = raw.peek(4)[:4]
    if start[:2] == b"\x1f\x8b":
        found: Any = gzip.open(raw)
        return found
    return only_file(path, raw) if start == b"PK\x03\x04" else raw


def only_file(path: str, raw: IO[bytes]) -> IO[bytes]:
    """The bytes of the one file of a .zip."""
    if not raw.seekable():
        whole = tempfile.TemporaryFile()
        shutil.copyfileobj(raw, whole)
        raw = whole
    archive = zipfile.ZipFile(raw)
    found = [it for it in archive.infolist() if not it.is_dir() and "__MACOSX/" not in it.filename]
    if len(found) != 1:
        raise Refused(f"{path} has {several(len(found), 'file')}; a .zip with one is read")
    if found[0].flag_bits & 1:
        raise Refused(f"{path} is locked by a password")
    return archive.open(found[0])


def as_text(raw: IO[bytes], encoding: str = UTF_8) -> TextIO:
    """Bytes as text; those that are none are kept until a field with them is used."""
    return io.TextIOWrapper(raw, encoding=encoding, errors="surrogateescape", newline="")


# Tables


@dataclass(frozen=True)
class Work:
    """What is done with the rows of some lines, and in how many processes."""

    judge: Callable[[Sequence[int], list[Item] | Table], Any]
    jobs: int = 1


def read_table(path: str, layout: Callable[[list[str]], RowReader], work: Work, encoding: str = UTF_8) -> Iterator[Any]:
    """What is judged of the lines of a CSV file, some at once.

    `layout` makes what reads a row from the header line. A file of blank lines has none.
    """
    with opened(path) as raw:
        text = as_text(raw, encoding)
        table = csv.reader(text)
        try:
            header = first_row(table)
            if not header:
                return
            reader = layout(header)
        except (csv.Error, BadLine) as why:
            raise Refused(f"{path} line {max(table.line_num, 1)}: {why}") from None
        yield from rows(text, table.line_num, Rows(len(header), reader), work)


def first_row(table: Iterable[list[str]]) -> list[str]:
    """The first row that is not blank, without blanks around its names."""
    for row in table:
        names = [name.strip(" \t") for name in row]
        if any(names):
            return names
    return []


@dataclass(frozen=True)
class Lines:
    """Lines of a table without a quote, in one text, and how many stand before them."""

    before: int
    text: str


@dataclass(frozen=True)
class Cut:
    """Rows that were cut from lines with quotes, and their line numbers; one that cannot be cut is why."""

    numbers: Sequence[int]
    rows: list[Any]


@dataclass(frozen=True)
class Rows:
    """How lines are cut into rows, and what reads these."""

    wide: int
    reader: RowReader
    delimiter: str = ","

    def read(self, part: Lines | Cut) -> tuple[Sequence[int], list[Item] | Table]:
        """Line numbers, and what is read of each row, or why nothing is; a blank line is no row."""
        if isinstance(part, Lines):
            lines = lines_of(part.text)
            numbers: Sequence[int] = range(part.before + 1, part.before + 1 + len(lines))
            table = self.table_of_lines(lines)
            # A row without a quote is its line, cut at the delimiters.
            found = [] if table else [line.split(self.delimiter) for line in lines]
        else:
            numbers, found = part.numbers, part.rows
            table = self.table_of_rows(found)
        if table:
            return numbers, table
        if [""] in found:
            numbers = [number for number, row in zip(numbers, found) if row != [""]]
            found = [row for row in found if row != [""]]
        return numbers, self.reader.items(found, self.wide)

    def table_of_lines(self, lines: list[str]) -> Table | None:
        """What is read of lines that all have as many fields as the header line, and are of the usual form."""
        if self.reader.table is None:
            return None
        if set(map(methodcaller("count", self.delimiter), lines)) != {self.wide - 1}:
            return None
        # What stands behind the last column that is wanted stays in one piece.
        cut_line = methodcaller("split", self.delimiter, max(self.reader.columns) + 1)
        columns: list[Any] = list(zip(*map(itemgetter(*self.reader.columns), map(cut_line, lines))))
        return self.reader.table(columns, lambda place: lines[place].split(self.delimiter))

    def table_of_rows(self, rows: list[Any]) -> Table | None:
        """What is read of such rows."""
        if self.reader.table is None or set(map(type, rows)) != {list} or set(map(len, rows)) != {self.wide}:
            return None
        columns: list[Any] = list(zip(*map(itemgetter(*self.reader.columns), rows)))
        return self.reader.table(columns, rows.__getitem__)


def lines_of(text: str) -> list[str]:
    """The lines of a text, without their ends."""
    if "\r" in text:
        return [line.rstrip("\r\n") for line in io.StringIO(text, newline="")]
    return text.removesuffix("\n").split("\n")


def rows(text: Text, line: int, how: Rows, work: Work) -> Iterator[Any]:
    """What is judged of the rows behind a line, some at once."""

    def judged(part: Lines | Cut) -> Any:
        numbers, items = how.read(part)
        return work.judge(numbers, items) if items else None

    if work.jobs == 1:
        return filter(None, map(judged, cut(text, line, how.delimiter, NEAR)))
    # Only what works in several processes takes the time to load this.
    from mftb import apart

    return filter(None, apart.ordered(judged, cut(text, line, how.delimiter, FAR), work.jobs))


def cut(text: Text, line: int, delimiter: str, size: int) -> Iterator[Lines | Cut]:
    """The lines of a table behind a line, of about so many signs at once but where a row goes on over lines."""
    while piece := text.read(size) + text.readline():
        lines = list(io.StringIO(piece, newline="")) if is_odd(piece) else []
        if lines and ('"' in piece or max(map(len, lines)) >= LONGEST):
            numbers, found, count = quoted(lines, text, line, delimiter)
            yield Cut(numbers, found)
        else:
            count = len(lines) or piece.count("\n") + (piece[-1] != "\n")
            yield Lines(line, piece)
        line += count


def is_odd(piece: str) -> bool:
    """Whether a text may be more, or less, than lines that end in a line feed."""
    return '"' in piece or "\r" in piece or len(piece) >= LONGEST


def quoted(lines: list[str], text: Iterator[str], line: int, delimiter: str) -> tuple[list[int], list[Any], int]:
    """The line numbers and the rows of lines of which one has a quote: such a row may go on behind them.

    The third value says how many lines that was. A row that cannot be read is why it cannot.
    """
    numbers: list[int] = []
    found: list[Any] = []
    source, count = iter(lines), 0
    for start in source:
        numbers.append(line + count + 1)
        if '"' not in start and len(start) < LONGEST:
            found.append(start.rstrip("\r\n").split(delimiter))
            count += 1
            continue
        table = csv.reader(chain([start], source, text), delimiter=delimiter)
        try:
            found.append(next(table))
        except csv.Error as why:
            found.append(BadLine(why))
        count += table.line_num
    return numbers, found, count


def batches(pairs: Iterator[tuple[int, Any]]) -> Iterator[tuple[list[int], list[Any]]]:
    """Line numbers, each with an item, as batches of both."""
    while found := list(islice(pairs, BATCH)):
        yield [line for line, _ in found], [item for _, item in found]


def plain_name(name: str) -> str:
    """A column's name without what differs between layouts: case, blanks and signs."""
    return NOT_A_LETTER.sub("", name.lower())


def place_of(header: list[str], *names: str) -> int | None:
    """The place of the first of these columns that is there, or nothing.

    `vessel_name` is `VesselName`, where no column has just that name.
    """
    for name in names:
        if name in header:
            return header.index(name)
    plain = [plain_name(name) for name in header]
    for name in map(plain_name, names):
        if name and name in plain:
            return plain.index(name)
    return None


def column(header: list[str], *names: str) -> int:
    """The place of a column that must be there."""
    place = place_of(header, *names)
    if place is None:
        raise lacks(header, names[0])
    return place


def lacks(header: list[str], name: str | None) -> BadLine:
    """That there is no column of a name, and which there are."""
    return BadLine(f"there is no column {name!r}, only {', '.join(map(repr, header))}")


class Values:
    """What takes the attribute values from rows: `places` says where they stand, and is nothing for a blank one."""

    def __init__(self, names: list[str], places: list[int | None]) -> None:
        self.names, self.places = names, places
        # The columns that are there.
        self.columns = [place for place in places if place is not None]

    def of(self, row: list[str]) -> tuple[str, ...]:
        """The values of a row."""
        values = tuple(["" if place is None else row[place] for place in self.places])
        if not "".join(values).isascii():
            for value, name in zip(values, self.names):
                utf8(value, name)
        return values

    def further(self, columns: Iterable[Sequence[str]], count: int) -> list[str] | None:
        """The values of so many rows as fields of records, from the columns that are there; or nothing.

        That is so where one is no text.
        """
        if not self.places:
            return [""] * count
        there = iter(columns)
        blank: Sequence[str] = [""] * count
        every = [blank if place is None else next(there) for place in self.places]
        text = "".join(map("".join, every))
        try:
            text.encode()
        except UnicodeEncodeError:
            return None
        if NEEDS_QUOTES.search(text):
            return list(map(further_fields, zip(*every)))
        return list(map(",".join, zip(repeat(""), *every)))


class Columns:
    """The columns that are kept as attributes, and which of them were found."""

    def __init__(self, options: Namespace) -> None:
        self.pairs, self.files = options.columns, options.files
        self.names = [[name, *(old for old, new in options.rename if new == name)] for name, _ in self.pairs]
        self.missing = {names[0] for names in self.names}
        # In how many files a column is not, where there are several.
        self.lacking: Counter[str] = Counter()

    def reader(self, header: list[str]) -> Values:
        """What takes the attribute values from rows below this header line."""
        places = [place_of(header, *names) for names in self.names]
        self.missing -= {names[0] for names, at in zip(self.names, places) if at is not None}
        if self.missing and len(self.files) == 1:
            raise lacks(header, self.first_missing())
        self.lacking.update(names[0] for names, at in zip(self.names, places) if at is None)
        return Values([name for name, _ in self.pairs], places)

    def first_missing(self) -> str | None:
        """The first column that no file had, if there is one."""
        return next((name for name, _ in self.pairs if name in self.missing), None)
