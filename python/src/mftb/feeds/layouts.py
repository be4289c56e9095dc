"""Tables whose layout is found: the delimiter, the header line, and what the times look like."""

from __future__ import annotations

import csv
import io
import re
from argparse import Namespace
from collections.abc import Callable, Iterator
from datetime import datetime, time, timedelta, timezone, tzinfo
from decimal import ROUND_FLOOR, Decimal
from functools import lru_cache
from typing import TextIO

from mftb import sources
from mftb.feeds.judging import Batch, Judge
from mftb.texts import PLAIN_DECIMAL, BadLine, Refused

DELIMITERS = ",;\t|"
NUMBER = re.compile(r"[+-]?(?:[0-9]+\.?[0-9]*|\.[0-9]+)(?:[eE][+-]?[0-9]{1,3})?")
# What could be a day of two calendars, and a number that could be a date.
TWO_DAYS = re.compile(r"[0-9]{1,2}[/-][0-9]{1,2}[/-][0-9]{2,4}\b.*")
DIGITS = re.compile(r"(?:19|20)[0-9]{2}(?:0[1-9]|1[0-2])(?:[0-2][0-9]|3[01])(?:[0-9]{6})?")
UTC_WORD = re.compile(r" ?(?:UTC|GMT)$")
MIDNIGHT = time(0)
EPOCH = datetime(1970, 1, 1, tzinfo=timezone.utc)
MILLISECOND = timedelta(milliseconds=1)
FIRST, END = ((datetime(year, 1, 1, tzinfo=timezone.utc) - EPOCH) // MILLISECOND for year in (1, 9999))
# Of a unit of times since 1970 its milliseconds, and from what size on a number is meant so.
UNITS = {"s": ("1000", 0), "ms": ("1", 1e11), "us": ("0.001", 1e14), "ns": ("0.000001", 1e17)}
DAYS = ["%Y/%m/%d", "%Y.%m.%d", "%d.%m.%Y", "%d-%b-%Y", "%d %b %Y", "%d %B %Y", "%b %d, %Y"]
CLOCKS = ["%H:%M:%S", "%H:%M:%S.%f", "%H:%M", "%I:%M:%S %p", "%I:%M %p"]
FORMS = [f"{day}{between}{clock}" for day in DAYS for between in " T" for clock in CLOCKS] + DAYS


# Times and numbers


class Clock:
    """Reads the time fields of tables, in a zone where they say none."""

    def __init__(self, zone: tzinfo, form: str | None) -> None:
        self.zone, self.unit = zone, Decimal(UNITS[form][0]) if form in UNITS else None
        self.form = None if form in UNITS else form
        self.forms = [self.form] if self.form else list(FORMS)
        # Whether a time said no zone, whether one was a date, and whether one had a time of day.
        self.lacks_zone = self.has_dates = self.has_times = False
        # Times that many rows share are read once.
        self.read = lru_cache(maxsize=10_000)(self.read_anew)

    def read_anew(self, text: str) -> int:
        """The moment of a time field, in milliseconds since 1970, rounded down."""
        if self.form is None and NUMBER.fullmatch(text):
            moment = self.since_1970(text)
        elif self.unit is not None:
            raise ValueError("the times before are numbers")
        else:
            found = self.date(UTC_WORD.sub("+00:00", text))
            self.has_dates, self.has_times = True, self.has_times or found.time() != MIDNIGHT
            moment = (self.zoned(found) - EPOCH) // MILLISECOND
        if not FIRST <= moment < END:
            raise ValueError("out of range")
        return moment

    def since_1970(self, text: str) -> int:
        """The moment of a number, in the unit of the first one where none was said."""
        number = Decimal(text)
        if self.unit is None:
            if DIGITS.fullmatch(text):
                raise ValueError("a number or a date (see --format)")
            self.unit = Decimal([own for own, least in UNITS.values() if abs(number) >= least][-1])
        return int((number * self.unit).to_integral_value(ROUND_FLOOR))

    def date(self, text: str) -> datetime:
        """A date and time in one of the forms; what was read last is tried first."""
        if self.form is None:
            try:
                return datetime.fromisoformat(text)
            except ValueError:
                if TWO_DAYS.fullmatch(text):
                    raise ValueError("one of two days (see --format)") from None
        for place, form in enumerate(self.forms):
            try:
                found = datetime.strptime(text, form)
            except ValueError:
                continue
            self.forms.insert(0, self.forms.pop(place))
            return found
        raise ValueError("in no form that is known (see --format)")

    def zoned(self, found: datetime) -> datetime:
        """A date and time with its zone; of an hour that clocks show twice, the first one."""
        if found.tzinfo is not None:
            return found
        self.lacks_zone = True
        zoned = found.replace(tzinfo=self.zone)
        if zoned.astimezone(timezone.utc).astimezone(self.zone).replace(tzinfo=None) != found:
            raise ValueError(f"skipped by the clocks of {self.zone}")
        return zoned

    def remark_zone(self) -> str | None:
        """What to say where a time said no zone, and none was named."""
        return "times without a zone are taken as UTC (see --tz)" if self.lacks_zone else None

    def remark_days(self) -> str | None:
        """What to say where no time has a time of day."""
        alone = self.has_dates and not self.has_times
        return "all times are days without a time of day: is --time the right column?" if alone else None


def plain_number(text: str, what: str, comma: bool) -> str:
    """The text of a number as a plain decimal; `comma` says that a comma stands for the point."""
    text = text.strip(" \t")
    if comma and "." not in text:
        text = text.replace(",", ".")
    elif "," in text:
        raise BadLine(f"{what} {text!r} has a comma (see --decimal)")
    if PLAIN_DECIMAL.fullmatch(text) and len(text) <= 40:
        return text
    if not NUMBER.fullmatch(text):
        raise BadLine(f"{what} {text!r} is no number")
    number = Decimal(text)
    if number.adjusted() > 8:
        raise BadLine(f"{what} {text!r} is out of range")
    whole = f"{number:f}"
    # The profile keeps seven digits behind the point, and reads no longer text.
    return whole if len(whole) <= 40 else f"{round(number, 20):f}"


# Layouts


class Table:
    """A table: its delimiter, the names of its columns, and whether these are its first row."""

    def __init__(self, path: str, start: str, names: list[str], options: Namespace) -> None:
        self.path, self.names, self.options = path, names, options
        self.delimiter = options.delimiter or self.find_delimiter(start)
        row = sources.first_row(csv.reader(io.StringIO(start, ""), delimiter=self.delimiter))
        self.has_header = options.header or (options.header is None and self.is_header(row))
        self.header = row if self.has_header else [str(place + 1) for place in range(len(row))]

    def find_delimiter(self, start: str) -> str:
        """The delimiter under which the first row has the columns that were named."""
        for delimiter in DELIMITERS:
            row = sources.first_row(csv.reader(io.StringIO(start, ""), delimiter=delimiter))
            if all(sources.place_of(row, name) is not None for name in self.names):
                return delimiter
        try:
            return csv.Sniffer().sniff(start, DELIMITERS).delimiter
        except csv.Error:
            return ","

    def is_header(self, row: list[str]) -> bool:
        """Whether the first row names columns: no number stands where one is wanted."""
        if not all(name.isdigit() and 0 < int(name) <= len(row) for name in self.names[2:4]):
            return True
        return not any(NUMBER.fullmatch(row[int(name) - 1]) for name in self.names[2:4])

    def place(self, name: str) -> int:
        """The place of a column, by its name or its number."""
        found = sources.place_of(self.header, name)
        if found is None and name.isdigit() and 0 < int(name) <= len(self.header):
            return int(name) - 1
        if found is None:
            there = ", ".join(map(repr, self.header))
            raise Refused(f"{self.path}: there is no column {name!r}, only {there}")
        return found


class Joined(io.TextIOBase):
    """A text, and another one behind it."""

    def __init__(self, first: TextIO, then: TextIO) -> None:
        self.first, self.then = first, then

    def read(self, size: int | None = -1) -> str:
        most = -1 if size is None else size
        return self.first.read(most) or self.then.read(most)

    def readline(self, size: int | None = -1) -> str:  # type: ignore[override]
        most = -1 if size is None else size
        return self.first.readline(most) or self.then.readline(most)


def read(
    path: str, names: list[str], options: Namespace, layout: Callable[[Table], sources.RowReader], judge: Judge
) -> Iterator[Batch]:
    """What is judged of the lines of a table, some at once."""
    with sources.opened(path) as raw:
        text = sources.as_text(raw, options.encoding)
        start = text.read(1 << 16) + text.readline()
        if not start.strip():
            return
        table = Table(path, start, names, options)
        lines = Joined(io.StringIO(start, ""), text)
        head = csv.reader(lines, delimiter=table.delimiter)
        if table.has_header:
            sources.first_row(head)
        try:
            reader = layout(table)
        except BadLine as why:
            raise Refused(f"{path} line 1: {why}") from None
        how = sources.Rows(len(table.header), reader, table.delimiter)
        yield from sources.rows(lines, head.line_num, how, sources.Work(judge))
