"""The records of `mftb moments` and `mftb zones`: their names, and those without a zone's name."""

from __future__ import annotations

import csv
import io
from collections.abc import Iterable, Iterator
from fractions import Fraction

from mftb import forms, lines, runs

# What the program calls some fields, and what the library does.
NAMES = {"rectangle": "zone", "from": "from_side", "to": "to_side"}


def seconds(period: lines.Period) -> tuple[Fraction, Fraction]:
    """The ends of a period, in seconds since 1970."""
    first, last = (forms.since_1970(forms.instant(lines.moment(moment))) for moment in period)
    return first, last


def rows_of(printed: runs.Printed) -> Iterator[list[str]]:
    """Records as texts."""
    with printed.opened() as file, io.TextIOWrapper(file, encoding="utf-8", newline="") as text:
        yield from csv.reader(text)


def printed(rows: Iterable[list[str]]) -> runs.Printed:
    """Records in a spool of their own."""
    spool, count = runs.Spool(), 0
    with open(spool.path, "w", encoding="utf-8", newline="") as out:
        write = csv.writer(out, lineterminator="\n").writerow
        for row in rows:
            write(row)
            count += 1
    return runs.Printed(spool, 0, count)


def named(
    names: list[str], found: runs.Printed, has_zones: bool, attributes: int = 0
) -> tuple[list[str], runs.Printed]:
    """The names of the fields as the library has them, and the records, with a zone's name if it has one.

    The last names are those of so many attributes, which stay as they are.
    """
    count = len(names) - attributes
    own = [NAMES.get(name, name) for name in names[:count]] + names[count:]
    if has_zones or own[0] != "zone":
        return own, found
    return own[1:], printed(row[1:] for row in rows_of(found))


def in_order(zones: list[str], names: list[str], rows: list[list[str]]) -> list[list[str]]:
    """The records of several stores: those of each zone together, by their first moment, then by feature."""
    places = {name: place for place, name in enumerate(zones)}
    first = names[0] in ("rectangle", "zone")
    if "enters" not in names:
        return sorted(rows, key=lambda row: (places[row[0]] if first else 0, row))
    feature, enters, leaves = (names.index(name) for name in ("feature", "enters", "leaves"))

    def key(row: list[str]) -> tuple[object, ...]:
        ends = (forms.exact(row[end], Fraction(0)) for end in (enters, leaves))
        begin, end = ends
        return places[row[0]] if first else 0, begin, row[feature], end

    return sorted(rows, key=key)
