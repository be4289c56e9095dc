"""The words of questions: rectangles, periods and names, as the program reads them."""

from __future__ import annotations

import numbers
import os
from collections.abc import Iterable, Sequence
from datetime import datetime, timezone
from decimal import Decimal
from fractions import Fraction
from typing import Literal, TypeAlias

Predicate: TypeAlias = Literal["ever", "always", "enters", "leaves", "crosses", "bypasses"]
Number: TypeAlias = int | float | Decimal | Fraction | str
# The least x and y, and the greatest ones.
Rectangle: TypeAlias = tuple[Number, Number, Number, Number] | Sequence[Number]
# The first and the last moment; both belong to the period.
Moment: TypeAlias = datetime | str
Period: TypeAlias = tuple[Moment, Moment] | Sequence[Moment]
Path: TypeAlias = str | os.PathLike[str]
# The program keeps so many digits behind the point.
DIGITS = 7


def number(value: Number) -> str:
    """A number as a plain decimal; a text is taken as it stands."""
    if isinstance(value, str):
        return value.strip()
    if isinstance(value, Fraction):
        value = Decimal(round(value * 10**DIGITS)).scaleb(-DIGITS)
    elif isinstance(value, numbers.Real) and not isinstance(value, numbers.Integral):
        value = Decimal(repr(float(value)))
    decimal = Decimal(int(value)) if isinstance(value, numbers.Integral) else value
    if not isinstance(decimal, Decimal) or not decimal.is_finite():
        raise ValueError(f"{value!r} is no number")
    return f"{decimal:f}"


def moment(value: Moment) -> str:
    """A moment as an instant in UTC; a text is taken as it stands."""
    if isinstance(value, str):
        return value.strip()
    if value.tzinfo is None:
        raise ValueError(f"{value} has no zone: say which, as by .replace(tzinfo=timezone.utc)")
    return value.astimezone(timezone.utc).replace(tzinfo=None).isoformat() + "Z"


def sides(rectangle: Rectangle) -> tuple[str, ...]:
    """The sides of a rectangle as texts."""
    if len(rectangle) != 4:
        raise ValueError("a rectangle is x1, y1, x2, y2")
    return tuple(map(number, rectangle))


def words(rectangle: Rectangle, period: Period) -> list[str]:
    """The six words of a rectangle and a period."""
    if len(period) != 2:
        raise ValueError("a period is its first and its last moment")
    return [*sides(rectangle), *map(moment, period)]


def line(command: str, *rest: str) -> str:
    """A line of a script."""
    text = " ".join([command, *rest])
    if "\n" in text or "\r" in text:
        raise ValueError(f"a line of a script cannot hold {rest[-1]!r}")
    return text


def script_lines(script: str | Iterable[str]) -> list[str]:
    """The lines of a script that is a text, or that is lines."""
    if isinstance(script, str):
        return script.removesuffix("\n").split("\n")
    return [line(it) for it in script]


def command_of(text: str) -> str:
    """The command of a line; nothing for a blank line or a comment."""
    found = text.strip(" \t\r").replace("\t", " ").partition(" ")[0]
    return "" if found.startswith("#") else found
