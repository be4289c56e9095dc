"""Whole numbers as bytes that a browser reads fast and that become small.

A column keeps the differences of neighbours, divided by their greatest common divisor, with the
sign in the lowest bit. It is written byte by byte: first the lowest byte of each number, then the
next one. Planes of nothing but zeros are left out at the top.
"""

from __future__ import annotations

import base64
import math
import sys
import zlib
from array import array
from collections.abc import Iterable
from itertools import chain
from operator import sub
from typing import NamedTuple


class Column(NamedTuple):
    """The shape of a column, and its planes of bytes."""

    length: int
    unit: int
    planes: list[bytes]

    def shape(self) -> list[int]:
        """What the page is told: how many numbers, their unit, and how many planes."""
        return [self.length, self.unit, len(self.planes)]


def packed(numbers: array[int]) -> Column:
    """Packs whole numbers of less than 2^52."""
    differences = list(map(sub, numbers, chain((0,), numbers)))
    unit = math.gcd(*differences) or 1
    if unit != 1:
        differences = [it // unit for it in differences]
    folded = array("q", [it * 2 if it >= 0 else -2 * it - 1 for it in differences])
    if sys.byteorder == "big":
        folded.byteswap()
    raw = folded.tobytes()
    planes = [raw[place::8] for place in range(8)]
    while planes and not any(planes[-1]):
        planes.pop()
    return Column(len(numbers), unit, planes)


def block(pieces: Iterable[bytes]) -> str:
    """Bytes as a text for a page: deflated, in base64."""
    deflate = zlib.compressobj(6)
    bytes_of = [*(deflate.compress(piece) for piece in pieces), deflate.flush()]
    return base64.b64encode(b"".join(bytes_of)).decode("ascii")


def columns_block(columns: Iterable[Column]) -> str:
    """All planes of columns, one after another."""
    return block(plane for column in columns for plane in column.planes)
