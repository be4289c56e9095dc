#!/usr/bin/env python3
"""Prints the answers to an example's script, worked out apart from the program: check.py FOLDER.

It is plain and slow: each question goes through all legs, and moments and places are Fractions. It
reads only what the examples and tools/random-scripts have. Anything else stops it, rather than being guessed at.
"""
import csv
import sys
from datetime import datetime, timedelta, timezone
from decimal import Decimal
from fractions import Fraction
from pathlib import Path
from typing import NamedTuple

EPOCH = datetime(1970, 1, 1, tzinfo=timezone.utc)


class Leg(NamedTuple):
    """A straight move of a feature from one place at t0 to another at t1, in milliseconds."""

    name: str
    t0: int
    t1: int
    start: tuple
    end: tuple
    values: list

    def moments(self, t1, t2):
        """The first and the last moment of the leg in a period, or nothing."""
        first, last = max(self.t0, t1), min(self.t1, t2)
        return (first, last) if first <= last else None

    def is_inside(self, moment, rect):
        """Whether the feature is in the rectangle at a moment of the leg, wherever its z is."""
        part = Fraction(moment - self.t0, self.t1 - self.t0)
        place = [a + (b - a) * part for a, b in zip(self.start, self.end)]
        return all(least <= v <= most for v, (least, most) in zip(place, rect))

    def inside(self, rect, t1, t2):
        """The first and the last moment in the period in the rectangle, or nothing."""
        if not self.moments(t1, t2):
            return None
        first, last = self.moments(t1, t2)
        for a, b, edges in zip(self.start, self.end, rect):
            if a == b and not edges[0] <= a <= edges[1]:
                return None
            if a != b:
                moments = [self.t0 + (edge - a) / (b - a) * (self.t1 - self.t0) for edge in edges]
                first, last = max(first, min(moments)), min(last, max(moments))
        return (first, last) if first <= last else None


def holds(word, legs, rect, t1, t2):
    """Whether a predicate holds of a list of legs."""
    live = [leg for leg in legs if leg.moments(t1, t2)]
    if not live:
        return False
    ever = any(leg.inside(rect, t1, t2) for leg in live)
    at_first = live[0].is_inside(live[0].moments(t1, t2)[0], rect)
    at_last = live[-1].is_inside(live[-1].moments(t1, t2)[1], rect)
    return {
        "ever": ever,
        "always": all(leg.inside(rect, t1, t2) == leg.moments(t1, t2) for leg in live),
        "enters": not at_first and at_last,
        "leaves": at_first and not at_last,
        "crosses": not at_first and not at_last and ever,
        "bypasses": not ever,
    }[word]


def meets_box(leg, rect, t1, t2):
    sides = zip(leg.start, leg.end, rect)
    meet = all(min(a, b) <= most and least <= max(a, b) for a, b, (least, most) in sides)
    return meet and leg.t0 <= t2 and t1 <= leg.t1


def number(text, digits):
    assert (Fraction(text) * 10**digits).denominator == 1, text
    return Fraction(text)


def instant(text):
    moment, rest = divmod(datetime.fromisoformat(text) - EPOCH, timedelta(milliseconds=1))
    assert not rest, text
    return moment


def date(moment):
    text = (EPOCH + timedelta(milliseconds=moment)).isoformat(timespec="milliseconds")
    return text.replace("+00:00", "Z")


def names_instant(text):
    """Whether a date and time has an offset from UTC."""
    return datetime.fromisoformat(text).tzinfo is not None


def moment(text, unit, start):
    """The moment of a time field: an instant, or so many seconds after the start."""
    assert unit in ("sec", "absolute"), unit
    return instant(text) if unit == "absolute" else start + int(number(text, 3) * 1000)


def shown(value):
    return f"{Decimal(value.numerator) / value.denominator:.7f}".rstrip("0").rstrip(".")


class Book:
    """The legs of the files that were accepted."""

    def __init__(self):
        self.legs, self.base, self.columns = [], None, None

    def load(self, path):
        with open(path, newline="", encoding="utf-8") as file:
            bounds, columns, *records = csv.reader(file)
        assert (bounds[0], len(bounds)) == ("@stboundedby", 8)
        assert self.columns in (None, [*bounds[1:3], *columns])
        axes, (unit,) = {"2D": 2, "3D": 3}[bounds[2]], bounds[7:]
        start, legs, ends = instant(bounds[5]), [], {leg.name: leg.t1 for leg in self.legs}
        for place, record in enumerate(records, 3):
            if unit == "absolute" and not all(map(names_instant, record[1:3])):
                return [[f"refused F13 at {place}"]]
        for place, (name, begin, end, trajectory, *values) in enumerate(records, 3):
            assert len(values) == len(columns[3:]) // 2
            t0, t1 = (moment(text, unit, start) for text in (begin, end))
            if t0 < ends.get(name, t0):
                return [[f"refused F18 at {place}"]]
            ends[name] = t1
            flat = [number(text, 7) for text in trajectory.split()]
            flats = [flat[axis::axes] for axis in range(axes)]
            places = list(zip(*flats, strict=True)) * (2 if len(flat) == axes else 1)
            n = len(places) - 1
            cuts = [t0 + (t1 - t0) * k // n for k in range(n + 1)]
            legs += [Leg(name, *cuts[k : k + 2], *places[k : k + 2], values) for k in range(n)]
        self.legs, self.columns = self.legs + legs, [*bounds[1:3], *columns]
        self.base = start if self.base is None else self.base
        return [["ok 1"], [len(records), len(legs), len({leg.name for leg in legs})]]

    def record(self, leg):
        times = [shown(Fraction(moment - self.base, 1000)) for moment in (leg.t0, leg.t1)]
        return [leg.name, *times, " ".join(map(shown, leg.start + leg.end)), *leg.values]

    def file(self):
        """The whole book as a file."""
        crs, dimension, *columns = self.columns
        axes = range({"2D": 2, "3D": 3}[dimension])
        places = [place for leg in self.legs for place in (leg.start, leg.end)]
        corners = [
            " ".join(shown(best((place[axis] for place in places), default=Fraction(0))) for axis in axes)
            for best in (min, max)
        ]
        end = max([self.base, *(leg.t1 for leg in self.legs)])
        head = ["@stboundedby", crs, dimension, *corners, date(self.base), date(end), "sec"]
        return [head, columns, *map(self.record, self.legs)]

    def answer(self, folder, word, rest):
        own = {}
        for leg in self.legs:
            own.setdefault(leg.name, []).append(leg)
        if word == "load":
            return self.load(folder / rest)
        if word == "write" and self.columns is None:
            return [["refused Q10"]]
        if word == "count":
            rows = [[len(self.legs), len(own)]]
        elif word == "write":
            rows = self.file()
        elif word == "trajectory":
            rows = [self.record(leg) for leg in own.get(rest, [])]
        else:
            *predicate, x1, y1, x2, y2, t1, t2 = rest.split()
            sides = [number(text, 7) for text in (x1, x2, y1, y2)]
            asked = (sides[:2], sides[2:]), instant(t1), instant(t2)
            assert word in ("box", "legs", "features"), word
            if word == "features":
                rows = [[name] for name in own if holds(*predicate, own[name], *asked)]
            else:
                pick = meets_box if word == "box" else lambda g, *a: holds(*predicate, [g], *a)
                rows = [self.record(leg) for leg in self.legs if pick(leg, *asked)]
        return [[f"ok {len(rows)}"], *rows]

    def run(self, folder, script, out):
        """Writes the answers to the lines of a script, whose files are in a folder."""
        for line in script.splitlines():
            if line.strip() and not line.startswith("#"):
                answer = self.answer(folder, *(line.split(None, 1) + [""])[:2])
                csv.writer(out, lineterminator="\n").writerows(answer)


if __name__ == "__main__":
    examples = Path(sys.argv[1])
    Book().run(examples, (examples / "script.txt").read_text(), sys.stdout)
