"""Legs of positions, as the records of a file of legs (docs/user/FILES.md)."""

from __future__ import annotations

import csv
import math
from argparse import Namespace
from collections import Counter
from collections.abc import Callable, Iterable, Mapping
from heapq import heapreplace
from itertools import compress, repeat
from operator import ne, sub

from mftb.feeds.fixes import Fix, Speed, meets, over_date_line
from mftb.feeds.positions import Position, Positions
from mftb.texts import Known, field, further_fields

# A heap of one gives what it has for what comes: each position takes the place of the one before.
exchanged: Callable[[list[tuple], tuple], tuple] = heapreplace
# Where a feature was before its first position: longer ago than any gap.
NEVER = -(1 << 62)
NOWHERE = Fix(NEVER, "", "", 0.0, 0.0, "", 0, True)


class Lasts(dict[str, list[tuple]]):
    """The last fix of each feature that was kept, alone in a list."""

    def __missing__(self, feature: str) -> list[tuple]:
        slot: list[tuple] = [NOWHERE]
        self[feature] = slot
        return slot


class Legs:
    """Makes the legs of positions, where each feature's come in time order.

    Of a repeated instant the first position is kept. No leg spans a gap, joins two segments, or
    goes over the date line, which in a plane would be a leg around the whole world. What is too
    fast is left out, or only counted.
    """

    def __init__(self, options: Namespace, counts: Counter) -> None:
        self.gap, self.counts, self.box = options.gap, counts, options.bbox
        self.leaves_out = options.most is not None
        self.speed = Speed(options.most or options.usual, options.in_degrees)
        self.is_over: Callable[[Fix, Fix], bool] = over_date_line if options.in_degrees else lambda one, two: False
        # What is surely slow enough: the square of a way, by that of its time; and on one side of the date line.
        self.slow, self.near = self.speed.glance**2 * 0.499, 179.0 if options.in_degrees else math.inf
        self.last = Lasts()
        self.names = Known(lambda name: field(name) + ",")
        # Of a feature whose first position is in no leg, one that was too fast from there.
        self.doubts: dict[str, Fix] = {}
        self.begin(0, {})

    def begin(self, start: int, begins: Mapping[str, Position]) -> None:
        """Counts times from a moment on, from where features ended before."""
        self.times = Known(lambda moment: seconds(moment - start) + ",")
        for name, (_, moment, place, values, segment) in begins.items():
            x, y = float(place[0]), float(place[1])
            further = further_fields(values)
            self.last[name] = [Fix(moment, self.times[moment], " ".join(place), x, y, further, segment, True)]

    def ends(self) -> dict[str, Position]:
        """Where each feature ended."""
        ends = ((name, Fix(*slot[0])) for name, slot in self.last.items())
        return {
            name: Position(name, it.moment, tuple(it.place.split(" ")), values_of(it), it.segment) for name, it in ends
        }

    def alone(self) -> int:
        """How many features end in a position that is in no leg."""
        return sum(not Fix(*slot[0]).in_leg for slot in self.last.values())

    def records(self, it: Positions) -> list[str]:
        """The record of the leg that ends at each position; a blank text where there is none."""
        times = list(map(self.times.__getitem__, it.moments))
        heres = list(zip(it.moments, times, it.places, it.xs, it.ys, it.further, it.segments, repeat(True)))
        befores = list(map(exchanged, map(self.last.__getitem__, it.features), heres))
        moments, begins, places, xs, ys, further, segments, _ = zip(*befores)
        names = map(self.names.__getitem__, it.features)
        pieces = zip(names, begins, times, places, repeat(" "), it.places, further, repeat("\n"))
        records = list(map("".join, pieces))
        ways = zip(map(sub, it.moments, moments), map(sub, it.xs, xs), map(sub, it.ys, ys))
        odd = self.odd(it.features, ways)
        if tuple(it.segments) != segments:
            odd.update(compress(it.features, map(ne, it.segments, segments)))
        if odd or self.box:
            self.mend(records, it.features, befores, heres, odd)
        return records

    def odd(self, features: list[str], ways: Iterable[tuple[int, float, float]]) -> set[str]:
        """The features of which a way, with its time, may be none of a leg."""
        gap, slow, near = self.gap, self.slow, self.near
        return {
            feature
            for feature, (span, wide, high) in zip(features, ways)
            if not (0 < span <= gap and wide * wide + high * high <= slow * span * span and -near < wide < near)
        }

    def mend(
        self, records: list[str], features: list[str], befores: list[tuple], heres: list[tuple], odd: set[str]
    ) -> None:
        """Makes the records of odd features one by one, from where these were before, and leaves out others."""
        met: set[str] = set()
        for place, feature in enumerate(features):
            if feature in odd:
                slot = self.last[feature]
                if feature not in met:
                    met.add(feature)
                    slot[0] = befores[place]
                records[place] = self.step(feature, slot, Fix(*heres[place]))
            elif self.is_outside(befores[place], heres[place]):
                records[place] = ""

    def step(self, feature: str, slot: list[tuple], here: Fix) -> str:
        """The record of the leg from a feature's last fix, if there is one; and what is the last one then."""
        before = Fix(*slot[0])
        if self.are_joined(before, here):
            begin = self.slow_enough(feature, before, here) if self.speed.exceeded(before, here) else before
            if begin is None:
                return ""
            slot[0] = here
            return self.record(feature, begin, here)
        if before.moment != NEVER and self.is_repeated(before, here):
            return ""
        if not before.in_leg:
            self.counts["alone"] += 1
        slot[0] = here._replace(in_leg=False)
        return ""

    def record(self, feature: str, before: Fix, here: Fix) -> str:
        """The record of a leg, unless it is outside what is kept."""
        if self.is_outside(before, here):
            return ""
        texts = before.time, here.time, before.place, " ", here.place, before.further
        return "".join((self.names[feature], *texts, "\n"))

    def is_outside(self, before: tuple, here: tuple) -> bool:
        """Whether a leg is outside --bbox; counts it, if it is."""
        if self.box is None or meets(self.box, Fix(*before), Fix(*here)):
            return False
        self.counts["outside"] += 1
        return True

    def are_joined(self, before: Fix, here: Fix) -> bool:
        """Whether a leg may lead from one position to the next one, but for its speed."""
        follows = 0 < here.moment - before.moment <= self.gap and here.segment == before.segment
        return follows and not self.is_over(before, here)

    def is_repeated(self, before: Fix, here: Fix) -> bool:
        """Counts why there is no leg between two positions; whether it is a repeated instant."""
        if before.segment != here.segment:
            self.counts["between segments"] += 1
        elif before.moment == here.moment:
            self.counts["with a repeated instant"] += 1
            return True
        elif here.moment - before.moment > self.gap:
            self.counts["gaps"] += 1
        else:
            self.counts["over the date line"] += 1
        return False

    def slow_enough(self, feature: str, before: Fix, here: Fix) -> Fix | None:
        """The position from which a leg leads here all the same, if there is one, where it was too fast.

        Of two positions of which one is wrong, the later one is left out; but where the earlier
        one is in no leg, and two later ones agree, that is the wrong one.
        """
        if not self.leaves_out:
            self.counts["fast"] += 1
            return before
        other = None if before.in_leg else self.doubts.get(feature)
        if other and self.are_joined(other, here) and not self.speed.exceeded(other, here):
            return self.doubts.pop(feature)
        self.counts["too fast"] += 1
        if not before.in_leg:
            self.doubts[feature] = here
        return None


def values_of(fix: Fix) -> tuple[str, ...]:
    """The attribute values behind the fields of a record."""
    return tuple(next(csv.reader([fix.further]))[1:])


def seconds(milliseconds: int) -> str:
    """A span in seconds, as the shortest decimal."""
    whole, part = divmod(milliseconds, 1000)
    return f"{whole}.{part:03}".rstrip("0") if part else str(whole)
