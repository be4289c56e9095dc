"""Visits of polygons and gates, worked out by hand with fractions: of mftb zones on a build without proofs, and of the
plain program that random feeds are compared with."""
import csv
import io
import unittest
from typing import NamedTuple

import zone_answers
from common import BUILT, Asked

START, END = "2020-01-01T00:00:00Z", "2020-01-01T00:02:00Z"
SQUARE = "POLYGON ((0 0, 10 0, 10 10, 0 10, 0 0))"
HOLED = "POLYGON ((0 0, 10 0, 10 10, 0 10, 0 0), (3 3, 7 3, 7 7, 3 7, 3 3))"
TRIANGLE = "POLYGON ((0 0, 7 0, 0 3, 0 0))"
# Two triangles, left and right, that meet at (5, 5).
BOW_TIE = "POLYGON ((0 0, 10 10, 10 0, 0 10, 0 0))"
# A square whose top edge is drawn down to (5, 5).
NOTCH = "POLYGON ((0 0, 10 0, 10 10, 5 5, 0 10, 0 0))"
# Two squares that share the corner (10, 10).
PARTS = "MULTIPOLYGON (((0 0, 10 0, 10 10, 0 10, 0 0)), ((10 10, 20 10, 20 20, 10 20, 10 10)))"
# Smaller x is to the left of both.
MOUTH = "LINESTRING (0 0, 0 10)"
SLANT = "LINESTRING (0 0, 2 3)"


class Row(NamedTuple):
    """Legs as `T0 T1 X0 Y0 X1 Y1` in seconds, and visits as `ENTERS LEAVES BY BY LEGS`, with both sides of a gate."""

    zone: str
    legs: tuple
    visits: tuple


def row(zone, *legs, visits=()):
    return Row(zone, legs, visits)


ROWS = {
    # x = -5 + 10 s and y = 5 - 10 s are both 0 at s = 1/2.
    "a corner touched": row(SQUARE, "0 10 -5 5 5 -5", visits=["5000 5000 edge edge 1"]),
    # x = -1 + 3 s is 0 at s = 1/3, and y = 1 - 3 s too.
    "a corner touched after a third": row(SQUARE, "0 10 -1 1 2 -2", visits=["10000/3 10000/3 edge edge 1"]),
    # The legs meet in (0, 0), so one visit has both.
    "a corner that two legs meet in": row(SQUARE, "0 5 -5 5 0 0", "5 10 0 0 5 -5", visits=["5000 5000 edge edge 2"]),
    # x = -1 + 3 s is 0 at s = 1/3, and the leg ends at x = 2.
    "an edge crossed": row(SQUARE, "0 1 -1 5 2 5", visits=["1000/3 1000 edge leg 1"]),
    # x = -10 + 30 s is 0 at s = 1/3 and 10 at s = 2/3.
    "a level edge run along": row(SQUARE, "0 30 -10 0 20 0", visits=["10000 20000 edge edge 1"]),
    # x = 5 + 10 s is 10 at s = 1/2.
    "a level edge left at its end": row(SQUARE, "0 10 5 0 15 0", visits=["0 5000 leg edge 1"]),
    # x is from 15 on.
    "in line with a level edge, beyond it": row(SQUARE, "0 10 15 0 20 0"),
    # y = -10 + 30 s is 0 at s = 1/3 and 10 at s = 2/3.
    "an upright edge run along": row(SQUARE, "0 30 10 -10 10 20", visits=["10000 20000 edge edge 1"]),
    # All of it has 3 x + 7 y = 21. x = 14 - 21 s is 7 at s = 1/3 and 0 at s = 2/3.
    "a slanted edge run along": row(TRIANGLE, "0 9 14 -3 -7 6", visits=["3000 6000 edge edge 1"]),
    # At y = 1 the slanted edge has x = 14/3; x = 7 s is there at s = 2/3.
    "a slanted edge crossed": row(TRIANGLE, "0 7 0 1 7 1", visits=["0 14000/3 leg edge 1"]),
    # x = 10 s is 3 at s = 3/10 and 7 at s = 7/10.
    "a hole crossed": row(HOLED, "0 10 0 5 10 5", visits=["0 3000 leg edge 1", "7000 10000 edge leg 1"]),
    # From x = 3 to 7 it is on the hole's edge.
    "a hole's edge run along": row(HOLED, "0 10 0 3 10 3", visits=["0 10000 leg leg 1"]),
    # x + y = 6 touches the hole in (3, 3) alone.
    "a hole's corner touched": row(HOLED, "0 6 0 6 6 0", visits=["0 6000 leg leg 1"]),
    # x = y = 10 s is at the hole's corners at s = 3/10 and 7/10.
    "a hole crossed from corner to corner": row(
        HOLED, "0 10 0 0 10 10", visits=["0 3000 leg edge 1", "7000 10000 edge leg 1"]
    ),
    "a leg that stands in a hole": row(HOLED, "0 10 5 5 5 5"),
    "a leg that stands on a hole's edge": row(HOLED, "0 10 3 5 3 5", visits=["0 10000 leg leg 1"]),
    "a leg that stands in a hole's corner": row(HOLED, "0 10 7 7 7 7", visits=["0 10000 leg leg 1"]),
    "a leg that stands on an edge": row(SQUARE, "0 10 0 5 0 5", visits=["0 10000 leg leg 1"]),
    # At y = 5 the left triangle is from x = 0 to 5, the right one from 5 to 10.
    "a bow tie through its knot": row(BOW_TIE, "0 10 0 5 10 5", visits=["0 10000 leg leg 1"]),
    # x = 5 is in both triangles at y = 5 alone: below and above it two edges are to the right.
    "a bow tie's knot from below": row(BOW_TIE, "0 10 5 0 5 10", visits=["5000 5000 edge edge 1"]),
    # At y = 2 the left triangle ends at x = 2, and the right one begins at x = 8.
    "a bow tie at a height": row(BOW_TIE, "0 10 0 2 10 2", visits=["0 2000 leg edge 1", "8000 10000 edge leg 1"]),
    # Out at (5, 5) and in again there.
    "a notch touched": row(NOTCH, "0 10 0 5 10 5", visits=["0 10000 leg leg 1"]),
    # At y = 8 the notch is from x = 10 - 8 to 8.
    "a notch crossed": row(NOTCH, "0 10 0 8 10 8", visits=["0 2000 leg edge 1", "8000 10000 edge leg 1"]),
    # x = y = 10 at s = 1/2, where it goes from one part to the other.
    "a corner of two parts, through both": row(PARTS, "0 20 0 0 20 20", visits=["0 20000 leg leg 1"]),
    # x + y = 20 has (10, 10) alone in common with each part.
    "a corner of two parts, between them": row(PARTS, "0 20 0 20 20 0", visits=["10000 10000 edge edge 1"]),
    # Gates. x = -5 + 10 s is 0 at s = 1/2.
    "a gate crossed": row(MOUTH, "0 10 -5 5 5 5", visits=["5000 5000 edge edge 1 left right"]),
    "a gate crossed the other way": row(MOUTH, "0 10 5 5 -5 5", visits=["5000 5000 edge edge 1 right left"]),
    # The first leg comes from the left, and the second goes back there.
    "legs that end on a gate and go back": row(
        MOUTH, "0 5 -5 5 0 5", "5 10 0 5 -5 6", visits=["5000 5000 edge edge 2 left left"]
    ),
    "legs that meet on a gate": row(MOUTH, "0 5 -5 5 0 5", "5 10 0 5 5 5", visits=["5000 5000 edge edge 2 left right"]),
    "a gate run along and left on the other side": row(
        MOUTH, "0 5 -5 2 0 2", "5 11 0 2 0 8", "11 16 0 8 5 8", visits=["5000 11000 edge edge 3 left right"]
    ),
    "a gate run along and left on the same side": row(
        MOUTH, "0 5 -5 2 0 2", "5 11 0 2 0 8", "11 16 0 8 -5 8", visits=["5000 11000 edge edge 3 left left"]
    ),
    "a leg that stands on a gate": row(
        MOUTH, "0 5 5 5 0 5", "5 10 0 5 0 5", "10 15 0 5 -5 5", visits=["5000 10000 edge edge 3 right left"]
    ),
    # y = -10 + 30 s is 0 at s = 1/3 and 10 at s = 2/3; before and after it is on the gate's line, on no side.
    "a gate run along from end to end": row(MOUTH, "0 30 0 -10 0 20", visits=["10000 20000 edge edge 1 none none"]),
    "a gate's end touched": row(MOUTH, "0 10 -5 10 5 10", visits=["5000 5000 edge edge 1 left right"]),
    "past a gate's end": row(MOUTH, "0 10 -5 11 5 11"),
    # The track says nothing of the time from 5 to 8 s.
    "a gap on a gate": row(
        MOUTH,
        "0 5 -5 5 0 5",
        "8 13 0 5 5 5",
        visits=["5000 5000 edge leg 1 left none", "8000 8000 leg edge 1 none right"],
    ),
    "a jump off a gate": row(MOUTH, "0 5 -5 5 0 5", "5 9 5 5 9 5", visits=["5000 5000 edge leg 1 left none"]),
    "a track that begins on a gate": row(MOUTH, "0 5 0 5 5 5", visits=["0 0 leg edge 1 none right"]),
    # The gate has 3 x = 2 y, so x = 2/3 at y = 1; x = -1 + 7 s is there at s = 5/21.
    "a slanted gate crossed": row(SLANT, "0 7 -1 1 6 1", visits=["5000/3 5000/3 edge edge 1 left right"]),
    # 3 x = 2 y, where x = 2 s and y = 3 - 3 s, at s = 1/2; it begins at (0, 3) on the left.
    "a slanted gate crossed aslant": row(SLANT, "0 4 0 3 2 0", visits=["2000 2000 edge edge 1 left right"]),
}


def numbers(leg):
    return [int(word) for word in leg.split()]


def feed():
    """All legs, each row's of a feature with the row's name."""
    lines = [
        "@stboundedby,local,2D,,,2020-01-01T00:00:00Z,,sec",
        "@columns,mfidref,trajectory",
    ]
    for name, it in ROWS.items():
        for t0, t1, *places in map(numbers, it.legs):
            lines.append(f'"{name}",{t0},{t1},{" ".join(map(str, places))}')
    return "\n".join(lines) + "\n"


def zone_file():
    return "name,wkt\n" + "".join(f'"{name}","{it.zone}"\n' for name, it in ROWS.items())


def visits_of(answer, gates):
    """The visits of each row's feature in its own zone."""
    found = {name: [] for name in ROWS}
    for record in csv.DictReader(io.StringIO(answer)):
        if record["zone"] == record["feature"]:
            # A whole number n is printed as n/1.
            words = [record[name].removesuffix("/1") for name in ("enters", "leaves", "enters_by", "leaves_by", "legs")]
            if record["zone"] in gates:
                words += [record["from"], record["to"]]
            found[record["zone"]].append(" ".join(words))
    return found


GATES = {name for name, it in ROWS.items() if it.zone in (MOUTH, SLANT)}
RIGHT = {name: list(it.visits) for name, it in ROWS.items()}


def plain_zone(wkt):
    """A zone as the plain program has it."""
    rings = []
    for text in wkt.replace("(", "").split(")"):
        places = [
            tuple(int(word) * 10**7 for word in place.split()[-2:]) for place in text.split(",") if place.strip()
        ]
        if places:
            rings.append(places)
    if wkt in (MOUTH, SLANT):
        return (tuple(rings[0]),), tuple(rings[0]), None
    return tuple(tuple(ring[:-1]) for ring in rings), None, None


def plain_legs(name):
    base = zone_answers.BASE_MS
    for t0, t1, *places in map(numbers, ROWS[name].legs):
        x0, y0, x1, y1 = (value * 10**7 for value in places)
        yield name, base + t0 * 1000, base + t1 * 1000, ((x0, y0), (x1, y1))


class ByHand(Asked):
    @unittest.skipUnless(BUILT.exists(), "tools/unproved has made no build yet")
    def test_program(self):
        self.load(feed())
        self.write("zones.csv", zone_file())
        printed, said = self.asked("zones", "store", "zones.csv", START, END)
        self.assertEqual(said, "")
        self.assertEqual(visits_of(printed, GATES), RIGHT)

    def test_plain_program(self):
        period = (zone_answers.BASE_MS, zone_answers.BASE_MS + 120_000)
        for name, it in ROWS.items():
            asked = ("--visits", None, list(plain_legs(name)), [(name, plain_zone(it.zone))], period)
            self.assertEqual(visits_of(zone_answers.plain_answer(*asked), GATES)[name], RIGHT[name], name)


if __name__ == "__main__":
    unittest.main()
