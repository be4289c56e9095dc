#!/usr/bin/env python3
"""Prints the answers to a folder's questions.txt, worked out apart from the program: check.py FOLDER.

The plain program over fractions is that of tools/zone_answers, which tests every leg.
"""
import csv
import re
import sys
from fractions import Fraction
from pathlib import Path

sys.dont_write_bytecode = True
HERE = Path(__file__).resolve().parent
sys.path[:0] = [str(HERE.parent), str(HERE.parents[1] / "python" / "dev")]
import zone_answers
from check import Book, instant


def zone_of(wkt):
    """The rings of a zone and the line of a gate, in units of 10^-7."""
    rings = tuple(
        tuple(tuple(int(Fraction(it) * 10**7) for it in corner.split()) for corner in ring.split(","))
        for ring in re.findall(r"\(([^()]+)\)", wkt)
    )
    gate = rings[0] if wkt.startswith("LINESTRING") else None
    return rings, gate, None


def main():
    folder = Path(sys.argv[1])
    book = Book()
    for line in (folder / "script.txt").read_text().splitlines():
        if line.startswith("load "):
            book.load(folder / line.removeprefix("load "))
    legs = [
        (leg.name, leg.t0, leg.t1, tuple(tuple(int(it * 10**7) for it in end) for end in (leg.start, leg.end)))
        for leg in book.legs
    ]
    zone_answers.BASE_MS = book.base
    zones = [(it["name"], zone_of(it["wkt"])) for it in csv.DictReader(open(folder / "zones.csv", newline=""))]
    for line in (folder / "questions.txt").read_text().splitlines():
        flag, *predicate, begin, end = line.split()
        period = instant(begin), instant(end)
        sys.stdout.write(zone_answers.plain_answer(flag, *(predicate or [None]), legs, zones, period))


main()
