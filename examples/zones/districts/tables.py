#!/usr/bin/env python3
"""Prints two tables of the visits that `mftb zones` prints: tables.py visits.csv.

A trip goes from one district to the next one in which a bicycle stays for ten minutes. A crossing of the cordon counts
in the quarter of an hour in which it is.
"""
import csv
import sys
from collections import Counter, defaultdict
from datetime import datetime
from fractions import Fraction
from itertools import pairwise

WAYS = {("left", "right"): "east", ("right", "left"): "west"}
LEAST = 600_000


def quarter(instant):
    """The quarter of an hour of an instant, of which the microseconds are rounded down."""
    at = datetime.fromisoformat(instant)
    return f"{at:%H}:{at.minute // 15 * 15:02}"


visits = list(csv.DictReader(open(sys.argv[1], newline="")))
stops = defaultdict(list)
for it in sorted(visits, key=lambda it: Fraction(it["enters"])):
    if it["zone"] != "cordon" and Fraction(it["leaves"]) - Fraction(it["enters"]) >= LEAST:
        stops[it["feature"]].append(it["zone"])
trips = Counter(trip for zones in stops.values() for trip in pairwise(zones))
crossings = [it for it in visits if it["zone"] == "cordon" and (it["from"], it["to"]) in WAYS]
counts = Counter((quarter(it["enters_at"]), WAYS[it["from"], it["to"]]) for it in crossings)
print("from,to,trips")
for (origin, destination), count in sorted(trips.items()):
    print(f"{origin},{destination},{count}")
print("quarter,direction,crossings")
for (begin, way), count in sorted(counts.items()):
    print(f"{begin},{way},{count}")
