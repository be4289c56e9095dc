"""Compares `mftb zones` with a plain program over fractions: tools/zone_answers MFTB [RUNS] [SEED].

Each run makes a random book and a random zone file of small coordinates, and asks for visits, legs, dwells and the
features of each predicate over a random period. The plain program knows no index and no boxes: it tests every leg.
Rectangles among the zones are asked of `mftb moments` too.
"""
import csv
import functools
import io
import math
import random
import subprocess
import sys
import tempfile
from datetime import datetime, timedelta, timezone
from pathlib import Path

import zone_cases

BASE = datetime(2020, 1, 1, tzinfo=timezone.utc)
BASE_MS = round(BASE.timestamp()) * 1000
PREDICATES = ("ever", "always", "enters", "leaves", "crosses", "bypasses")


def number_text(units):
    """Units of 10^-7 as the shortest decimal."""
    whole, rest = divmod(abs(units), 10**7)
    text = f"{whole}.{rest:07}".rstrip("0").rstrip(".")
    return f"-{text}" if units < 0 else text


def instant_text(micros):
    """Microseconds since 1970 as an instant."""
    at = datetime(1970, 1, 1, tzinfo=timezone.utc) + timedelta(microseconds=micros)
    return at.strftime("%Y-%m-%dT%H:%M:%S.%fZ")


def fraction_text(moment):
    """A moment as a fraction in lowest terms."""
    return f"{moment.numerator}/{moment.denominator}"


def random_book(source, most):
    """Legs as (feature, t0, t1, course), in the order of the file; times in milliseconds."""
    ends = {}
    legs = []
    for _ in range(source.randint(1, 25)):
        feature = source.choice("abcde")
        time, place = ends.get(feature, (BASE_MS + source.randint(0, 20), zone_cases.random_corner(source, most)))
        kind = source.random()
        if kind < 0.15:
            time += source.randint(1, 10)
        if kind < 0.3:
            place = zone_cases.random_corner(source, most)
        end = time + source.randint(1, 12)
        target = place if source.random() < 0.1 else zone_cases.random_corner(source, most)
        legs.append((feature, time, end, (place, target)))
        ends[feature] = (end, target)
    return legs


def book_text(legs):
    lines = [
        "@stboundedby,local,2D,0 0,0 0,2020-01-01T00:00:00Z,2020-01-02T00:00:00Z,sec",
        "@columns,mfidref,trajectory",
    ]
    for feature, t0, t1, course in legs:
        t0, t1 = (f"{(t - BASE_MS) // 1000}.{(t - BASE_MS) % 1000:03}" for t in (t0, t1))
        places = " ".join(number_text(v) for position in course for v in position)
        lines.append(f"{feature},{t0},{t1},{places}")
    return "\n".join(lines) + "\n"


def random_zone(source, most):
    """A zone as (rings, gate, rectangle)."""
    kind = source.random()
    if kind < 0.3:
        a, b = zone_cases.random_corner(source, most), zone_cases.random_corner(source, most)
        b = b if a != b else (a[0] + 1, a[1])
        return ((a, b),), (a, b), None
    if kind < 0.5:
        (x1, x2), (y1, y2) = (sorted(source.sample(range(-most, most + 1), 2)) for _ in "xy")
        return (((x1, y1), (x2, y1), (x2, y2), (x1, y2)),), None, (x1, y1, x2, y2)
    rings = [
        tuple(zone_cases.random_corner(source, most) for _ in range(source.randint(3, 6)))
        for _ in range(source.randint(1, 3))
    ]
    return tuple(rings), None, None


def wkt_of(rings, gate):
    def positions(corners):
        return ", ".join(f"{number_text(x)} {number_text(y)}" for x, y in corners)

    if gate:
        return f"LINESTRING ({positions(gate)})"
    return f"POLYGON ({', '.join(f'({positions([*ring, ring[0]])})' for ring in rings)})"


@functools.lru_cache(maxsize=4096)
def plain_stays(course, first, last, rings):
    """The stays of a course, which each question asks for again."""
    return zone_cases.plain_stays(course, first, last, rings)


class Stay:
    """A stay of a leg, with all that is printed of it."""

    def __init__(self, feature, leg, period, gate, lo, hi):
        t0, t1, course = leg
        self.feature = feature
        self.enters, self.leaves = (t0 + (t1 - t0) * s for s in (lo, hi))
        self.entry, self.exit = (tuple(map(math.floor, zone_cases.point(course, s))) for s in (lo, hi))
        self.begins = zone_cases.end_text(self.enters, t0, period[0])
        self.ends = zone_cases.end_text(self.leaves, t1, period[1])
        self.before = self.after = "none" if gate else ""
        if gate and self.begins == "edge":
            self.before = zone_cases.side_text(gate, course, lo / 2)
        if gate and self.ends == "edge":
            self.after = zone_cases.side_text(gate, course, (hi + 1) / 2)
        self.legs = 1

    def joined(self, other):
        """Takes a stay in that begins as this one ends."""
        self.leaves, self.exit, self.ends, self.after = other.leaves, other.exit, other.ends, other.after
        self.legs += 1

    def times(self):
        texts = [fraction_text(moment - BASE_MS) for moment in (self.enters, self.leaves)]
        texts += [instant_text(math.floor(self.enters * 1000)), instant_text(math.ceil(self.leaves * 1000))]
        return texts + [number_text(v) for position in (self.entry, self.exit) for v in position]

    def least(self):
        return max(0, math.floor(self.leaves * 1000) - math.ceil(self.enters * 1000))

    def most(self):
        return max(0, math.ceil(self.leaves * 1000) - math.floor(self.enters * 1000))


def stays_of(legs, zone, period):
    rings, gate, _ = zone
    for feature, t0, t1, course in legs:
        leg = (t0, t1, course)
        for lo, hi in plain_stays(course, *zone_cases.ends_of(leg, period), rings):
            yield Stay(feature, leg, period, gate, lo, hi)


def visits_of(stays):
    visits = []
    last = {}
    for stay in stays:
        visit = last.get(stay.feature)
        if visit and visit.leaves == stay.enters:
            visit.joined(stay)
        else:
            visits.append(stay)
            last[stay.feature] = stay
    return visits


def holds(predicate, legs, rings, period):
    """A predicate of a feature's legs, by its definition."""
    live = [leg for leg in legs if max(leg[1], period[0]) <= min(leg[2], period[1])]
    if not live:
        return False

    def inside(leg, which):
        s = zone_cases.ends_of(leg[1:], period)[which]
        return zone_cases.is_in(rings, zone_cases.point(leg[3], s))

    ends = [zone_cases.ends_of(leg[1:], period) for leg in live]
    pieces = [(pair, plain_stays(leg[3], *pair, rings)) for leg, pair in zip(live, ends)]
    ever = any(stays for _, stays in pieces)
    first, last = inside(live[0], 0), inside(live[-1], 1)
    return {
        "ever": ever,
        "always": all(stays == [pair] for pair, stays in pieces),
        "enters": not first and last,
        "leaves": first and not last,
        "crosses": not first and not last and ever,
        "bypasses": not ever,
    }[predicate]


def seconds(micros):
    return f"{micros // 10**6}.{micros % 10**6:06}"


FIELDS = "zone,feature,enters,leaves,enters_at,leaves_at,x_in,y_in,x_out,y_out,enters_by,leaves_by"
HEADS = {
    "--visits": f"{FIELDS},legs,from,to",
    "--legs": f"{FIELDS},from,to",
    "--dwell": "zone,feature,visits,least,most",
    "--features": "zone,feature",
}


def plain_rows(flag, predicate, legs, zone, period):
    stays = list(stays_of(legs, zone, period))
    if flag == "--legs":
        return [[s.feature, *s.times(), s.begins, s.ends, s.before, s.after] for s in stays]
    if flag == "--features":
        names = list(dict.fromkeys(leg[0] for leg in legs))
        return [[n] for n in names if holds(predicate, [leg for leg in legs if leg[0] == n], zone[0], period)]
    visits = visits_of(stays)
    if flag == "--visits":
        return [[v.feature, *v.times(), v.begins, v.ends, str(v.legs), v.before, v.after] for v in visits]
    dwells = {}
    for visit in visits:
        dwells.setdefault(visit.feature, []).append(visit)
    return [
        [name, str(len(all_)), seconds(sum(v.least() for v in all_)), seconds(sum(v.most() for v in all_))]
        for name, all_ in dwells.items()
    ]


def plain_answer(flag, predicate, legs, zones, period):
    out = io.StringIO()
    writer = csv.writer(out, lineterminator="\n")
    for name, zone in zones:
        writer.writerows([name, *row] for row in plain_rows(flag, predicate, legs, zone, period))
    return f"{HEADS[flag]}\n{out.getvalue()}"


def asked(words, folder):
    ran = subprocess.run(words, cwd=folder, capture_output=True, text=True)
    if ran.returncode != 0:
        raise SystemExit(f"{words}: status {ran.returncode}: {ran.stderr}")
    return ran.stdout


def first_difference(answer, expected):
    for given, wanted in zip(answer.splitlines(), expected.splitlines()):
        if given != wanted:
            return f"  program: {given}\n  plain:   {wanted}"
    return f"  {len(answer.splitlines())} lines, and {len(expected.splitlines())} of the plain program"


def law_of_rectangles(program, folder, zones, times, flag, answer):
    """The records of rectangles are those that `mftb moments` prints, but for its edges."""
    rows = list(csv.reader(io.StringIO(answer)))[1:]
    wrong = 0
    for name, (_, _, rectangle) in zones:
        if rectangle:
            words = [program, "moments", *([flag] if flag == "--visits" else []), "S"]
            words += [*map(number_text, rectangle), *times]
            there = list(csv.reader(io.StringIO(asked(words, folder))))[1:]
            here = [row[1:] for row in rows if row[0] == name]
            wrong += [row[:9] for row in here] != [row[:9] for row in there]
    return wrong


def run(program, folder, source):
    """One book and one zone file: how many cases of a leg and a zone there are, and how many answers were wrong."""
    most = source.choice((2, 4, 8, 20))
    legs = random_book(source, most)
    zones = [(f"z{place}", random_zone(source, most)) for place in range(8)]
    last = max(leg[2] for leg in legs)
    period = sorted(source.randint(BASE_MS - 5, last + 5) for _ in "12")
    if source.random() < 0.5:
        period = [BASE_MS - 1000, last + 1000]
    times = [instant_text(t * 1000) for t in period]
    Path(folder, "S").unlink(missing_ok=True)
    Path(folder, "book.csv").write_text(book_text(legs))
    Path(folder, "script").write_text("load book.csv\n")
    lines = [f'{name},"{wkt_of(*zone[:2])}"\n' for name, zone in zones]
    Path(folder, "zones.csv").write_text("name,wkt\n" + "".join(lines))
    asked([program, "run", "S", "script", "book.csv"], folder)
    questions = [("--visits", None), ("--legs", None), ("--dwell", None)]
    questions += [("--features", predicate) for predicate in PREDICATES]
    wrong = 0
    for flag, predicate in questions:
        flags = [flag, predicate] if predicate else [flag]
        answer = asked([program, "zones", *flags, "S", "zones.csv", *times], folder)
        expected = plain_answer(flag, predicate, legs, zones, period)
        if answer != expected:
            wrong += 1
            print(f"{' '.join(flags)} {' '.join(times)}\n{first_difference(answer, expected)}")
        if flag in ("--visits", "--legs"):
            wrong += law_of_rectangles(program, folder, zones, times, flag, answer)
    return len(zones) * len(legs), wrong


def main():
    program = str(Path(sys.argv[1]).resolve())
    runs = int(sys.argv[2]) if len(sys.argv) > 2 else 200
    source = random.Random(int(sys.argv[3]) if len(sys.argv) > 3 else 1)
    cases = wrong = 0
    with tempfile.TemporaryDirectory() as folder:
        for _ in range(runs):
            count, bad = run(program, folder, source)
            cases += count
            wrong += bad
    print(f"{cases} cases of a leg and a zone in {runs} runs, {wrong} answers wrong")
    sys.exit(1 if wrong else 0)
