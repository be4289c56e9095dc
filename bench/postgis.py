"""The questions of bench/zones, asked of PostGIS: of a server that `psql` finds (PGHOST, PGPORT and PGUSER say where).

A leg is a line with time as its measure M, in seconds, and an index of the kind GiST has the legs. One process answers.
`ST_Intersection` loses M, so `ST_InterpolatePoint` gives a stay's moments.
"""
import csv
import os
import sys
from fractions import Fraction

from common import DATA, ROOT

sys.path.insert(0, str(ROOT / "python" / "dev"))
import elsewhere
import zone_cases

csv.field_size_limit(1 << 30)
# how far a moment in doubles may be from the fraction, in seconds
NEAR = 1e-6
SETTINGS = "SET max_parallel_workers_per_gather = 0; SET jit = off;\n"
LEGS = """
CREATE EXTENSION IF NOT EXISTS postgis;
DROP TABLE IF EXISTS legs;
CREATE TABLE legs (feature text, number int, line geometry(LineStringM));
COPY legs FROM STDIN;
%s\\.
CREATE INDEX legs_by_line ON legs USING gist (line);
VACUUM ANALYZE legs;
"""
ZONES = """
DROP TABLE IF EXISTS zones;
CREATE TABLE zones (place int, name text, area geometry(Polygon));
COPY zones FROM STDIN;
%s\\.
ANALYZE zones;
"""
MEETS = """
SELECT name, count(*) FROM zones JOIN legs ON ST_Intersects(area, line) GROUP BY place, name ORDER BY place;
"""
# A leg in the zone needs no intersection. A touch is a point, which is its own first and last.
STAYS = """
SELECT name, feature, number,
    ST_InterpolatePoint(line, COALESCE(ST_StartPoint(part), part)),
    ST_InterpolatePoint(line, COALESCE(ST_EndPoint(part), part))
FROM (SELECT name, place, feature, number, line,
        (ST_Dump(CASE WHEN ST_Covers(area, line) THEN line ELSE ST_Intersection(line, area) END)).geom AS part
    FROM zones JOIN legs ON ST_Intersects(area, line)) AS parts
ORDER BY place, feature, number, 4;
"""


def copied(rows):
    return "".join("\t".join(map(str, row)) + "\n" for row in rows)


def legs_of(feed):
    """The legs of a feed of `bench/generate`: the feature, the leg's number among its own, and the numbers as text."""
    with open(feed, newline="") as lines:
        for record in csv.reader(line for line in lines if not line.startswith("@")):
            feature, begins, _, places = record[:4]
            yield feature, int(begins), places.split()


def load(feed):
    """Whether there is a server, which then has the legs."""
    rows = (
        (feature, begins, f"LINESTRING M ({x0} {y0} {begins}, {x1} {y1} {begins + 1})")
        for feature, begins, (x0, y0, x1, y1) in legs_of(feed)
    )
    return elsewhere.psql(LEGS % copied(rows)) is not None


def load_zones(path):
    with open(path, newline="") as lines:
        rows = [(place, zone["name"], zone["wkt"]) for place, zone in enumerate(csv.DictReader(lines))]
    elsewhere.psql(ZONES % copied(rows))


# What a process of the server took of a processor is read of the system before and after a question.
TIMED = """
SELECT pg_backend_pid() AS server \\gset
\\setenv SERVER :server
\\! cat /proc/$SERVER/stat
%s
\\! cat /proc/$SERVER/stat
"""


def asked(question):
    """The lines of an answer, and the seconds of a processor that the server took."""
    lines = elsewhere.psql(SETTINGS + TIMED % question).splitlines()
    before, after = (sum(map(int, line.rsplit(")", 1)[1].split()[11:13])) for line in (lines[0], lines[-1]))
    return lines[1:-1], (after - before) / os.sysconf("SC_CLK_TCK")


# The answers, compared


def stays_there(lines):
    """The stays of each zone and leg in PostGIS's answer; those that touch are one."""
    found = {}
    for row in lines:
        zone, feature, number, *moments = row.split("|")
        lo, hi = sorted(map(float, moments))
        stays = found.setdefault((zone, feature, int(number)), [])
        if stays and lo <= stays[-1][1]:
            stays[-1][1] = max(hi, stays[-1][1])
        else:
            stays.append([lo, hi])
    return found


def moment_of(text):
    """A moment of an answer, in seconds."""
    return Fraction(text) / 1000


def stays_here(answer):
    """The stays of each zone and leg in an answer of `mftb zones --legs`, whose moments count from the feed's start."""
    found = {}
    for row in csv.DictReader(answer.splitlines()):
        lo, hi = (moment_of(row[name]) for name in ("enters", "leaves"))
        number = lo if row["enters_by"] == "leg" else -(-lo // 1) - 1
        found.setdefault((row["zone"], row["feature"], int(number)), []).append([lo, hi])
    return found


def are_near(one, other):
    """Whether stays are as many, at the same moments but for a microsecond."""
    pairs = zip(one or [], other or [])
    return len(one or []) == len(other or []) and all(abs(a - b) <= NEAR for pair in pairs for a, b in zip(*pair))


def units(text):
    return int(Fraction(text) * 10**7)


def rings_of(path):
    """The rings of each zone of a file, in units."""
    with open(path, newline="") as lines:
        for zone in csv.DictReader(lines):
            places = zone["wkt"].removeprefix("POLYGON ((").removesuffix("))").split(", ")
            yield zone["name"], [[tuple(map(units, place.split())) for place in places[:-1]]]


def judged(feed, path, pairs):
    """The right stays of pairs of a zone and a leg, by fractions."""
    wanted = {key[1:] for key in pairs}
    legs = {(feature, number): places for feature, number, places in legs_of(feed) if (feature, number) in wanted}
    zones = dict(rings_of(path))
    for zone, feature, number in pairs:
        x0, y0, x1, y1 = map(units, legs[feature, number])
        stays = zone_cases.plain_stays(((x0, y0), (x1, y1)), Fraction(0), Fraction(1), zones[zone])
        yield (zone, feature, number), [[number + lo, number + hi] for lo, hi in stays]


def compared(feed, path, here, there):
    """How many pairs of a zone and a leg have stays, how many differ, and who is right of those."""
    pairs = [key for key in {**here, **there} if not are_near(here.get(key), there.get(key))]
    right = dict(judged(feed, path, pairs))
    ours = sum(here.get(key, []) == stays for key, stays in right.items())
    theirs = sum(are_near(there.get(key), stays) for key, stays in right.items())
    return len({**here, **there}), len(pairs), ours, theirs
