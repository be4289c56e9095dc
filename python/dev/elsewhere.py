"""How others answer the cases of tools/exactness: each takes the cases and gives, for each, whether it says yes."""
import math
import os
import shutil
import sqlite3
import subprocess
import tempfile
from pathlib import Path

from exactcases import START, check

TOLERANCE = 1e-6


def doubles(case):
    """The case in doubles: the leg's ends, the rectangle's sides, and the moments in seconds after the start."""
    seconds = [(moment - START) / 1000 for moment in (case.t0, case.t1, *case.period)]
    places = [[float(value) for value in place] for place in (case.start, case.end)]
    return places, [[float(value) for value in side] for side in case.rect], seconds


def clipped(case, slack):
    """Whether the leg meets the rectangle, each side of which is moved out by the slack: Liang and Barsky's clipping."""
    (start, end), rect, (t0, t1, a, b) = doubles(case)
    low, high = max((a - t0) / (t1 - t0), 0.0), min((b - t0) / (t1 - t0), 1.0)
    for v0, v1, (least, most) in zip(start, end, rect):
        least, most = least - slack, most + slack
        if v0 == v1:
            if not least <= v0 <= most:
                return False
            continue
        ends = sorted([(least - v0) / (v1 - v0), (most - v0) / (v1 - v0)])
        low, high = max(low, ends[0]), min(high, ends[1])
    return low <= high


def by_doubles(cases):
    return [clipped(case, 0.0) for case in cases]


def by_tolerance(cases):
    return [clipped(case, TOLERANCE) for case in cases]


def sampled(case):
    """Whether a position at a whole second, or at an end of the leg, lies in the rectangle; of a long leg there are a
    thousand samples."""
    (start, end), rect, (t0, t1, a, b) = doubles(case)
    step = max(1.0, (t1 - t0) / 1000)
    first, last = max(t0, a), min(t1, b)
    moments = [t0 + k * step for k in range(math.ceil((first - t0) / step), math.floor((last - t0) / step) + 1)]
    for moment in [first, *moments, last]:
        part = (moment - t0) / (t1 - t0)
        place = [v0 + (v1 - v0) * part for v0, v1 in zip(start, end)]
        if all(least <= v <= most for v, (least, most) in zip(place, rect)):
            return True
    return False


def by_samples(cases):
    return [sampled(case) for case in cases]


def by_shapely(cases):
    """The part of the leg in the period by interpolation, and then `intersects`; None where shapely is not there."""
    try:
        from shapely.geometry import LineString, Point, box
    except ImportError:
        return None

    def answer(case):
        (start, end), rect, (t0, t1, a, b) = doubles(case)
        parts = [(max(t0, a) - t0) / (t1 - t0), (min(t1, b) - t0) / (t1 - t0)]
        ends = [tuple(v0 + (v1 - v0) * part for v0, v1 in zip(start, end)) for part in parts]
        ends = [tuple(start) if parts[0] == 0 else ends[0], tuple(end) if parts[1] == 1 else ends[1]]
        moved = LineString(ends) if ends[0] != ends[1] else Point(ends[0])
        (x1, x2), (y1, y2) = rect
        return moved.intersects(box(x1, y1, x2, y2) if y1 < y2 else LineString([(x1, y1), (x2, y2)]))

    return [answer(case) for case in cases]


def by_rtree(cases):
    """Of SQLite's R*Tree: whether the least box of the leg meets the box of the question. A question of its own, of
    which `tools/exactness` has the right answers apart."""
    store = sqlite3.connect(":memory:")
    try:
        store.execute("CREATE VIRTUAL TABLE boxes USING rtree(id, x1, x2, y1, y2, t1, t2)")
    except sqlite3.OperationalError:
        return None
    for number, case in enumerate(cases):
        sides = [sorted(float(v) for v in pair) for pair in zip(case.start, case.end)]
        moments = [(moment - START) / 1000 for moment in (case.t0, case.t1)]
        store.execute("INSERT INTO boxes VALUES (?, ?, ?, ?, ?, ?, ?)", (number, *sides[0], *sides[1], *moments))
    asked = "SELECT count(*) FROM boxes WHERE id = ? AND x1 <= ? AND x2 >= ? AND y1 <= ? AND y2 >= ? AND t1 <= ? AND t2 >= ?"

    def answer(number, case):
        (x1, x2), (y1, y2) = (tuple(float(v) for v in side) for side in case.rect)
        a, b = ((moment - START) / 1000 for moment in case.period)
        return store.execute(asked, (number, x2, x1, y2, y1, b, a)).fetchone()[0] > 0

    return [answer(number, case) for number, case in enumerate(cases)]


def psql(text):
    """What psql prints for a script; None where there is no server with PostGIS."""
    words = ["psql", "-d", "postgres", "-Atq", "-v", "ON_ERROR_STOP=1", "-f", "-"]
    if os.geteuid() == 0 and shutil.which("runuser"):
        words = ["runuser", "-u", "postgres", "--", *words]
    try:
        done = subprocess.run(words, input=text, capture_output=True, text=True, cwd="/")
    except FileNotFoundError:
        return None
    return done.stdout if done.returncode == 0 else None


def number(value):
    """A number as SQL takes it, so that the database makes a double of it."""
    return check.shown(value) if value.denominator == 1 or 10**7 % value.denominator == 0 else repr(float(value))


def rows_of(cases):
    """The values of a table of the cases."""
    for at, case in enumerate(cases):
        (x1, x2), (y1, y2) = case.rect
        line = [*case.start, case.t0 - START, *case.end, case.t1 - START]
        values = [at, *line, case.period[0] - START, case.period[1] - START, x1, y1, x2, y2]
        yield "(" + ", ".join(str(v) if isinstance(v, int) else number(v) for v in values) + ")"


TABLE = """
CREATE EXTENSION IF NOT EXISTS postgis;
CREATE TEMP TABLE cases (n int, x0 float8, y0 float8, t0 float8, x1 float8, y1 float8, t1 float8,
    a float8, b float8, left_ float8, low float8, right_ float8, high float8);
INSERT INTO cases VALUES
%s;
"""
# The time is the measure M; the part of the leg in the period is cut out by it. A flat rectangle is a line.
BY_MEASURE = """
SELECT n, ST_Intersects(
    ST_Force2D(ST_LocateBetween(ST_MakeLine(ST_MakePointM(x0, y0, t0), ST_MakePointM(x1, y1, t1)), a, b)),
    CASE WHEN low < high THEN ST_MakeEnvelope(left_, low, right_, high)
         ELSE ST_MakeLine(ST_MakePoint(left_, low), ST_MakePoint(right_, high)) END)
FROM cases ORDER BY n;
"""
# The time is z; a box is a solid, of which ST_3DIntersects sees the faces, so that a leg within it is asked for apart.
BY_SOLID = """
SELECT n, ST_3DIntersects(leg, ST_GeomFromText(format('POLYHEDRALSURFACE Z (
    ((%1$s %2$s %3$s, %1$s %5$s %3$s, %4$s %5$s %3$s, %4$s %2$s %3$s, %1$s %2$s %3$s)),
    ((%1$s %2$s %6$s, %4$s %2$s %6$s, %4$s %5$s %6$s, %1$s %5$s %6$s, %1$s %2$s %6$s)),
    ((%1$s %2$s %3$s, %4$s %2$s %3$s, %4$s %2$s %6$s, %1$s %2$s %6$s, %1$s %2$s %3$s)),
    ((%1$s %5$s %3$s, %1$s %5$s %6$s, %4$s %5$s %6$s, %4$s %5$s %3$s, %1$s %5$s %3$s)),
    ((%1$s %2$s %3$s, %1$s %2$s %6$s, %1$s %5$s %6$s, %1$s %5$s %3$s, %1$s %2$s %3$s)),
    ((%4$s %2$s %3$s, %4$s %5$s %3$s, %4$s %5$s %6$s, %4$s %2$s %6$s, %4$s %2$s %3$s)))',
    left_, low, a, right_, high, b))) OR (x0 BETWEEN left_ AND right_ AND y0 BETWEEN low AND high AND t0 BETWEEN a AND b)
FROM (SELECT *, ST_MakeLine(ST_MakePoint(x0, y0, t0), ST_MakePoint(x1, y1, t1)) AS leg FROM cases) AS them ORDER BY n;
"""


# The boxes of PostGIS's indexes, whose sides are 32-bit numbers.
BY_BOXES = """
SELECT n, ST_MakeLine(ST_MakePoint(x0, y0), ST_MakePoint(x1, y1)) && ST_MakeEnvelope(left_, low, right_, high)
    AND t0 <= b AND a <= t1
FROM cases ORDER BY n;
"""


def by_postgis(cases, question):
    said = psql(TABLE % ",\n".join(rows_of(cases)) + question)
    return None if said is None else [line.endswith("|t") for line in said.splitlines() if "|" in line]


def by_measure(cases):
    return by_postgis(cases, BY_MEASURE)


def by_solid(cases):
    return by_postgis(cases, BY_SOLID)


def by_boxes(cases):
    return by_postgis(cases, BY_BOXES)


def by_double_boxes(cases):
    """Whether the least boxes meet, their sides compared as doubles."""
    answers = []
    for case in cases:
        (start, end), rect, (t0, t1, a, b) = doubles(case)
        sides = zip(start, end, rect)
        meets = all(min(v0, v1) <= most and least <= max(v0, v1) for v0, v1, (least, most) in sides)
        answers.append(meets and t0 <= b and a <= t1)
    return answers


def by_mftb(cases, program, question="legs ever"):
    """The program's own answers: all legs in one store, and a question a case, whose time is its own."""
    if program is None:
        return None
    with tempfile.TemporaryDirectory() as name:
        folder = Path(name)
        lines = ["@stboundedby,metres,2D,,,2024-01-01T00:00:00Z,,absolute", "@columns,mfidref,trajectory"]
        script = ["load cases.csv"]
        for case in cases:
            trajectory = " ".join(check.shown(value) for value in (*case.start, *case.end))
            lines.append(",".join([case.name(), check.date(case.t0), check.date(case.t1), trajectory]))
            (x1, x2), (y1, y2) = case.rect
            sides = " ".join(check.shown(value) for value in (x1, y1, x2, y2))
            script.append(f"{question} {sides} {check.date(case.period[0])} {check.date(case.period[1])}")
        (folder / "cases.csv").write_text("\n".join(lines) + "\n")
        (folder / "script.txt").write_text("\n".join(script) + "\n")
        words = [*program, "run", "store", "script.txt", "cases.csv"]
        done = subprocess.run(words, cwd=folder, capture_output=True, text=True, check=True)
    said = done.stdout.split("ok ")[2:]
    return [answer.startswith(f"1\n{case.name()},") for answer, case in zip(said, cases, strict=True)]
