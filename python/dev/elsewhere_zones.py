"""How others answer the cases of zones of tools/exactness: each takes the cases and gives, for each, whether it says yes."""
import csv
import subprocess
import tempfile
from pathlib import Path

from elsewhere import check, psql


def leg_wkt(case):
    """A case's leg as text, so that each tool reads the decimals itself."""
    ends = (" ".join(check.shown(value) for value in place) for place in (case.start, case.end))
    return f"LINESTRING ({', '.join(ends)})"


def by_geos(cases, prepares):
    """By shapely: `intersects` and `covers`, of the zone as it is or prepared; None where shapely is not there."""
    try:
        from shapely import wkt
        from shapely.prepared import prep
    except ImportError:
        return None

    def answer(case):
        zone = wkt.loads(case.wkt())
        zone = prep(zone) if prepares else zone
        leg = wkt.loads(leg_wkt(case))
        return zone.intersects(leg) if case.question == "ever" else zone.covers(leg)

    return [answer(case) for case in cases]


def by_shapely(cases):
    return by_geos(cases, False)


def by_prepared(cases):
    return by_geos(cases, True)


POSTGIS = """
CREATE EXTENSION IF NOT EXISTS postgis;
SELECT n, CASE WHEN question = 'ever' THEN ST_Intersects(zone, leg) ELSE ST_Covers(zone, leg) END
FROM (SELECT n, question, ST_GeomFromText(zone) AS zone, ST_GeomFromText(leg) AS leg
    FROM (VALUES %s) AS texts (n, question, zone, leg)) AS them ORDER BY n;
"""


def by_postgis(cases):
    rows = [f"({at}, '{case.question}', '{case.wkt()}', '{leg_wkt(case)}')" for at, case in enumerate(cases)]
    said = psql(POSTGIS % ",\n".join(rows))
    return None if said is None else [line.endswith("|t") for line in said.splitlines() if "|" in line]


def by_mftb(cases, program):
    """The program's own answers: all legs in one store, all zones in one file, and one run for each question."""
    if program is None:
        return None
    with tempfile.TemporaryDirectory() as name:
        folder = Path(name)
        lines = ["@stboundedby,metres,2D,,,2024-01-01T00:00:00Z,,absolute", "@columns,mfidref,trajectory"]
        for case in cases:
            trajectory = " ".join(check.shown(value) for value in (*case.start, *case.end))
            lines.append(",".join([case.name(), check.date(case.t0), check.date(case.t1), trajectory]))
        (folder / "cases.csv").write_text("\n".join(lines) + "\n")
        (folder / "script.txt").write_text("load cases.csv\n")
        with open(folder / "zones.csv", "w", newline="") as out:
            csv.writer(out).writerows([("name", "wkt"), *((case.name(), case.wkt()) for case in cases)])

        def asked(*words):
            return subprocess.run([*program, *words], cwd=folder, capture_output=True, text=True, check=True).stdout

        asked("run", "store", "script.txt", "cases.csv")
        period = [check.date(min(case.t0 for case in cases)), check.date(max(case.t1 for case in cases))]
        found = {
            question: set(asked("zones", "--features", question, "store", "zones.csv", *period).splitlines())
            for question in ("ever", "always")
        }
    return [f"{case.name()},{case.name()}" in found[case.question] for case in cases]
