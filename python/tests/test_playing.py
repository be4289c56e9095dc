"""Answers with a time a vertex: what GDAL, geopandas and sqlite3 read of a GeoPackage, and what trips have."""
import importlib.util
import io
import json
import shutil
import sqlite3
import struct
import subprocess
import unittest

from common import BUILT, ROOT, Case, has_info
from mftb import playing
from mftb.asking import Row

CRS84 = "urn:ogc:def:crs:OGC:1.3:CRS84"
COLUMNS = [("speed", "xsd:decimal"), ("crew", "xsd:integer"), ("Begin", "xsd:token"), ("berth", "xsd:integer")]
MINUTE = [f"2024-06-03T09:0{minute}:00Z" for minute in range(6)]
TENTH = "2024-06-03T09:01:00.100Z"
LEGS = [
    Row(3, "box", "a", MINUTE[0], MINUTE[1], (("0.1", "0"), ("10", "-0.0000001")), ("1.50", "7", "x", "12")),
    Row(3, "box", "b, c", MINUTE[0], TENTH, (("5", "5"), ("6", "5")), ("", "", "", "")),
    Row(3, "box", "a", MINUTE[1], MINUTE[2], (("10", "-0.0000001"), ("11", "1")), ("2", "8", "y", "4a")),
    # Behind a gap in time, and behind one in place.
    Row(3, "box", "a", MINUTE[3], MINUTE[4], (("11", "1"), ("12", "2")), ("3", "8", "y", "")),
    Row(3, "box", "a", MINUTE[4], MINUTE[5], (("13", "2"), ("14", "2")), ("3", "8", "y", "")),
    Row(4, "features", "a"),
]
TRACKS = playing.Tracks({"a": [LEGS[0]]})
NINE = 1717405200


class Trips(unittest.TestCase):
    def trips(self, rows):
        out = io.StringIO()
        playing.write_trips(out, rows, TRACKS)
        return json.loads(out.getvalue())["features"], out.getvalue()

    def test_a_trip_is_what_goes_on_without_a_gap(self):
        found, text = self.trips(LEGS)
        first = [[0.1, 0, 0, NINE * 1000], [10, -1e-7, 0, (NINE + 60) * 1000], [11, 1, 0, (NINE + 120) * 1000]]
        self.assertEqual(found[0]["geometry"], {"type": "LineString", "coordinates": first})
        self.assertEqual([len(it["geometry"]["coordinates"]) for it in found], [3, 2, 2, 2, 2])
        self.assertEqual([it["properties"]["feature"] for it in found], ["a", "a", "a", "b, c", "a"])
        self.assertEqual(found[3]["geometry"]["coordinates"][1], [6, 5, 0, (NINE + 60) * 1000 + 100])
        self.assertIn("[10, -0.0000001, 0, ", text)

    def test_a_height_and_no_answer(self):
        leg = Row(1, "box", "a", MINUTE[0], MINUTE[1], (("0", "0", "7"), ("1", "1", "8")), ())
        found, _ = self.trips([leg])
        self.assertEqual(found[0]["geometry"]["coordinates"][1], [1, 1, 8, (NINE + 60) * 1000])
        self.assertEqual(self.trips([])[0], [])


class Packages(Case):
    def package(self, rows=LEGS, crs=CRS84, dimension=2, columns=COLUMNS):
        with open(self.folder / "out.gpkg", "wb") as out:
            playing.write_geopackage(out, crs, dimension, columns, rows, TRACKS)
        base = sqlite3.connect(self.folder / "out.gpkg")
        self.addCleanup(base.close)
        return base

    def test_legs_have_begin_and_end_and_their_values(self):
        base = self.package()
        rows = base.execute("SELECT * FROM legs").fetchall()
        self.assertEqual(len(rows), 6)
        self.assertEqual(
            rows[0][2:], (3, "box", "a", "2024-06-03T09:00:00.000Z", "2024-06-03T09:01:00.000Z", 1.5, 7, "x", "12")
        )
        self.assertEqual(rows[1][6:], ("2024-06-03T09:01:00.100Z", None, None, None, None))
        self.assertEqual(rows[5][2:5], (4, "features", "a"))
        kinds = {row[1]: row[2] for row in base.execute("PRAGMA table_info(legs)")}
        # Of berth one value is no number; no name of a column differs from another one in case only.
        self.assertEqual(
            (kinds["begin"], kinds["speed"], kinds["crew"], kinds["berth"]), ("DATETIME", "DOUBLE", "INTEGER", "TEXT")
        )
        self.assertIn("Begin_", kinds)
        self.assertEqual(base.execute("PRAGMA application_id").fetchone(), (0x47504B47,))
        self.assertEqual(
            base.execute("SELECT min_x, min_y, max_x, max_y FROM gpkg_contents").fetchone(), (0.1, -1e-7, 14, 5)
        )

    def test_a_track_has_its_moments_as_m(self):
        base = self.package()
        (blob,) = base.execute("SELECT geom FROM tracks").fetchone()
        self.assertEqual(struct.unpack_from("<BII9d", blob, 40),
                         (1, 2002, 3, 0.1, 0, NINE, 10, -1e-7, NINE + 60, 11, 1, NINE + 120))  # fmt: skip
        ends = base.execute("SELECT feature, begin, end FROM tracks").fetchall()
        self.assertEqual(ends[0], ("a", "2024-06-03T09:00:00.000Z", "2024-06-03T09:02:00.000Z"))
        self.assertEqual(len(ends), 5)

    def test_systems_and_no_leg(self):
        for number, (crs, wanted) in enumerate([(CRS84, 4326), ("EPSG:25832", 25832), ("harbour-grid-metres", -1)]):
            self.assertEqual(playing.srs_of(crs), wanted)
        base = self.package(rows=[], crs="harbour-grid-metres")
        self.assertEqual(base.execute("SELECT min_x, srs_id FROM gpkg_contents").fetchall(), [(None, -1)] * 2)

    @unittest.skipUnless(
        shutil.which("ogrinfo"), "ogrinfo (gdal-bin) is not there: no other program reads the GeoPackage"
    )
    def test_gdal_reads_it(self):
        self.package(crs="EPSG:25832")
        command = ["ogrinfo", "-al", self.folder / "out.gpkg"]
        ended = subprocess.run(command, capture_output=True, text=True)
        self.assertEqual((ended.returncode, ended.stderr), (0, ""))
        for line in [
            "Layer name: legs",
            "Geometry: Line String",
            "Geometry: Measured Line String",
            "begin: DateTime (0.0)",
            "  end (DateTime) = 2024/06/03 09:01:00.1",
            "  crew (Integer64) = 7",
            "  LINESTRING (11 1,12 2)",
            "  LINESTRING M (11 1 1717405380,12 2 1717405440)",
            'PROJCRS["ETRS89 / UTM zone 32N"',
        ]:
            self.assertIn(line, ended.stdout)

    @unittest.skipUnless(importlib.util.find_spec("geopandas"), "geopandas is not there")
    def test_geopandas_reads_it(self):
        import geopandas

        self.package()
        found = geopandas.read_file(self.folder / "out.gpkg", layer="legs")
        self.assertEqual((found["begin"].dtype.kind, found["speed"].tolist()[0], len(found)), ("M", 1.5, 6))
        self.assertEqual((found["end"] - found["begin"]).dt.total_seconds().tolist()[:2], [60, 60.1])
        self.assertEqual((found.crs.to_epsg(), found.geometry[3].wkt), (4326, "LINESTRING (11 1, 12 2)"))

    def legs(self):
        base = sqlite3.connect(self.folder / "out.gpkg")
        self.addCleanup(base.close)
        return base.execute("SELECT question, speed FROM legs").fetchall()

    @unittest.skipUnless(has_info(), "tools/unproved has made no build yet")
    def test_the_command(self):
        head = f"@stboundedby,{CRS84},2D,,,2024-06-03T09:00:00Z,,sec\n@columns,mfidref,trajectory,speed,xsd:double\n"
        self.write("day.csv", f"{head}a,0,60,0.1 0 10 0,1.50\na,60,120,10 0 11 1,2\n")
        self.write(
            "script", "load day.csv\ntrajectory a\nfeatures ever 0 0 1 1 2024-06-03T09:00:00Z 2024-06-03T09:00:30Z\n"
        )
        table = [ROOT / "tools" / "table", "--program", BUILT, "store"]
        words = ["script", "day.csv", "--format", "gpkg", "-o", "out.gpkg"]
        subprocess.run([*table, *words], cwd=self.folder, check=True)
        # A feature has its legs in the period of its question.
        self.assertEqual(self.legs(), [(2, 1.5), (2, 2.0), (3, 1.5)])
        ever = "features ever 0 0 1 1 2024-06-03T09:00:00Z 2024-06-03T09:00:30Z"
        words = ["--ask", ever, "--whole", "--format", "gpkg", "-o", "out.gpkg"]
        subprocess.run([*table, *words], cwd=self.folder, check=True)
        self.assertEqual(self.legs(), [(1, 1.5), (1, 2.0)])
        trips = subprocess.run(
            [*table, "--ask", "trajectory a", "--format", "trips"], cwd=self.folder, check=True, capture_output=True
        )
        (trip,) = json.loads(trips.stdout)["features"]
        self.assertEqual(trip["geometry"]["coordinates"][2], [11, 1, 0, (NINE + 120) * 1000])
        ended = subprocess.run(
            [*table, "--ask", "count", "--format", "gpkg"], cwd=self.folder, capture_output=True, text=True
        )
        self.assertEqual(ended.returncode, 2)


if __name__ == "__main__":
    unittest.main()
