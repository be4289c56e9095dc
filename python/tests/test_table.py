"""Answers as tables, by the build without proofs: what a planner's and a data scientist's programs read."""
import csv
import importlib.util
import io
import json
import sqlite3
import subprocess
import unittest

from common import BUILT, ROOT, Case, has_info

HEAD = (
    "@stboundedby,urn:ogc:def:crs:OGC:1.3:CRS84,{},,,2024-06-03T09:00:00Z,,sec\n"
    "@columns,mfidref,trajectory,speed,xsd:double,gear,xsd:token\n"
)
FLAT = HEAD.format("2D") + "a,0,10,0 0 10 0,1.50,up\n" 'a,10,30.25,10 0 10 5,,down\n"b, c",0,10,0 9 10 9,007,\n'
PERIOD = "2024-06-03T09:00:00Z 2024-06-03T10:00:00Z"
SCRIPT = f"load day.csv\ncount\n# a comment\nbox 9 0 11 6 {PERIOD}\nfeatures ever 0 0 11 10 {PERIOD}\nlegs near 0 0 1 1 {PERIOD}\ntrajectory b, c\n"


@unittest.skipUnless(has_info(), "tools/unproved has made no build yet")
class Tables(Case):
    def table(self, *words, status=0, day=FLAT, script=SCRIPT):
        """What a table of a script's answers prints."""
        self.write("day.csv", day)
        self.write("script", script)
        command = [ROOT / "tools" / "table", "--program", BUILT, *words]
        ended = subprocess.run(command, cwd=self.folder, capture_output=True, text=True)
        self.assertEqual(ended.returncode, status, ended.stderr)
        self.said = ended.stderr
        return ended.stdout

    def test_rows_of_legs_and_of_features(self):
        rows = list(csv.reader(io.StringIO(self.table("store", "script", "day.csv", status=3))))
        names = "question,words,feature,begin,end,x0,y0,x1,y1,speed,gear".split(",")
        box, ever = f"box 9 0 11 6 {PERIOD}", f"features ever 0 0 11 10 {PERIOD}"
        begin, middle, end = (f"2024-06-03T09:00:{second}Z" for second in ("00", "10", "30.250"))
        blank = [""] * 6
        wanted = [
            names,
            ["3", box, "a", begin, middle, "0", "0", "10", "0", "1.50", "up"],
            ["3", box, "a", middle, end, "10", "0", "10", "5", "", "down"],
            ["4", ever, "a", *blank, "", "down"],
            ["4", ever, "b, c", *blank, "007", ""],
            ["6", "trajectory b, c", "b, c", begin, middle, "0", "9", "10", "9", "007", ""],
        ]
        self.assertEqual(rows, wanted)
        self.assertIn("near", self.said)

    def test_objects_keep_the_digits_of_numbers(self):
        text = self.table("store", "script", "day.csv", "--format", "json", "--question", "3", status=3)
        first, second = json.loads(text)
        self.assertEqual((first["x1"], first["speed"], first["gear"]), (10, 1.5, "up"))
        self.assertIn('"speed": 1.50', text)
        self.assertNotIn("speed", second)

    def test_a_map_has_lines_and_tracks(self):
        text = self.table("store", "script", "day.csv", "--format", "geojson", status=3)
        features = json.loads(text)["features"]
        self.assertEqual([it["properties"]["question"] for it in features], [3, 3, 4, 4, 6])
        self.assertEqual(features[0]["geometry"], {"type": "LineString", "coordinates": [[0, 0], [10, 0]]})
        self.assertEqual(features[2]["geometry"]["coordinates"], [[0, 0], [10, 0], [10, 5]])
        self.assertEqual(features[2]["properties"]["gear"], "down")
        self.assertNotIn("x0", features[0]["properties"])

    def test_a_track_has_the_legs_of_the_period(self):
        ask = "features ever 0 0 11 10 2024-06-03T09:00:12Z 2024-06-03T09:00:15Z"
        self.table("store", "script", "day.csv", status=3)
        for words, places in ([], [[10, 0], [10, 5]]), (["--whole"], [[0, 0], [10, 0], [10, 5]]):
            text = self.table("store", "--ask", ask, "--format", "geojson", *words)
            self.assertEqual(json.loads(text)["features"][0]["geometry"]["coordinates"], places)

    def test_wkt_and_a_file_a_question(self):
        self.table("store", "script", "day.csv", "--format", "wkt", "--split", "all", status=3)
        names, first, *_ = csv.reader(io.StringIO(self.read("all/question-3.csv")))
        self.assertEqual(names[5:], ["wkt", "speed", "gear"])
        self.assertEqual(first[5], "LINESTRING (0 0, 10 0)")
        self.assertEqual(
            sorted(it.name for it in (self.folder / "all").iterdir()), [f"question-{n}.csv" for n in (3, 4, 6)]
        )

    def test_three_dimensions(self):
        day = HEAD.format("3D") + "a,0,10,0 0 1 10 0 2,1,up\n"
        text = self.table("store", "script", "day.csv", "--format", "wkt", "--question", "3", status=3, day=day)
        self.assertIn("LINESTRING Z (0 0 1, 10 0 2)", text)
        text = self.table("store", "--ask", f"box 9 0 11 6 {PERIOD}")
        self.assertIn("x0,y0,z0,x1,y1,z1,speed,gear\n", text)

    def test_a_question_without_a_script_has_its_number_and_its_words(self):
        self.table("store", "script", "day.csv", status=3)
        ever, track = f"features ever 0 0 11 10 {PERIOD}", "trajectory b, c"
        rows = list(csv.DictReader(io.StringIO(self.table("store", "--ask", ever, "--ask", track))))
        named = [(row["question"], row["words"], row["feature"]) for row in rows]
        self.assertEqual(len(self.table("store", "--format", "csv", "script", script=f"{ever}\n").splitlines()), 3)
        self.assertEqual(named, [("1", ever, "a"), ("1", ever, "b, c"), ("2", track, "b, c")])

    def test_a_store_without_an_accepted_file(self):
        (self.folder / "store").touch()
        bad = HEAD.format("2D") + "a,10,0,0 0 1 1,1,up\n"
        text = self.table("store", "script", "day.csv", status=3, day=bad)
        self.assertEqual(text, "question,words,feature,begin,end,x0,y0,x1,y1\n")

    def test_one_question_of_a_store_that_is_not_there(self):
        self.assertEqual(self.table("none", "--ask", "count", status=1), "")
        self.assertFalse((self.folder / "none").exists())

    def test_sqlite_and_pandas_read_it(self):
        text = self.table("store", "script", "day.csv", "--question", "3", status=3)
        names, *rows = csv.reader(io.StringIO(text))
        book = sqlite3.connect(":memory:")
        book.execute(f"create table answers ({', '.join(names)})")
        book.executemany(f"insert into answers values ({', '.join('?' * len(names))})", rows)
        self.assertEqual(book.execute("select count(*), max(x1 + 0) from answers").fetchone(), (2, 10))
        if importlib.util.find_spec("pandas"):
            import pandas

            found = pandas.read_csv(io.StringIO(text), parse_dates=["begin", "end"])
            self.assertEqual((found.end - found.begin).dt.total_seconds().tolist(), [10, 20.25])


if __name__ == "__main__":
    unittest.main()
