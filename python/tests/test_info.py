"""mftb info, on a build without proofs: what it prints of stores is what their files say."""
import json
import subprocess

from common import ROOT, Asked
from test_moments import HARBOUR, SECOND, START, legs_of, said

STATE = {"version": 2, "state": "finished"}
LIMITS = {"most_legs": 16777216, "most_features": 1048576}
COLUMNS = "@columns,mfidref,trajectory,remark,xsd:token"
QUOTED = """@stboundedby,"urn ""x"", y",3D,,,2024-06-03T08:50:00Z,,sec
@columns,mfidref,trajectory,"a\\b",xsd:token
a,0,10,0 0 -5.5 10 -0.25 3,x
"""


def plainly(values):
    """The lines of values."""
    return {key.replace("_", " "): str(value) for key, value in values.items()}


class Info(Asked):
    def pages(self):
        size = (self.folder / "store").stat().st_size
        return {"pages": size // 4096, "bytes": size}

    def lines(self):
        return [line.split(": ", 1) for line in self.asked("info", "store")[0].splitlines()]

    def check(self, text, crs, dimension, columns):
        """Both forms over a store of one file."""
        self.load(text)
        legs, places = legs_of(text)
        self.assertEqual(places, dimension)
        points = [point for leg in legs for point in (leg.start, leg.end)]
        extent = [float(edge(point[axis] for point in points)) for edge in (min, max) for axis in (0, 1)]
        times = [START.timestamp() * 1000 + edge for edge in (min(it.t0 for it in legs), max(it.t1 for it in legs))]
        first, last = (said(START + (it / 1000 - START.timestamp()) * SECOND)[:-4] + "Z" for it in map(float, times))
        counts = {"legs": len(legs), "features": len({leg.name for leg in legs})} | LIMITS
        wanted = STATE | self.pages() | {"crs": crs, "dimension": dimension, "start": "2024-06-03T08:50:00.000Z"}
        wanted |= {"columns": [{"name": name, "type": kind} for name, kind in columns]} | counts
        wanted |= {"first": first, "last": last, "extent": extent}
        made = self.asked("info", "store", "--json")[0]
        self.assertEqual(made.count("\n"), 1)
        self.assertEqual(json.loads(made), wanted)
        shown = dict(wanted)
        listed = [["column", f"{name} {kind}"] for name, kind in columns]
        lines = self.lines()
        self.assertEqual([line for line in lines if line[0] == "column"], listed)
        plain = {key: value for key, value in lines if key != "column"}
        self.assertEqual([float(it) for it in plain.pop("extent").split(" ")], shown.pop("extent"))
        shown.pop("columns")
        self.assertEqual(plain, plainly(shown))

    def test_harbour(self):
        columns = [("kind", "xsd:token"), ("draught", "xsd:decimal")]
        self.check(HARBOUR.read_text(), "harbour-grid-metres", 2, columns)

    def test_quoted_words_in_three_dimensions(self):
        self.check(QUOTED, 'urn "x", y', 3, [("a\\b", "xsd:token")])

    def test_what_is_not_seen_stands_as_its_number(self):
        self.load(QUOTED.replace(", y", "\u202e\u009by"))
        self.assertEqual(dict(self.lines())["crs"], 'urn "x"\\u{202e}\\u{9b}y')

    def test_a_store_without_a_file(self):
        self.write("count", "count\n")
        self.asked("run", "store", "count")
        wanted = STATE | self.pages() | {"legs": 0, "features": 0} | LIMITS
        nothing = ["crs", "dimension", "start", "columns", "first", "last", "extent"]
        self.assertEqual(json.loads(self.asked("info", "store", "--json")[0]), wanted | dict.fromkeys(nothing))
        self.assertEqual(dict(self.lines()), plainly(wanted))

    def test_refusals(self):
        self.assertEqual(self.asked("info", "absent", status=1), ("", "mftb: cannot read absent\n"))
        self.assertFalse((self.folder / "absent").exists())
        self.write("short", "no store\n")
        self.assertEqual(self.asked("info", "short", status=1), ("", "mftb: store malformed\n"))
        self.load(QUOTED)
        bytes_ = bytearray((self.folder / "store").read_bytes())
        bytes_[4096 + 100] ^= 1
        (self.folder / "store").write_bytes(bytes_)
        self.assertEqual(self.asked("info", "store", status=1), ("", "mftb: page 1 damaged\n"))
        bytes_[9] ^= 1
        (self.folder / "store").write_bytes(bytes_)
        self.assertEqual(self.asked("info", "store", status=1), ("", "mftb: page 0 damaged\n"))
        with open("/dev/full", "w") as full:
            command = [ROOT / "tools" / "unproved", "info", "store"]
            self.load_again()
            ended = subprocess.run(command, cwd=self.folder, stdout=full, stderr=subprocess.PIPE, text=True)
        self.assertEqual((ended.returncode, ended.stderr.split("\n", 1)[1]), (1, "mftb: output\n"))

    def test_rows_are_not_read(self):
        records = [f"a,{at},{at + 1},0 0 1 1,{chr(97 + at % 26) * 1000}" for at in range(100)]
        self.load("\n".join(["@stboundedby,c,2D,,,2024-06-03T08:50:00Z,,sec", COLUMNS, *records, ""]))
        self.write("count", "count\n")
        made = self.asked("info", "store")[0]
        self.assertEqual(self.asked("check", "store")[1], "")
        bytes_ = bytearray((self.folder / "store").read_bytes())
        pages = [at for at in range(0, len(bytes_), 4096) if bytes_[at + 4] == 4]
        for page in (pages[1], pages[7], pages[-1]):
            spoilt = bytearray(bytes_)
            spoilt[page + 100] ^= 1
            (self.folder / "store").write_bytes(spoilt)
            self.assertEqual(self.asked("info", "store")[0], made)
            for words in (["check", "store"], ["run", "store", "count"]):
                self.assertEqual(self.asked(*words, status=1)[1], f"mftb: page {page // 4096} damaged\n")
        bytes_[pages[0] + 100] ^= 1
        (self.folder / "store").write_bytes(bytes_)
        self.assertEqual(self.asked("info", "store", status=1)[1], f"mftb: page {pages[0] // 4096} damaged\n")

    def load_again(self):
        (self.folder / "store").unlink()
        self.load(QUOTED)
