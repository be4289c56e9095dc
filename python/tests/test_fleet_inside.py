"""A fleet's moments and zones: record by record those of one store, in an order of its own."""
import csv
import io
import unittest
from fractions import Fraction

from common import BUILT, ROOT, Asked, has_info, has_zones, run

DRONES = ROOT / "examples" / "drones" / "drones.csv"
TIMES = ["2025-05-10T10:00:00Z", "2025-05-10T10:10:00Z"]
YARD = ["-40", "-30", "40", "30"]


@unittest.skipUnless(has_info(), "tools/unproved has made no build yet")
class Inside(Asked):
    def setUp(self):
        super().setUp()
        self.load(DRONES.read_text())
        for words in (["new", "fleet", "--parts", "3"], ["load", "fleet", "file.csv"]):
            self.fleet(*words)

    def fleet(self, *words, status=0):
        ended = run("fleet", *words, "--program", str(BUILT), folder=self.folder)
        self.assertEqual(ended.returncode, status, ended.stderr)
        return ended

    def check(self, command, *words):
        """A fleet's records are one store's: by zone, then by the first moment, then by feature."""
        names, *wanted = csv.reader(io.StringIO(self.asked(command, "store", *words)[0]))
        own, *found = csv.reader(io.StringIO(self.fleet(command, "fleet", *words).stdout))
        self.assertEqual(own, names)
        zone = names.index("feature")
        if "enters" in names:
            ends = [names.index(it) for it in ("enters", "leaves")]
            wanted.sort(key=lambda row: (Fraction(row[ends[0]]), row[zone], Fraction(row[ends[1]])))
        else:
            wanted.sort()
        places = {name: place for place, name in enumerate(["yard", "east, far", "all"])}
        wanted.sort(key=lambda row: places[row[0]] if zone else 0)
        self.assertEqual(found, wanted)
        return found

    def test_a_rectangle(self):
        for flags in [], ["--columns"], ["--visits"], ["--dwell"]:
            self.assertGreater(len(self.check("moments", *flags, *YARD, *TIMES)), 3)

    def test_rectangles_of_a_file(self):
        self.write(
            "rects.csv", 'name,x1,y1,x2,y2\nyard,-40,-30,40,30\n"east, far",40,-99,99,99\nall,-999,-999,999,999\n'
        )
        for flags in [], ["--visits"], ["--dwell"]:
            self.assertGreater(len(self.check("moments", *flags, "--rects", "rects.csv", *TIMES)), 9)

    @unittest.skipUnless(has_zones(), "this program has no zones")
    def test_zones(self):
        self.write(
            "zones.csv", 'name,wkt\nyard,"POLYGON((-40 -30,40 -30,0 30,-40 -30))"\nall,"LINESTRING(-99 -1,99 1)"\n'
        )
        for flags in [], ["--visits"], ["--legs"], ["--legs", "--columns"], ["--dwell"], ["--features", "crosses"]:
            self.check("zones", *flags, "zones.csv", *TIMES)

    def test_wrong_words_are_said_once(self):
        ended = self.fleet("moments", "fleet", *YARD, *reversed(TIMES), status=2)
        self.assertEqual(ended.stdout, "")
        self.assertRegex(ended.stderr.splitlines()[-1], "^fleet: mftb: T1 .*is after T2")
        self.assertEqual(ended.stderr.count("is after"), 1)
        self.fleet("moments", "fleet", *YARD, status=2)

    @unittest.skipUnless(has_zones(), "this program has no zones")
    def test_a_zone_file_of_another_form(self):
        self.write("zones.geojson", '{"type": "FeatureCollection"}\n')
        ended = self.fleet("zones", "fleet", "zones.geojson", *TIMES, status=2)
        refused, hint = ended.stderr.splitlines()[-2:]
        self.assertRegex(refused, "^fleet: mftb: the zone file is refused: Z2 at record 1: ")
        self.assertRegex(hint, "zones.geojson: it looks like GeoJSON, of which tools/zones_from makes a zone file$")

    def test_a_part_without_its_store(self):
        next(self.folder.glob("fleet/part-1-*")).unlink()
        ended = self.fleet("moments", "fleet", *YARD, *TIMES, status=1)
        self.assertIn("fleet: moments: 1 part of 3 failed", ended.stderr)
        self.assertEqual(ended.stdout, "")


if __name__ == "__main__":
    unittest.main()
