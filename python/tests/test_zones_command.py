"""mftb zones, on a build without proofs: rows worked out by hand, refusals, and random feeds beside a plain program."""
import csv
import io
import random
import unittest
from fractions import Fraction

import zone_answers
from common import BUILT, Asked

FEED = """\
@stboundedby,metres,2D,,,2024-01-01T00:00:00Z,,sec
@columns,mfidref,trajectory
a,0,10,0 0 10 0
b,0,4,4 0 5 0
b,4,8,5 0 4 0
"""
# At height 0 the first is from x = 3 to 7, the second from 4/3 to 9, the third from 1 to 4 and from 6 to 9. The fourth is
# a line across x = 5. The fifth has its lowest corner there.
ZONES = {
    "triangle": "POLYGON ((2 -1, 8 -1, 5 2, 2 -1))",
    "slant": "POLYGON ((1 -1, 9 -1, 9 2, 2 2, 1 -1))",
    "ring": "MULTIPOLYGON (((1 -2, 9 -2, 9 2, 1 2, 1 -2), (4 -1, 4 1, 6 1, 6 -1, 4 -1)))",
    "mouth": "LineString(5 -1, 5 1)",
    "tip": "polygon((5 0, 6 3, 4 3, 5 0))",
}
PLACES = "enters_at,leaves_at,x_in,y_in,x_out,y_out,enters_by,leaves_by"


def at(second):
    return f"2024-01-01T00:00:{second:09.6f}Z"


def visit(names, enters, leaves, *rest):
    """A record whose moments are whole milliseconds."""
    moments = [f"{enters}/1", f"{leaves}/1", at(enters / 1000), at(leaves / 1000)]
    return ",".join([names, *moments, *map(str, rest)])


def quoted(text):
    return '"' + text.replace('"', '""') + '"'


def zones_file(zones):
    return "name,wkt\n" + "".join(f"{quoted(name)},{quoted(wkt)}\n" for name, wkt in zones.items())


@unittest.skipUnless(BUILT.exists(), "tools/unproved has made no build yet")
class Zones(Asked):
    def setUp(self):
        super().setUp()
        self.load(FEED)
        self.write("zones.csv", zones_file(ZONES))

    def answer(self, *words, first=0, last=10, zones="zones.csv"):
        """The records behind the line of names, which has these fields behind `zone,feature`."""
        printed, said = self.asked("zones", *words, "store", zones, at(first), at(last))
        self.assertEqual(said, "")
        fields, *records = printed.splitlines()
        self.assertTrue(fields.startswith("zone,feature"), fields)
        return fields.removeprefix("zone,feature"), records

    def refused(self, text, line):
        """A zone file is refused by a line, and nothing is printed."""
        self.write("bad.csv", text)
        printed, said = self.asked("zones", "store", "bad.csv", at(0), at(10), status=2)
        self.assertEqual((printed, said), ("", f"mftb: the zone file is refused: {line}\n"))

    def test_visits_worked_out_by_hand(self):
        fields, records = self.answer()
        self.assertEqual(fields, f",enters,leaves,{PLACES},legs,from,to")
        self.assertEqual(
            records,
            [
                visit("triangle,a", 3000, 7000, 3, 0, 7, 0, "edge,edge,1,,"),
                visit("triangle,b", 0, 8000, 4, 0, 4, 0, "leg,leg,2,,"),
                f"slant,a,4000/3,9000/1,{at(1.333333)},{at(9)},1.3333333,0,9,0,edge,edge,1,,",
                visit("slant,b", 0, 8000, 4, 0, 4, 0, "leg,leg,2,,"),
                visit("ring,a", 1000, 4000, 1, 0, 4, 0, "edge,edge,1,,"),
                visit("ring,a", 6000, 9000, 6, 0, 9, 0, "edge,edge,1,,"),
                visit("ring,b", 0, 0, 4, 0, 4, 0, "leg,edge,1,,"),
                visit("ring,b", 8000, 8000, 4, 0, 4, 0, "edge,leg,1,,"),
                visit("mouth,a", 5000, 5000, 5, 0, 5, 0, "edge,edge,1,left,right"),
                visit("mouth,b", 4000, 4000, 5, 0, 5, 0, "edge,edge,2,left,left"),
                visit("tip,a", 5000, 5000, 5, 0, 5, 0, "edge,edge,1,,"),
                visit("tip,b", 4000, 4000, 5, 0, 5, 0, "edge,edge,2,,"),
            ],
        )
        self.assertEqual(self.answer("--visits"), (fields, records))

    def test_stays_of_legs_have_sides_of_their_own(self):
        name = 'the "mouth", south'
        self.write("gate.csv", zones_file({name: ZONES["mouth"]}))
        fields, records = self.answer("--legs", zones="gate.csv")
        self.assertEqual(fields, f",enters,leaves,{PLACES},from,to")
        self.assertEqual(
            records,
            [
                visit(f"{quoted(name)},a", 5000, 5000, 5, 0, 5, 0, "edge,edge,left,right"),
                visit(f"{quoted(name)},b", 4000, 4000, 5, 0, 5, 0, "edge,leg,left,none"),
                visit(f"{quoted(name)},b", 4000, 4000, 5, 0, 5, 0, "leg,edge,none,left"),
            ],
        )

    def test_attributes_of_legs(self):
        """Behind the last field of a stay, under the names of their columns; a visit has none."""
        typed = FEED.replace("trajectory", 'trajectory,"kind, or none",xsd:string,berth,xsd:integer')
        typed = typed.replace("10 0\n", '10 0,"tug, old",7\n').replace("5 0\n", "5 0,,8\n")
        self.kept("typed", typed)
        self.write("one.csv", zones_file({"slant": ZONES["slant"]}))
        words = "typed", "one.csv", at(0), at(10)
        printed, said = self.asked("zones", "--legs", "--columns", *words)
        self.assertEqual(said, "")
        self.assertEqual(
            printed.splitlines(),
            [
                f'zone,feature,enters,leaves,{PLACES},from,to,"kind, or none",berth',
                f'slant,a,4000/3,9000/1,{at(1.333333)},{at(9)},1.3333333,0,9,0,edge,edge,,,"tug, old",7',
                visit("slant,b", 0, 4000, 4, 0, 5, 0, "leg,leg,,,,8"),
                visit("slant,b", 4000, 8000, 5, 0, 4, 0, "leg,leg,,,,"),
            ],
        )
        for flags in [], ["--visits"], ["--dwell"], ["--features", "ever"]:
            printed, said = self.asked("zones", "--columns", *flags, *words, status=2)
            self.assertEqual(printed, "")
            self.assertIn("the argument '--columns' ", said)

    def kept(self, store, feed):
        """A store of its own for a feed."""
        self.write(f"{store}.csv", feed)
        self.write("load", f"load {store}.csv\n")
        self.asked("run", store, "load", f"{store}.csv")

    def test_moments_before_the_start(self):
        """The same way as before, from 10 s before the start instant on: 4/3 s later it is in the zone."""
        self.kept("early", FEED.splitlines(True)[0] + "@columns,mfidref,trajectory\na,-10,0,0 0 10 0\n")
        self.write("one.csv", zones_file({"slant": ZONES["slant"]}))
        printed, _ = self.asked("zones", "early", "one.csv", "2023-12-31T23:59:00Z", at(0))
        self.assertIn("slant,a,-26000/3,-1000/1,2023-12-31T23:59:51.333333Z,2023-12-31T23:59:59.000000Z,", printed)

    def test_moments_of_more_than_128_bits(self):
        """A leg of all the plane and of 8,000 years over a slanted edge."""
        x0, y0, x1, y1 = ends = 1 - 10**15, 7 - 10**15, 10**15 - 3, 10**15 - 11
        milliseconds = 252_000_000_001_001
        way = " ".join(map(zone_answers.number_text, ends))
        head = FEED.splitlines(True)[0].replace("2024", "1000")
        self.kept("long", f"{head}@columns,mfidref,trajectory\na,0,252000000001.001,{way}\n")
        corners = (-999, -7), (10**15, 13), (10**15, 10**15), (1 - 10**15, 10**15), (-999, -7)
        ring = ", ".join(" ".join(map(zone_answers.number_text, corner)) for corner in corners)
        self.write("long-zone.csv", zones_file({"far": f"POLYGON (({ring}))"}))
        words = "long", "long-zone.csv", "1000-01-01T00:00:00Z", "9998-01-01T00:00:00Z"
        printed, _ = self.asked("zones", "--legs", *words)
        (row,) = csv.DictReader(io.StringIO(printed))
        # Where the way is on the line from the first corner to the second.
        (ax, ay), (bx, by) = corners[:2]
        turn = (bx - ax) * (y1 - y0) - (by - ay) * (x1 - x0)
        enters = milliseconds * Fraction((by - ay) * (x0 - ax) - (bx - ax) * (y0 - ay), turn)
        self.assertGreater(enters.numerator, 2**128)
        self.assertEqual(row["enters"], f"{enters.numerator}/{enters.denominator}")

    def test_a_period_cuts_a_visit(self):
        self.write("one.csv", zones_file({"slant": ZONES["slant"]}))
        self.assertEqual(
            self.answer(first=2, last=3, zones="one.csv")[1],
            [
                visit("slant,a", 2000, 3000, 2, 0, 3, 0, "period,period,1,,"),
                visit("slant,b", 2000, 3000, 4.5, 0, 4.75, 0, "period,period,1,,"),
            ],
        )

    def test_dwells(self):
        fields, records = self.answer("--dwell")
        self.assertEqual(fields, ",visits,least,most")
        self.assertEqual(records[2:6], [
            "slant,a,1,7.666666,7.666667",
            "slant,b,1,8.000000,8.000000",
            "ring,a,2,6.000000,6.000000",
            "ring,b,2,0.000000,0.000000",
        ])  # fmt: skip

    def test_features_of_each_predicate(self):
        found = {
            "ever": ["triangle,a", "triangle,b", "ring,a", "ring,b"],
            "always": ["triangle,b"],
            "enters": [],
            "leaves": [],
            "crosses": ["triangle,a", "ring,a"],
            "bypasses": [],
        }
        self.write("two.csv", zones_file({name: ZONES[name] for name in ("triangle", "ring")}))
        for predicate, records in found.items():
            self.assertEqual(self.answer("--features", predicate, zones="two.csv"), ("", records), predicate)
        early = self.answer("--features", "enters", last=3.5, zones="two.csv")[1]
        self.assertEqual(early, ["triangle,a", "ring,a"])
        self.assertEqual(self.answer("--features", "leaves", last=3.5, zones="two.csv")[1], ["ring,b"])
        self.assertEqual(self.answer("--features", "bypasses", last=0.5, zones="two.csv")[1], ["triangle,a", "ring,a"])

    def test_marks_and_columns_of_no_use_are_passed_over(self):
        self.write("marked.csv", '\ufeffid,WKT,Name\r\n7,"POLYGON((2 -1,8 -1,5 2,2 -1))",triangle\r\n')
        found = ["triangle,a,1,4.000000,4.000000", "triangle,b,1,8.000000,8.000000"]
        self.assertEqual(self.answer("--dwell", zones="marked.csv")[1], found)

    def test_a_zone_file_is_refused_with_its_place(self):
        header = "Z2 at record 1: the header line needs one column `name` and one column `wkt`"
        self.refused("name,shape\n", header)
        self.refused("", header.replace("record 1", "record 0"))
        good = 'name,wkt\nz,"POLYGON ((0 0, 1 0, 0 1, 0 0))"\n'
        self.refused(good + good[9:], "Z3 at record 3: the name is empty, over 255 bytes, or there a second time")
        shape = "the shape is not WKT of a polygon, or of a line of two positions"
        self.refused(good + "c,CIRCLE (1 2 3)\n", f'Z4 at record 3, value "CIRCLE": {shape}')
        number = "a coordinate is not a number, or is above 100000000 in size"
        bad = good.replace("1 0, 0 1", "1 x, 0 1")
        self.refused(bad, f'Z5 at record 2, ring 1, value "x": {number}')
        ring = "a ring is not closed or has fewer than three corners, or a gate has no length"
        self.refused(good.replace(", 0 0))", "))"), f"Z6 at record 2, ring 1: {ring}")
        empty = "the shape is EMPTY, or has a third ordinate"
        self.refused("name,wkt\nz,POLYGON EMPTY\n", f'Z7 at record 2, value "EMPTY": {empty}')

    def test_flags_that_exclude_each_other(self):
        words = "store", "zones.csv", at(0), at(10)
        for flags in (
            ("--legs", "--visits"),
            ("--legs", "--dwell"),
            ("--dwell", "--visits"),
            ("--features", "ever", "--legs"),
            ("--explain", "--quiet"),
        ):
            printed, said = self.asked("zones", *flags, *words, status=2)
            self.assertIn("cannot be used with", said)
        self.assertIn("near", self.asked("zones", "--features", "near", *words, status=2)[1])

    def test_faults(self):
        for first, last, line in (
            (at(1), at(0), "T1 is after T2"),
            ("noon", at(0), "T1 or T2 is no instant, or out of range"),
        ):
            self.assertEqual(self.asked("zones", "store", "zones.csv", first, last, status=2), ("", f"mftb: {line}\n"))
        for store, zones, name in (("store", "absent.csv", "absent.csv"), ("absent", "zones.csv", "absent")):
            said = self.asked("zones", "-q", store, zones, at(0), at(1), status=1)
            self.assertEqual(said, ("", f"mftb: cannot read {name}\n"))

    def test_words_in_the_place_of_others(self):
        """It is said which word is not what; with -q it is not."""
        order = "the words are STORE ZONES T1 T2\n"
        first, last = at(0), at(10)
        exchanged = "zones.csv", "store", first, last
        printed, said = self.asked("zones", *exchanged, status=2)
        self.assertEqual(printed, "")
        self.assertEqual(said.split("\n", 1)[1], f"mftb: store is a store, and zones.csv is none; {order}")
        self.assertNotIn("words are", self.asked("zones", "-q", *exchanged, status=2)[1])
        printed, said = self.asked("zones", "store", "store", first, last, status=2)
        self.assertTrue(said.endswith(f"mftb: store is a store and no zone file; {order}"), said)
        printed, said = self.asked("zones", "--explain", "store", first, last, "zones.csv", status=2)
        self.assertEqual(
            said,
            "mftb: T1 or T2 is no instant, or out of range\n"
            "mftb: T2 'zones.csv' is no instant, as 2024-01-31T12:00:00Z is\n"
            f"mftb: ZONES '{first}' is an instant; {order}",
        )
        printed, said = self.asked("zones", "--explain", first, last, "store", "zones.csv", status=2)
        self.assertTrue(
            said.endswith(f"mftb: STORE '{first}' is an instant; {order}mftb: ZONES '{last}' is an instant; {order}"),
            said,
        )

    def test_other_forms_name_their_tool(self):
        forms = {
            "GeoJSON": b'{"type": "FeatureCollection", "features": []}',
            "KML or GML": b'<?xml version="1.0"?>\n<kml/>',
            "a shapefile": b"\0\0\x27\x0a" + bytes(96),
            "a GeoPackage": b"SQLite format 3\0" + bytes(84),
        }
        for form, data in forms.items():
            for start in (b"", b"\n \t") if form == "GeoJSON" else (b"",):
                (self.folder / "other").write_bytes(start + data)
                printed, said = self.asked("zones", "store", "other", at(0), at(10), status=2)
                self.assertEqual(printed, "")
                line, hint = said.splitlines()
                self.assertTrue(line.startswith("mftb: the zone file is refused: Z"), line)
                self.assertEqual(
                    hint, f"mftb: other: it looks like {form}, of which tools/zones_from makes a zone file"
                )
                said = self.asked("zones", "-q", "store", "other", at(0), at(10), status=2)[1]
                self.assertEqual(said, line + "\n")

    def test_times_are_refused_as_those_of_moments(self):
        for word in "noon", "", "9 o'clock", "-5", "2024-01-01", "2024-01-01T00:00:00", "0":
            for times in (word, at(1)), (at(1), word):
                said = [
                    self.asked(*asked, "--explain", "store", *place, *times, status=2)
                    for asked, place in (
                        (["zones"], ["zones.csv"]),
                        (["moments"], ["0", "0", "1", "1"]),
                        (["gaps"], []),
                    )
                ]
                self.assertEqual(said, said[:1] * 3)
                first, why = said[0][1].splitlines()
                self.assertEqual(first, "mftb: T1 or T2 is no instant, or out of range")
                self.assertTrue(why.startswith(f"mftb: T{1 + times.index(word)} '{word}' "), why)

    def test_it_is_explained_where_no_leg_is(self):
        self.write("far.csv", zones_file({"far": "POLYGON ((50 50, 51 50, 50 51, 50 50))"}))
        words = "store", "far.csv", at(0), at(10)
        self.assertEqual(self.asked("zones", *words)[1], "")
        said = self.asked("zones", "--explain", *words)[1]
        where = "the zone does not meet x 0 to 10, y 0 to 0, where the store has legs"
        self.assertEqual(said, f"mftb: far: {where}\n")
        self.write("far.csv", zones_file({"turned": "POLYGON ((0 3, 0 4, -1 4, 0 3))"}))
        said = self.asked("zones", "--explain", *words)[1]
        self.assertEqual(said, f"mftb: turned: {where}; with x and y exchanged its least box would\n")
        said = self.asked("zones", "--explain", "store", "far.csv", at(0), "noon", status=2)[1]
        self.assertTrue(said.endswith("mftb: T2 'noon' is no instant, as 2024-01-31T12:00:00Z is\n"), said)
        self.write("none", "")
        self.asked("run", "new", "none")
        self.assertEqual(self.asked("zones", "--explain", "new", *words[1:])[1], "mftb: the store has no legs\n")

    def test_random_feeds(self):
        for seed in range(4):
            with self.subTest(seed=seed):
                count, wrong = zone_answers.run(str(BUILT), self.folder, random.Random(seed))
                self.assertGreater(count, 0)
                self.assertEqual(wrong, 0)


if __name__ == "__main__":
    unittest.main()
