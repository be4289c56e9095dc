"""`mftb gaps`: times without a position, against gaps that were worked out by hand."""
import subprocess
import unittest

from common import BUILT, Case

FEED = """\
@stboundedby,metres,2D,,,2024-01-01T00:00:00Z,,sec
@columns,mfidref,trajectory
a,0,10,0 0 1 1
b,0,5,5 5
a,15,20,1 1 2 2
a,20,30,9 9 8 8
b,60.5,61,6 6 7 7
"""
FIELDS = "feature,begins,ends,begins_at,ends_at,x_in,y_in,x_out,y_out,seconds\n"
A = "a,10,15,2024-01-01T00:00:10.000Z,2024-01-01T00:00:15.000Z,1,1,1,1,5\n"
B = "b,5,60.5,2024-01-01T00:00:05.000Z,2024-01-01T00:01:00.500Z,5,5,6,6,55.5\n"


@unittest.skipUnless(BUILT.exists(), "tools/unproved has made no build yet")
class Gaps(Case):
    def answer(self, *words):
        ended = subprocess.run([BUILT, *words], cwd=self.folder, capture_output=True, text=True)
        return ended.returncode, ended.stdout, ended.stderr

    def load(self, feed):
        self.write("feed.csv", feed)
        self.write("load.txt", "load feed.csv\n")
        self.assertEqual(self.answer("run", "store", "load.txt", "feed.csv")[0], 0)

    def gaps(self, first, last):
        return self.answer("gaps", "store", f"2024-01-01T00:{first}Z", f"2024-01-01T00:{last}Z")

    def test_gaps_are_those_with_a_moment_in_the_period(self):
        self.load(FEED)
        for first, last, found in (
            ("00:00", "02:00", A + B),
            ("12:00", "13:00", ""),
            ("00:12", "00:13", A + B),
            ("00:10", "00:10", B),
            ("00:15", "00:20", B),
            ("00:00", "00:05", ""),
            ("00:00", "00:05.001", B),
            ("01:00.5", "02:00", ""),
        ):
            self.assertEqual(self.gaps(first, last), (0, FIELDS + found, ""), (first, last))

    def test_three_dimensions(self):
        self.load(FEED.split("a,0")[0].replace("2D", "3D") + "a,0,1,0 0 0 1 2 3\na,2,3,4 5 6\n")
        fields = FIELDS.replace("y_in", "y_in,z_in").replace("y_out", "y_out,z_out")
        found = "a,1,2,2024-01-01T00:00:01.000Z,2024-01-01T00:00:02.000Z,1,2,3,4,5,6,1\n"
        self.assertEqual(self.gaps("00:00", "01:00"), (0, fields + found, ""))

    def test_refusals(self):
        self.load(FEED)
        self.assertEqual(self.gaps("01:00", "00:59"), (2, "", "mftb: T1 is after T2\n"))
        self.assertEqual(self.gaps("noon", "00:59"), (2, "", "mftb: T1 or T2 is no instant, or out of range\n"))
        words = ["2024-01-01T00:00:00Z", "2024-01-01T00:01:00Z"]
        self.assertEqual(self.answer("gaps", "absent", *words), (1, "", "mftb: cannot read absent\n"))
        self.write("empty.txt", "")
        self.assertEqual(self.answer("run", "-q", "new", "empty.txt")[0], 0)
        self.assertEqual(self.answer("gaps", "new", *words), (0, FIELDS, ""))
