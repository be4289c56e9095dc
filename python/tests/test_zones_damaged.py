"""Zone files that are cut or have a changed byte: mftb zones, on a build without proofs, names the place or answers."""
import random
import subprocess
import unittest

from common import BUILT, Asked

FEED = """\
@stboundedby,local,2D,,,2020-01-01T00:00:00Z,,sec
@columns,mfidref,trajectory
a,0,10,0 0 10 0
"""
TIMES = "2020-01-01T00:00:00Z", "2020-01-01T00:01:00Z"
ZONES = b'name,wkt\np,"MULTIPOLYGON (((0 0, 9 0, 9.5 9, 0 0), (2 .5, 3 1, 3 .5, 2 .5)))"\nm,"LINESTRING (5 -1, 5 1)"\n'
REFUSED = r"\Amftb: the zone file is refused: Z[1-7] at record [0-3](, ring [1-9])?(, value .*)?: .*\n\Z"


@unittest.skipUnless(BUILT.exists(), "tools/unproved has made no build yet")
class Damaged(Asked):
    def setUp(self):
        super().setUp()
        self.load(FEED)

    def ask(self, data):
        """The status of a question of a file of these bytes, which is answered, or refused with its place."""
        (self.folder / "zones.csv").write_bytes(data)
        words = [BUILT, "zones", "store", "zones.csv", *TIMES]
        done = subprocess.run(words, cwd=self.folder, capture_output=True)
        with self.subTest(data=data):
            self.assertIn(done.returncode, (0, 2))
            if done.returncode:
                self.assertEqual(done.stdout, b"")
                self.assertRegex(done.stderr.decode(), REFUSED)
        return done.returncode

    def test_files_cut_anywhere(self):
        answered = [size for size in range(len(ZONES) + 1) if self.ask(ZONES[:size]) == 0]
        # No zone, the first, and both, with the end of the line or without.
        ends = [ZONES.index(b"\n") - 1, ZONES.index(b"\nm"), len(ZONES) - 1]
        self.assertTrue({end + 1 for end in ends} <= set(answered), answered)

    def test_a_byte_changed(self):
        pick = random.Random(77)
        for place in range(len(ZONES)):
            for byte in pick.sample([0, 10, 34, 40, 41, 44, 45, 46, 57, 101, 195, 255], 3):
                self.ask(ZONES[:place] + bytes([byte]) + ZONES[place + 1 :])


if __name__ == "__main__":
    unittest.main()
