"""The comparison with other tools runs, and all of them count the same visits."""
import importlib.util
import os
import subprocess
import sys
import unittest

from common import BUILT, ROOT, has_info

WANTED = "geopandas", "rtree"
ABSENT = [name for name in WANTED if importlib.util.find_spec(name) is None]


class Compared(unittest.TestCase):
    @unittest.skipIf(ABSENT, f"{', '.join(ABSENT)} are not there (Debian's python3-geopandas and python3-rtree)")
    @unittest.skipUnless(has_info(), "tools/unproved has made no build yet")
    def test_all_tools_find_the_same_visits(self):
        command = [sys.executable, ROOT / "python" / "dev" / "compared.py", "--legs", "5000"]
        about = os.environ | {"MFTB_PROGRAM": str(BUILT)}
        ended = subprocess.run(command, capture_output=True, text=True, env=about)
        self.assertEqual(ended.returncode, 0, ended.stderr)
        said = [line.partition("; ")[2] for line in ended.stdout.splitlines()[2:]]
        self.assertEqual(len(said), 3)
        self.assertEqual(len(set(said)), 1, ended.stdout)
        self.assertTrue(said[0].endswith("; 0, 0"), said[0])


if __name__ == "__main__":
    unittest.main()
