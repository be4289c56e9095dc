"""The walk on the first page, as it stands, by the build without proofs: it prints what the page says."""
import os
import re
import subprocess
import unittest

from common import ROOT, Case

BUILT = ROOT / "tools" / "out" / "mftb-unproved"


class Walk(Case):
    @unittest.skipUnless(BUILT.exists(), "tools/unproved has made no build yet")
    def test_the_walk_prints_what_the_page_says(self):
        text = (ROOT / "README.md").read_text()
        commands = re.search(r"^    mkdir walk(?:.*\n    )*.*\n", text, flags=re.M)[0]
        (self.folder / "mftb").symlink_to(ROOT / "mftb")
        about = {**os.environ, "MFTB_PROOF": "none"}
        ended = subprocess.run(["bash", "-euc", commands], cwd=self.folder, capture_output=True, text=True, env=about)
        self.assertEqual(ended.returncode, 0, ended.stderr)
        self.assertEqual(ended.stdout, "ok 1\n1,1,1\nok 1\na\n")
        # The proved program answers, if there is one, and else both runs say that it does not.
        self.assertIn(ended.stderr.count("UNPROVED"), (0, 2))
        for said in ("prints `ok 1` and `1,1,1`", "prints `ok 1` and `a`"):
            self.assertIn(said, " ".join(text.split()))
