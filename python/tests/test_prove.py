"""Crates proved side by side, each in a folder of its own, by a stand-in for rt."""
import os
import shutil
import subprocess
import tempfile
import unittest
from pathlib import Path

TOOLS = Path(__file__).resolve().parents[2] / "tools"

# It notes which libraries below are there, keeps a file, and fails in the crate that FAIL names.
STAND_IN = """#!/bin/sh
name=$(basename "$PWD")
ls -d ../*/out/rlib/made 2>/dev/null | cut -d / -f 2 | tr '\\n' ' ' >"$NOTES/$name"
[ "$name" = "$FAIL" ] && exit 1
mkdir -p out/rlib out/incremental
echo made >out/rlib/made
echo "$name" >>out/incremental/kept
"""


class Proving(unittest.TestCase):
    def setUp(self):
        self.root = Path(tempfile.mkdtemp(prefix="prove-"))
        self.addCleanup(shutil.rmtree, self.root)
        (self.root / "tools").mkdir()
        shutil.copy(TOOLS / "prove", self.root / "tools")
        (self.root / "crates.txt").write_text("# a comment: none\nlow:\nmid: low\nside: low std\ntop: mid side\n")
        (self.root / "HANDLES").write_text("Handles allowed: none.\n")
        for name in ("low", "mid", "side", "top"):
            source = self.root / "crates" / name / "src"
            source.mkdir(parents=True)
            (source / "lib.rt").write_text("")
        (self.root / "bin").mkdir()
        (self.root / "notes").mkdir()
        (self.root / "bin" / "rt").write_text(STAND_IN)
        (self.root / "bin" / "rt").chmod(0o755)

    def prove(self, *words, fail=""):
        path = f"{self.root / 'bin'}:{os.environ['PATH']}"
        environment = {**os.environ, "PATH": path, "NOTES": str(self.root / "notes"), "FAIL": fail}
        command = [str(self.root / "tools" / "prove"), "--jobs", "2", *words]
        return subprocess.run(command, env=environment, capture_output=True, text=True)

    def noted(self, name):
        return (self.root / "notes" / name).read_text().split()

    def kept(self, name):
        return (self.root / "crates" / name / "out" / "incremental" / "kept").read_text().split()

    def test_each_crate_stands_on_those_below(self):
        self.assertEqual(self.prove("top").returncode, 0)
        self.assertEqual(self.noted("low"), [])
        self.assertEqual(self.noted("side"), ["low"])
        self.assertEqual(self.noted("top"), ["low", "mid", "side"])
        self.assertFalse((self.root / "tools" / "out" / "prove" / "top").exists())

    def test_what_a_check_keeps_is_there_for_the_next(self):
        self.prove("low")
        self.prove("low")
        self.assertEqual(self.kept("low"), ["low", "low"])

    def test_what_fails_is_said_and_nothing_above_is_begun(self):
        ended = self.prove("top", fail="mid")
        self.assertEqual(ended.returncode, 1)
        self.assertIn("mid is not proved", ended.stderr)
        self.assertFalse((self.root / "notes" / "top").exists())

    def test_what_a_killed_run_left_is_kept(self):
        self.prove("low")
        place = self.root / "tools" / "out" / "prove" / "low" / "crates" / "low"
        place.mkdir(parents=True)
        (self.root / "crates" / "low" / "out").rename(place / "out")
        self.prove("low")
        self.assertEqual(self.kept("low"), ["low", "low"])
