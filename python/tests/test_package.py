"""The package: it installs offline, and each of its commands stands under its name."""
import importlib.util
import os
import re
import subprocess
import sys
import tomllib
import unittest

from common import ROOT, Case

PYTHON = ROOT / "python"
SHIM = re.compile(r'^run\(__name__, "(.*)"\)$', re.M)


class Package(Case):
    @unittest.skipUnless(importlib.util.find_spec("pip"), "this Python has no pip")
    def test_it_installs_offline(self):
        words = ["install", "-q", "--no-index", "--no-compile", "--target", self.folder / "there", PYTHON]
        subprocess.run([sys.executable, "-m", "pip", *words], check=True, capture_output=True)
        there = self.folder / "there" / "bin"
        declared = tomllib.loads((PYTHON / "pyproject.toml").read_text())["project"]["scripts"]
        self.assertEqual(sorted(path.name for path in there.iterdir()), sorted(declared))
        environment = os.environ | {"PYTHONPATH": str(self.folder / "there")}
        for name in declared:
            ended = subprocess.run([there / name, "--help"], capture_output=True, text=True, env=environment)
            self.assertEqual(ended.returncode, 0, ended.stderr)
            self.assertIn(f"usage: {name} ", ended.stdout)
            self.assertNotIn("tools/", ended.stdout)

    def test_each_command_is_a_tool_by_its_former_name(self):
        declared = tomllib.loads((PYTHON / "pyproject.toml").read_text())["project"]["scripts"]
        shims = {}
        for path in (ROOT / "tools").iterdir():
            found = path.is_file() and SHIM.search(path.read_text(errors="replace"))
            if found and found[1].startswith("mftb."):
                self.assertEqual(len(path.read_text().splitlines()), 3, path.name)
                shims[f"mftb-{path.name.replace('_', '-')}"] = f"{found[1]}:main"
        self.assertEqual(shims, declared)
