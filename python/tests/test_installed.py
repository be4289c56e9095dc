"""What is installed: the package of an unproved build says so, its program and its tools run, and it can be removed."""
import hashlib
import os
import shutil
import subprocess
import unittest
from pathlib import Path

from common import BUILT, FEEDS, ROOT, Case


def run(*words, **how):
    return subprocess.run(words, check=True, capture_output=True, text=True, **how).stdout


@unittest.skipUnless(BUILT.exists(), "tools/unproved has made no build yet")
@unittest.skipUnless(shutil.which("dpkg-deb"), "this system has no dpkg-deb")
@unittest.skipUnless((ROOT / ".git").exists(), "this is no repository")
class Installed(Case):
    @classmethod
    def setUpClass(cls):
        cls.made = Path(run("mktemp", "-d").strip())
        cls.addClassCleanup(shutil.rmtree, cls.made)
        cls.deb, cls.archive = run(ROOT / "tools" / "package", "--program", BUILT, "-o", cls.made).split()

    def check_proof(self, folder):
        proof = (folder / "share/doc/mftb/PROOF").read_text().splitlines()
        self.assertRegex(proof[0], r"^mftb [0-9.]+\+unproved$")
        self.assertTrue(proof[1].startswith("UNPROVED: "))
        self.assertEqual(proof[3], "kit: " + run("rt", "version").splitlines()[0])
        self.assertEqual(proof[4], "program: " + hashlib.sha256(BUILT.read_bytes()).hexdigest())
        # The sum of a crate's sources, by the command that stands there.
        words, unknown, found = next(line for line in proof if line.startswith("words ")).split()
        wanted = run("bash", "-c", proof[6], cwd=ROOT / "crates" / words).split()[0]
        self.assertEqual((unknown, found), ("unknown", wanted))

    def check_tools(self, folder):
        """The program and the tools run from where they are, without the repository."""
        about = {"PATH": "/usr/bin:/bin", "LANG": "C.UTF-8"}
        self.assertRegex(run(folder / "bin/mftb", "--version", env=about), "^mftb ")
        days = [str(FEEDS / "days" / f"ships-2024-06-0{day}.csv") for day in (3, 4)]
        words = [folder / "bin/mftb-daily", "store", *days]
        ended = subprocess.run(words, cwd=self.folder, env=about, capture_output=True, text=True)
        self.assertEqual(ended.returncode, 0, ended.stderr)
        self.assertIn("30 legs", ended.stderr)

    def test_the_archive(self):
        run("tar", "xzf", self.archive, cwd=self.folder)
        (place,) = self.folder.glob("mftb-*")
        self.check_proof(place)
        if os.path.exists("/usr/bin/python3"):
            self.check_tools(place)

    def test_the_package_says_what_it_is(self):
        fields = run("dpkg-deb", "-f", self.deb)
        self.assertIn("+unproved", fields)
        self.assertIn("Architecture: amd64", fields)

    @unittest.skipUnless(os.getuid() == 0, "only root installs a package")
    def test_it_is_installed_read_and_removed(self):
        """All in a root of its own, so that this system stays as it is."""
        root = self.folder / "root"
        for part in ("info", "updates"):
            (root / "var/lib/dpkg" / part).mkdir(parents=True)
        for part in ("status", "available"):
            (root / "var/lib/dpkg" / part).touch()
        dpkg = ["dpkg", f"--root={root}", "--force-depends", "--force-not-root", "--no-triggers"]
        run(*dpkg, "-i", self.deb)
        self.check_proof(root / "usr")
        if os.path.exists("/usr/bin/python3"):
            self.check_tools(root / "usr")
        if shutil.which("man"):
            page = run("man", "-M", root / "usr/share/man", "mftb", env={**os.environ, "MANPAGER": "cat"})
            self.assertIn("SYNOPSIS", page)
        run(*dpkg, "-r", "mftb")
        self.assertFalse((root / "usr/bin/mftb").exists())
        self.assertEqual([path for path in (root / "usr").rglob("*") if path.is_file()], [])
