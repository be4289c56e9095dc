"""What the tests of the tools share: running a tool in a folder of its own."""
import json
import os
import re
import shutil
import subprocess
import sys
import tempfile
import time
import unittest
from pathlib import Path

ROOT = Path(__file__).resolve().parents[2]
FEEDS = ROOT / "examples" / "feeds"
BUILT = ROOT / "tools" / "out" / "mftb-unproved"
CRS = "urn:ogc:def:crs:OGC:1.3:CRS84"
sys.path[:0] = [str(ROOT / "python" / part) for part in ("src", "dev")]
sys.dont_write_bytecode = True
import mftb  # noqa: E402

US = "MMSI,BaseDateTime,LAT,LON,SOG,VesselName\n"
# What a stand-in for the program says of its store.
INFO = {
    "version": 2, "state": "finished", "pages": 1, "bytes": 4096, "crs": CRS, "dimension": 2,
    "start": "2024-06-03T08:50:00.000Z", "columns": [], "legs": 3, "features": 2, "most_legs": 16777216,
    "most_features": 1048576, "first": "2024-06-03T08:50:00.000Z", "last": "2024-06-03T09:10:00.000Z",
    "extent": [-180, -90, 180, 90],
}  # fmt: skip


def cases(path):
    """The cases of a file: the name, the command, and the texts by their names.

    A case is a line `== NAME`, a line `$ COMMAND`, and texts below lines `-- NAME`: those of the
    files that the command reads, of what it prints (`output`), and of what it says (`error`).
    """
    for case in re.split("^== ", path.read_text(), flags=re.M)[1:]:
        head, *parts = re.split("^-- ", case, flags=re.M)
        name, command = head.strip().split("\n$ ")
        texts = dict(part.split("\n", 1) for part in parts)
        yield name, command, {key: text.rstrip("\n") + "\n" for key, text in texts.items()}


def has_info():
    """Whether the build without proofs is there, and tells of a store."""
    return BUILT.exists() and not subprocess.run([BUILT, "info", "--help"], capture_output=True).returncode


def has_zones():
    """Whether the build without proofs is there, and knows polygons."""
    return BUILT.exists() and not subprocess.run([BUILT, "zones", "--help"], capture_output=True).returncode


def run(tool, *words, folder, given=None):
    return subprocess.run([ROOT / "tools" / tool, *words], cwd=folder, capture_output=True, text=True, input=given)


class Case(unittest.TestCase):
    maxDiff = None

    def setUp(self):
        self.folder = Path(tempfile.mkdtemp())
        self.addCleanup(shutil.rmtree, self.folder)

    def write(self, name, text):
        Path(self.folder, name).write_bytes(text.encode())
        return name

    def read(self, name):
        return Path(self.folder, name).read_text()

    def ends(self, tool, *words, status=0, given=None):
        """What a tool says, where it ends with a status."""
        ended = run(tool, *words, folder=self.folder, given=given)
        self.assertEqual(ended.returncode, status, ended.stderr)
        return ended.stderr

    def made(self, tool, *words):
        """What a tool prints, where it ends well."""
        return self.made_bytes(tool, *words).decode()

    def made_bytes(self, tool, *words):
        command = [ROOT / "tools" / tool, *words]
        ended = subprocess.run(command, cwd=self.folder, capture_output=True)
        self.assertEqual(ended.returncode, 0, ended.stderr)
        return ended.stdout


class Asked(Case):
    """Runs of the build without proofs."""

    def asked(self, *words, status=0):
        """What mftb prints and says."""
        ended = run("unproved", *words, folder=self.folder)
        self.assertEqual(ended.returncode, status, ended.stderr)
        return ended.stdout, ended.stderr.split("\n", 1)[1]

    def load(self, text):
        self.write("file.csv", text)
        self.write("load", "load file.csv\n")
        self.asked("run", "store", "load", "file.csv")


class StandIn(Case):
    """A store whose program is a script of the shell, which prints what is written for it."""

    def stand_in(self, script, info):
        program = self.folder / self.write("mftb", script.format(self.folder))
        program.chmod(0o755)
        self.write("info", json.dumps(info))
        return mftb.Store(self.folder / "store", program=program)


def folder_of(case):
    """A folder that is there for all tests of a class."""
    folder = tempfile.TemporaryDirectory()
    case.addClassCleanup(folder.cleanup)
    return Path(folder.name)


def measure(tool, *words, folder):
    """The status of a run, its seconds, those of a processor, and its greatest megabytes."""
    started = time.monotonic()
    ended = subprocess.Popen([ROOT / "tools" / tool, *words], cwd=folder, stderr=subprocess.DEVNULL)
    _, status, used = os.wait4(ended.pid, 0)
    ended.returncode = os.waitstatus_to_exitcode(status)
    return (
        ended.returncode,
        time.monotonic() - started,
        used.ru_utime + used.ru_stime,
        used.ru_maxrss / 1000,
    )
