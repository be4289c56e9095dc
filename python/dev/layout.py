"""Tells which sources of Rattle are not in the layout that `rt fmt` gives them.

The gate refuses a crate that has one, and only once all below it are proved: this says so at once. It names
each such file, and changes none. Its status is 1 where there is one.

example:
  tools/layout
"""
import argparse
import shutil
import subprocess
import sys
import tempfile
from concurrent.futures import ThreadPoolExecutor
from pathlib import Path

ROOT = Path(__file__).resolve().parents[2]
PARTS = ("src", "specs", "proofs")


def misplaced(crate, room):
    """The files of a crate that `rt fmt` lays out otherwise, which it does in a copy."""
    copy = room / crate.name
    for part in PARTS:
        if (crate / part).is_dir():
            shutil.copytree(crate / part, copy / part)
    ended = subprocess.run(["rt", "fmt"], cwd=copy, capture_output=True, text=True)
    if ended.returncode:
        sys.exit(f"layout: {crate.name}: {ended.stderr.strip() or ended.stdout.strip()}")
    files = [it for it in copy.rglob("*") if it.is_file()]
    own = ((it, crate / it.relative_to(copy)) for it in files)
    return sorted(str(was.relative_to(ROOT)) for it, was in own if it.read_bytes() != was.read_bytes())


def main():
    argparse.ArgumentParser(description=__doc__, formatter_class=argparse.RawDescriptionHelpFormatter).parse_args()
    crates = sorted(it.parent for it in (ROOT / "crates").glob("*/src"))
    with tempfile.TemporaryDirectory() as room, ThreadPoolExecutor() as pool:
        found = [it for files in pool.map(lambda crate: misplaced(crate, Path(room)), crates) for it in files]
    for file in found:
        print(f"{file}: not in the layout: run rt fmt in the crate's folder")
    sys.exit(1 if found else 0)
