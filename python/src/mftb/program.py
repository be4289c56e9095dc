"""Finds the program `mftb`, in one way for all tools and for the library."""

import os
import shutil
import sys
from pathlib import Path

from mftb.texts import Refused

VARIABLES = "MFTB_PROGRAM", "MFTB"
# The repository that this file lies in, if it lies in one.
ROOT = Path(__file__).resolve().parents[3]
PROVED = ROOT / "crates" / "mftb" / "out" / "mftb"
UNPROVED = ROOT / "tools" / "out" / "mftb-unproved"
WARNING = "mftb: UNPROVED: compiled without proofs, for a look; nothing is promised of this answer"
NAMING = "the program; else MFTB_PROGRAM of the environment, else mftb on the path, else the repository's"


def find(named: str | os.PathLike[str] | None = None) -> str:
    """Returns the program's path.

    It is the program that is named, else the one in MFTB_PROGRAM, else `mftb` on the path, else the
    repository's proved build, else its build without proofs. The last one is announced on standard
    error.
    """
    wanted = named or next(filter(None, map(os.environ.get, VARIABLES)), None)
    if wanted:
        found = shutil.which(wanted)
        if not found:
            raise Refused(f"there is no program {wanted}")
        return os.path.abspath(found)
    on_path = shutil.which("mftb")
    if on_path:
        return on_path
    if PROVED.exists():
        return str(PROVED)
    if UNPROVED.exists():
        print(WARNING, file=sys.stderr, flush=True)
        return str(UNPROVED)
    raise Refused("there is no mftb: name it in MFTB_PROGRAM or on the path, or build it by ./mftb --version")
