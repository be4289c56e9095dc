"""The manifest of a fleet: a file of JSON that names the stores of its parts, and is replaced at once.

    {"fleet": 2, "names": "cubes modulo 4294967291", "parts": [{"store": "part-0-new.mftb", "legs": 0, "features": 0}],
     "files": []}

`names` is the function that gave each name its part; a fleet of another one is refused.

A load works on copies of the stores and then renames a new manifest over the old one; a store that no manifest names is
left over, and goes with the next load. Locks on two files of the folder keep loads apart, and keep the stores that
are asked from being taken away.
"""

from __future__ import annotations

import fcntl
import json
import os
import re
import shutil
from collections.abc import Iterator
from contextlib import AbstractContextManager, contextmanager, suppress
from pathlib import Path
from typing import Any, NamedTuple, TypeAlias

from mftb.texts import Refused

Folder: TypeAlias = str | Path
NAME = "fleet.json"
FORM, NAMES = 2, "cubes modulo 4294967291"
# What the first fleets had.
OLD_FORM, OLD_NAMES = 1, "numbers modulo 4294967291"
STORE = re.compile(r"part-[0-9]+-[0-9a-z]+\.mftb")
LEFT_OVER = re.compile(rf"{STORE.pattern}|work-.*|{re.escape(NAME)}\.new")


class Held(NamedTuple):
    """What the manifest says of a part: its store, and how much is in it."""

    store: str
    legs: int
    features: int


class Manifest(NamedTuple):
    """The parts of a fleet, and the names of the files that it was loaded with."""

    parts: list
    files: list

    def sums(self) -> list[int]:
        return [sum(held.legs for held in self.parts), sum(held.features for held in self.parts)]


def read(folder: Folder) -> Manifest:
    """The manifest of a folder."""
    path = Path(folder, NAME)
    try:
        said = json.loads(path.read_text())
        need_names(folder, said)
        parts = [Held(held["store"], held["legs"], held["features"]) for held in said["parts"]]
        sound = said["fleet"] == FORM and parts and all(map(is_held, parts))
        if not sound or not all(isinstance(name, str) for name in said["files"]):
            raise ValueError("it says something else")
    except FileNotFoundError:
        raise Refused(f"{folder} is no fleet: there is no {path}") from None
    except OSError as fault:
        raise Refused(f"cannot read {path}: {fault.strerror}") from None
    except (ValueError, KeyError, TypeError) as fault:
        raise Refused(f"{path} is no manifest, or was cut short or altered: {fault}") from None
    return Manifest(parts, said["files"])


def need_names(folder: Folder, said: dict[str, Any]) -> None:
    """Refuses a fleet whose names fell to their parts by another function."""
    names = OLD_NAMES if said["fleet"] == OLD_FORM else said["names"]
    if not isinstance(names, str):
        raise ValueError("it names no function of names")
    if names != NAMES:
        raise Refused(
            f"{folder} deals names out by {names}, and this tool by {NAMES}: make a new fleet, and load its files again"
        )


def is_held(held: Held) -> bool:
    """Whether what is said of a part can be so."""
    counts = all(type(count) is int and count >= 0 for count in held[1:])
    return isinstance(held.store, str) and bool(STORE.fullmatch(held.store)) and counts


def write(folder: Folder, manifest: Manifest) -> None:
    """Puts a manifest in the place of the old one; it is on the disk before it gets its name."""
    said = {
        "fleet": FORM,
        "names": NAMES,
        "parts": [held._asdict() for held in manifest.parts],
        "files": manifest.files,
    }
    new = Path(folder, NAME + ".new")
    with open(new, "w") as out:
        json.dump(said, out, indent=1)
        out.write("\n")
        out.flush()
        os.fsync(out.fileno())
    sync_folder(folder)
    os.replace(new, Path(folder, NAME))
    sync_folder(folder)


def sync_folder(folder: Folder) -> None:
    number = os.open(folder, os.O_RDONLY)
    try:
        os.fsync(number)
    finally:
        os.close(number)


def left_over(folder: Folder, manifest: Manifest) -> list[Path]:
    """What is in the folder of loads and questions that did not end."""
    named = {held.store for held in manifest.parts}
    found = [path for path in Path(folder).iterdir() if LEFT_OVER.fullmatch(path.name)]
    return sorted(path for path in found if path.name not in named)


@contextmanager
def lock(folder: Folder, name: str, how: int, refusal: str | None = None) -> Iterator[None]:
    """Holds a lock; where it would have to wait and there is a refusal, it is refused."""
    with open(Path(folder, name), "a") as file:
        try:
            fcntl.flock(file, how | (fcntl.LOCK_NB if refusal else 0))
        except BlockingIOError:
            raise Refused(refusal) from None
        yield


def loading(folder: Folder) -> AbstractContextManager[None]:
    """One load at a time."""
    return lock(folder, "load.lock", fcntl.LOCK_EX, f"another load works on {folder}")


def asking(folder: Folder) -> AbstractContextManager[None]:
    """While this is held no store is taken away; any number of questions hold it at once."""
    return lock(folder, "ask.lock", fcntl.LOCK_SH)


def sweep(folder: Folder) -> None:
    """Takes away what is left over, if nobody asks just now; under the lock of a load."""
    with suppress(Refused), lock(folder, "ask.lock", fcntl.LOCK_EX, "asked"):
        for path in left_over(folder, read(folder)):
            if path.is_dir():
                shutil.rmtree(path, ignore_errors=True)
            else:
                path.unlink(missing_ok=True)
