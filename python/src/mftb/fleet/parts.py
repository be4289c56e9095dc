"""The parts of a fleet, as those who work on them take them."""

from __future__ import annotations

import os
import tempfile
from argparse import Namespace
from collections.abc import Iterator
from contextlib import contextmanager
from pathlib import Path

import mftb_fleetpart as fleetpart
from mftb.fleet import manifest
from mftb.program import find


@contextmanager
def parts_of(folder: str | Path, held: list[manifest.Held], options: Namespace) -> Iterator[list[fleetpart.Part]]:
    """The parts of a fleet, with a folder for what does not last."""
    folder, program = os.path.abspath(folder), find(options.program)
    with tempfile.TemporaryDirectory(prefix="work-", dir=folder, ignore_cleanup_errors=True) as work:
        stores = [os.path.join(folder, one.store) for one in held]
        yield [fleetpart.Part(number, len(held), store, work, program) for number, store in enumerate(stores)]
