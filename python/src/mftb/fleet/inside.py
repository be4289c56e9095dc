"""When features of a fleet are inside rectangles or zones: what the program says of each part, put together."""

from __future__ import annotations

import csv
import os
import sys
from argparse import ArgumentParser, Namespace
from collections.abc import Sequence

import mftb_fleetpart as fleetpart
from mftb import moments, zonefiles
from mftb.commands import say
from mftb.fleet import crew, manifest
from mftb.fleet.parts import parts_of
from mftb.texts import field

KINDS = {"moments": ["visits", "dwell"], "zones": ["visits", "legs", "dwell"]}


def add_words(parser: ArgumentParser, command: str) -> None:
    """The words of a command, which are those of the program."""
    kinds = parser.add_mutually_exclusive_group()
    for kind in KINDS[command]:
        kinds.add_argument(f"--{kind}", dest="kind", action="store_const", const=f"--{kind}", help=f"as mftb {command}")
    parser.add_argument("--columns", action="store_true", help=f"as mftb {command}")
    if command == "moments":
        parser.add_argument("--rects", metavar="FILE", help="a file of rectangles: name,x1,y1,x2,y2")
        parser.add_argument("words", nargs="+", metavar="WORD", help="X1 Y1 X2 Y2 T1 T2; with --rects T1 T2")
        return
    kinds.add_argument("--features", metavar="PRED", help="the features of which a predicate holds")
    parser.add_argument("zones", metavar="FILE", help="a zone file: CSV with the columns name and wkt")
    parser.add_argument("first", metavar="T1", help="the first moment")
    parser.add_argument("last", metavar="T2", help="the last moment")


def flags_of(options: Namespace) -> list[str]:
    """What is printed, as the program takes it."""
    return [*filter(None, [options.kind]), *["--columns"] * options.columns]


def moments_of(options: Namespace) -> int:
    """Prints when legs are inside a rectangle, as mftb moments."""
    before = flags_of(options)
    before += ["--rects", os.path.abspath(options.rects)] if options.rects else []
    return put_together(options, "moments", before, options.words)


def zones_of(options: Namespace) -> int:
    """Prints who is in which zone of a file, as mftb zones."""
    before = flags_of(options)
    before += ["--features", options.features] if options.features else []
    return put_together(options, "zones", before, [os.path.abspath(options.zones), options.first, options.last])


def put_together(options: Namespace, command: str, before: Sequence[str], behind: Sequence[str]) -> int:
    """Asks all parts, and prints their records in one order."""
    crew.need_distributed(options)
    manifest.read(options.folder)
    with manifest.asking(options.folder):
        held = manifest.read(options.folder).parts
        with parts_of(options.folder, held, options) as parts, crew.workers(options) as workers:
            jobs = [(part, command, before, behind) for part in parts]
            found = crew.gather(workers, command, fleetpart.inside, jobs)
            wrong = next((one.wrong for one in found if one.wrong), None)
            if wrong:
                for line in wrong:
                    say("fleet", line)
                return fleetpart.WRONG_WORDS
            print_records(found, names_of(options))
    return 0


def names_of(options: Namespace) -> list[str]:
    """The names of the file of rectangles or of zones, in their order."""
    path = getattr(options, "zones", None) or getattr(options, "rects", None)
    return zonefiles.names(path) if path else []


def print_records(found: Sequence[fleetpart.Inside], zones: list[str]) -> None:
    """Prints the records of all parts."""
    names: list[str] = []
    rows: list[list[str]] = []
    for one in found:
        with open(one.path, encoding="utf-8", newline="") as file:
            names, *records = csv.reader(file)
            rows += records
    lines = (",".join(map(field, row)) + "\n" for row in [names, *moments.in_order(zones, names, rows)])
    sys.stdout.buffer.writelines(line.encode() for line in lines)
    sys.stdout.buffer.flush()
