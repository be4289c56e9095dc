"""Keeps a book in parts, each a store of `mftb` with its own features, and loads and asks them side by side.

A fleet is a folder with a manifest that names the stores. The work is done by the program, on the processors of this
machine, or on those of a Dask cluster (--scheduler) on which the folder, the files and the program have the same names.
A load is accepted by all parts or by none. Legs are answered by start, then by name, then by end; features by name.
docs/user/FLEET.md says more. This tool is no part of any proof.
"""

from __future__ import annotations

import argparse
import os
import shutil
import subprocess
import sys
from argparse import Namespace
from collections.abc import Callable, Iterable, Sequence
from pathlib import Path
from typing import TypeAlias

import mftb_fleetpart as fleetpart
from mftb.commands import example
from mftb.fleet import crew, inside, manifest, merging
from mftb.fleet.parts import parts_of
from mftb.program import NAMING
from mftb.texts import Refused, several

Work: TypeAlias = Callable[[Namespace], int | None]
Workers: TypeAlias = crew.Here | crew.There
MOST_PARTS = 10_000
# The faults of records and limits; each other code is a fault of the text.
JOINING = {"F9", "F10", "F18", "F19", "F20"}
EXAMPLE = """example:
  tools/fleet new ships --parts 4
  tools/fleet load ships monday.csv tuesday.csv
  tools/fleet ask ships script.txt > answers.txt
  tools/fleet moments ships --visits -70.02 43.5 -70.01 43.5 2024-06-03T09:00:00Z 2024-06-03T10:00:00Z"""


def new(options: Namespace) -> None:
    """A fleet of stores without a leg."""
    folder = Path(options.folder)
    folder.mkdir(parents=True, exist_ok=True)
    if any(folder.iterdir()):
        raise Refused(f"{folder} is not empty")
    held = [manifest.Held(f"part-{number}-new.mftb", 0, 0) for number in range(options.parts)]
    with parts_of(folder, held, options) as parts:
        Path(parts[0].work, "script").touch()
        fleetpart.printed(parts[0], "run", parts[0].store, f"{parts[0].work}/script", stdout=subprocess.PIPE)
    for part in parts[1:]:
        shutil.copyfile(parts[0].store, part.store)
    manifest.write(folder, manifest.Manifest(held, []))


def load(options: Namespace) -> None:
    """Loads files: all of them into all parts, or nothing."""
    files = [os.path.abspath(name) for name in options.files]
    for name in options.files:
        if not os.path.isfile(name):
            raise Refused(f"there is no file {name}")
    crew.need_distributed(options)
    manifest.read(options.folder)
    with manifest.loading(options.folder):
        before = manifest.read(options.folder)
        manifest.sweep(options.folder)
        try:
            with parts_of(options.folder, before.parts, options) as parts, crew.workers(options) as workers:
                loaded = load_all(parts, files, options.files, workers)
            held = [manifest.Held(one.store, one.legs, one.features) for one in loaded[-1]]
            manifest.write(options.folder, manifest.Manifest(held, before.files + options.files))
        finally:
            manifest.sweep(options.folder)
    for answered in loaded:
        sums = map(sum, zip(*([int(word) for word in one.answer.split(",")] for one in answered)))
        print("ok 1", ",".join(map(str, sums)), sep="\n")


def load_all(
    parts: list[fleetpart.Part], files: list[str], names: list[str], workers: Workers
) -> list[list[fleetpart.Loaded]]:
    """What the parts answer to each file.

    All workers cut a file, each for its share of the parts, and the texts go when they are loaded.
    """
    loaded, share = [], -(-len(parts) // workers.count)
    for place, (file, name) in enumerate(zip(files, names)):
        texts = os.path.join(parts[0].work, f"file-{place}")
        cuts = [
            fleetpart.Cut(first, min(share, len(parts) - first), len(parts), file, texts, parts[0].program)
            for first in range(0, len(parts), share)
        ]
        crew.gather(workers, "cut", fleetpart.cut, [(task,) for task in cuts])
        loaded.append(crew.gather(workers, "load", fleetpart.load, [(part, texts) for part in parts]))
        refuse(name, loaded[-1])
        shutil.rmtree(texts)
        stores = [os.path.join(os.path.dirname(part.store), one.store) for part, one in zip(parts, loaded[-1])]
        for part in parts if place else []:
            os.unlink(part.store)
        parts = [part._replace(store=store) for part, store in zip(parts, stores)]
    return loaded


def place_of(refusal: str) -> tuple[bool, bool, int]:
    """Where a refusal stands among those of parts: faults of the text before others, then the least record first, and
    the end of the file, which is number 0, last."""
    _, code, _, number = refusal.split()
    return code in JOINING, int(number) == 0, int(number)


def refuse(name: str, loaded: list[fleetpart.Loaded]) -> None:
    """Refused where a part refused the file: as one store would, by the text before all, and at the least record."""
    by = [number for number, one in enumerate(loaded) if one.answer.startswith("refused")]
    if by:
        print(min((loaded[number].answer for number in by), key=place_of), flush=True)
        who = f"part {by[0]}" if len(by) == 1 else f"{len(by)} of {len(loaded)} parts"
        raise Refused(f"{name} is refused by {who}; nothing was loaded")


def questions(path: str) -> list[bytes]:
    """The lines of a script that have an answer."""
    try:
        pieces = Path(path).read_bytes().split(b"\n")
    except OSError as fault:
        raise Refused(f"cannot read {path}: {fault.strerror}") from None
    found = []
    for number, piece in enumerate(pieces, 1):
        line = piece.removesuffix(b"\r").strip(b" \t")
        if line and not line.startswith(b"#"):
            if fleetpart.words_of(line)[0] == "load":
                raise Refused(f"{path}, line {number}: load is no question; use fleet load")
            found.append(line)
    return found


def asked_of(line: bytes, parts: int) -> Sequence[int]:
    """The numbers of the parts that a line goes to: a trajectory's is the part of its name."""
    word, name = fleetpart.words_of(line)
    return [fleetpart.part_of(name, parts)] if word == "trajectory" else range(parts)


def ask(options: Namespace) -> None:
    """Asks the questions of a script, and prints the answers of the parts put together."""
    lines = questions(options.script)
    crew.need_distributed(options)
    manifest.read(options.folder)
    with manifest.asking(options.folder):
        held = manifest.read(options.folder).parts
        goes = [asked_of(line, len(held)) for line in lines]
        scripts: list[list[bytes]] = [[] for _ in held]
        for line, numbers in zip(lines, goes):
            for number in numbers:
                scripts[number].append(line)
        with parts_of(options.folder, held, options) as parts:
            jobs = [(part, script) for part, script in zip(parts, scripts) if script]
            with crew.workers(options) as workers:
                given = crew.gather(workers, "ask", fleetpart.ask, jobs)
            print_answers(zip(lines, goes), [part.number for part, _ in jobs], given)


def print_answers(lines: Iterable[tuple[bytes, Sequence[int]]], numbers: list[int], given: list) -> None:
    """Prints the answer to each line, which goes to some of the parts; what those with these numbers said is given."""
    places = {number: place for place, number in enumerate(numbers)}
    with merging.opened([answers for answers, _ in given], [path for _, path in given]) as asked:
        for line, goes in lines:
            said, streams = asked.next_of([places[number] for number in goes])
            merging.put_together(fleetpart.words_of(line)[0], said, streams, sys.stdout.buffer)
    sys.stdout.buffer.flush()


def check(options: Namespace) -> None:
    """Checks each store, and that it holds as much as the manifest says."""
    crew.need_distributed(options)
    manifest.read(options.folder)
    with manifest.asking(options.folder):
        held = manifest.read(options.folder).parts
        with parts_of(options.folder, held, options) as parts, crew.workers(options) as workers:
            reports = crew.gather(workers, "check", fleetpart.check, [(part,) for part in parts])
    others = 0
    for number, (one, (_, *counts)) in enumerate(zip(held, reports)):
        if counts != [one.legs, one.features]:
            others += 1
            says = f"{several(one.legs, 'leg')} of {several(one.features, 'feature')}"
            print(
                f"fleet: part {number} holds {counts[0]} legs of {counts[1]}; the manifest says {says}", file=sys.stderr
            )
    if others:
        raise Refused(f"check: {several(others, 'part')} of {len(held)} not as the manifest says")
    print("ok 1", ",".join(map(str, map(sum, zip(*reports)))), sep="\n")


def status(options: Namespace) -> None:
    """Prints what the manifest says, and what is there."""
    fleet = manifest.read(options.folder)
    legs, features = fleet.sums()
    files, over = several(len(fleet.files), "file"), manifest.left_over(options.folder, fleet)
    print(f"{several(len(fleet.parts), 'part')}, {files}, {several(legs, 'leg')}, {several(features, 'feature')}")
    print("part,legs,features,bytes,store")
    paths = [Path(options.folder, one.store) for one in fleet.parts]
    for number, (one, path) in enumerate(zip(fleet.parts, paths)):
        size = path.stat().st_size if path.is_file() else "missing"
        print(f"{number},{one.legs},{one.features},{size},{one.store}")
    if over:
        print(f"left over, and taken away by the next load: {', '.join(path.name for path in over)}")
    missing = [str(number) for number, path in enumerate(paths) if not path.is_file()]
    if missing:
        raise Refused(f"no store of part {', '.join(missing)}")


def count_of(most: int) -> Callable[[str], int]:
    """A number from 1 to the greatest one."""

    def read(text: str) -> int:
        if not text.isascii() or not text.isdigit() or not 1 <= int(text) <= most:
            raise argparse.ArgumentTypeError(f"{text!r} is not a number from 1 to {most}")
        return int(text)

    return read


WORKS: dict[str, Work] = {
    "new": new,
    "load": load,
    "ask": ask,
    "moments": inside.moments_of,
    "zones": inside.zones_of,
    "check": check,
    "status": status,
}


def words() -> argparse.ArgumentParser:
    """The words of the command line."""
    form = argparse.RawDescriptionHelpFormatter
    parser = argparse.ArgumentParser(description=__doc__, epilog=example(EXAMPLE), formatter_class=form)
    commands = parser.add_subparsers(metavar="COMMAND", required=True)
    for name, work in WORKS.items():
        command = commands.add_parser(name, help=work.__doc__, description=work.__doc__)
        command.set_defaults(work=work)
        command.add_argument("folder", metavar="DIR", help="the folder of the fleet")
        add_words(command, name)
        if name not in ("new", "status"):
            command.add_argument(
                "--scheduler", metavar="ADDRESS", help="a Dask cluster, as tcp://host:8786, in place of this machine"
            )
            command.add_argument(
                "--workers", type=count_of(1000), metavar="N", help="how many parts at once here; else one a processor"
            )
        if name != "status":
            command.add_argument("--program", metavar="FILE", help=NAMING)
    return parser


def add_words(command: argparse.ArgumentParser, name: str) -> None:
    """The words that only one command takes."""
    if name == "new":
        command.add_argument("--parts", type=count_of(MOST_PARTS), required=True, metavar="N", help="how many parts")
    elif name == "load":
        command.add_argument("files", nargs="+", metavar="FILE", help="a file of moving features")
    elif name == "ask":
        command.add_argument("script", metavar="SCRIPT", help="a file of questions (docs/user/SCRIPT.md)")
    elif name in inside.KINDS:
        inside.add_words(command, name)


def main() -> None:
    options = words().parse_args()
    try:
        sys.exit(options.work(options))
    except (Refused, fleetpart.Fault) as fault:
        sys.exit(f"fleet: {fault}")
    except BrokenPipeError:
        os.dup2(os.open(os.devnull, os.O_WRONLY), sys.stdout.fileno())
        sys.exit("fleet: the output takes no more")
    except OSError as fault:
        sys.exit(f"fleet: {fault}")
    except KeyboardInterrupt:
        sys.exit("fleet: stopped")
