"""Runs many command lines with two builds of the program, and compares what they answer:
tools/command_lines OLD NEW [--every N] [--random N] [--seed N] [--but WORD]...

The lines have each command, option and value, right and wrong, words that are missing, too many or exchanged, and files
and stores with every fault; N more are put together at random. Each line runs twice, in a copy of one folder in which
all is as it was. The status, both outputs and what is left in the folder are to be the same, byte for byte, but for the
seconds of `--progress`. With --every one line in N is run; lines that have a WORD of --but are passed over. The status
is 1 where two answers differ.
"""
import argparse
import collections
import concurrent.futures
import itertools
import os
import queue
import random
import re
import resource
import shutil
import subprocess
import sys
import tempfile
from collections.abc import Iterator
from dataclasses import astuple, dataclass
from pathlib import Path

from command_files import BAD, GOOD, NAMES, OTHER_ZONES, RECTS, SHAPES, T1, T2, fill, scripts

# In front of a line: its standard output takes nothing.
FULL = ">/dev/full"
SECONDS = re.compile(rb"\d+\.\d s$", re.M)
PERIOD = [T1, T2]
MOST_MEMORY = 2 << 30
# A right line of each command; one without options for each way of asking.
RIGHT = {
    "run": ["sound", "both.txt", "one.csv", "two.csv"],
    "check": ["sound"],
    "info": ["sound"],
    "part": ["0", "2", "one.csv"],
    "parts": ["2", "one.csv", "folder"],
    "moments": ["sound", "-1", "0", "5", "5.5", *PERIOD],
    "zones": ["sound", "zones.csv", *PERIOD],
    "gaps": ["sound", *PERIOD],
    "migrate": ["former", "new"],
}
NUMBERS = ["1", "2", "0", "-1", "x", "1.5", "4294967295", "4294967296", "2147483648", "2147483649", ""]
TOLD = {"--explain": [], "-q": [], "--quiet": [], "--cache-pages": NUMBERS}
# The options of each command, and the values of those that have one.
OPTIONS: dict[str, dict[str, list[str]]] = {
    "run": {
        **TOLD,
        **{"--most-legs": NUMBERS, "--most-features": NUMBERS, "--in-place": [], "--existing": []},
        **{"--strict": [], "--progress": []},
    },
    "check": TOLD,
    "info": {"--json": []},
    "part": {},
    "parts": {"--first": NUMBERS, "--count": NUMBERS},
    "moments": {**TOLD, "--rects": ["rects.csv", "absent"], "--visits": [], "--dwell": [], "--columns": []},
    "zones": {
        **TOLD,
        **{"--visits": [], "--legs": [], "--dwell": [], "--columns": []},
        **{"--features": ["ever", "always", "enters", "leaves", "crosses", "bypasses", "near", "EVER"]},
    },
    "gaps": TOLD,
    "migrate": {},
}
STORES = [
    *("sound", "large", "solid", "small", "link", "left", "cut", "rest", "unfinished", "state", "version-3", "letters"),
    *("root", "text", "former", "former-unfinished", "bytes", "letter", "zeros", *NAMES),
    *(f"{kind}-{page}" for kind in ("bent", "lies", "former-bent") for page in range(5)),
]
TIMES = [
    *(["noon", T2], [T1, "2020-01-01T00:00:00"], [T2, T1], [T1, T1], ["", T2], [T1, "9999-06-01T00:00:00Z"]),
    *(["2031-01-01T00:00:00Z", "2032-01-01T00:00:00Z"], ["2020-01-01 00:00:00Z", T2], ["-1", T2]),
]
CORNERS = [
    "a 0 1 1",
    "5 0 0 5",
    "0 5 5 0",
    "0 0 1 100000001",
    "100 100 200 200",
    "0 100 1 200",
    "-1e3 0 1 1",
    "-.5 0 1 1",
]


def helps() -> Iterator[list[str]]:
    """Help, the version, and commands that are none."""
    yield from ([], ["--help"], ["-h"], ["help"], ["--version"], ["-V"], ["-v"], ["chart"], [""], ["help", "chart"])
    yield from ([word, "sound"] for word in ("load", "count", "box", "legs", "features", "trajectory", "write", "RUN"))
    for command in RIGHT:
        yield from ([command, "--help"], [command, "-h"], ["help", command], [command, "--version"], [command[:-1]])


def words() -> Iterator[list[str]]:
    """Words that are missing, too many, or exchanged, and options of other commands."""
    for command, rest in RIGHT.items():
        yield from ([command, *rest[:count]] for count in range(len(rest)))
        yield from ([command, *rest, "more"], [command, "--", *rest], [FULL, command, *rest])
        for place in range(len(rest) - 1):
            yield [command, *rest[:place], rest[place + 1], rest[place], *rest[place + 2 :]]
        for option in sorted({it for options in OPTIONS.values() for it in options} | {"--none", "-x", "--"}):
            yield [command, option, *rest]


def options() -> Iterator[list[str]]:
    """Each option with each value, in each place, twice, and beside each other one."""
    for command, known in OPTIONS.items():
        rest = RIGHT[command]
        for option, values in known.items():
            yield from ([command, option, *rest], [command, *rest, option], [command, option, option, *rest])
            yield from ([command, f"{option}=yes", *rest], [command, option[:-1], *rest])
            for value in values:
                yield from ([command, option, value, *rest], [command, *rest, f"{option}={value}"])
        for pair in itertools.combinations(known, 2):
            yield [command, *(word for option in pair for word in [option, *known[option][:1]]), *rest]


def on_stores() -> Iterator[list[str]]:
    """Each command on each store."""
    for store in STORES:
        for flag in ("--explain", "-q"):
            yield from (["check", flag, store], ["gaps", flag, store, *PERIOD])
            yield ["run", flag, store, "ask.txt"]
        yield from (["info", store], ["info", "--json", store], ["migrate", store, "new"], ["migrate", "former", store])
        yield from (
            ["run", store, "both.txt", "one.csv", "two.csv"],
            ["run", "--existing", "--explain", store, "ask.txt"],
        )
        yield ["run", "--in-place", "--explain", store, "both.txt", "one.csv", "two.csv"]
        yield ["run", "--progress", "--cache-pages", "1", store, "both.txt", "two.csv", "one.csv"]
        yield ["moments", "--explain", "--columns", "--cache-pages", "1", store, "0", "0", "9", "9", *PERIOD]
        yield from (
            ["zones", "--explain", *kind, store, "zones.csv", *PERIOD] for kind in (["--legs", "--columns"], [])
        )
        yield from (["run", "new", store], ["run", "new", "ask.txt", store], ["part", "0", "1", store])


def on_files() -> Iterator[list[str]]:
    """Each file of a book loaded and cut, and each script, zone file and file of rectangles."""
    for name in (*GOOD, *BAD, *NAMES):
        for flags in (["--explain"], ["--strict", "-q"]):
            yield ["run", *flags, "sound", f"load-{name}.txt", name]
        yield from (
            ["run", "--explain", "new", f"load-{name}.txt", name],
            ["run", "--in-place", "new", f"load-{name}.txt", name],
        )
        yield from (["part", part, "2", name] for part in ("0", "1", "2"))
        yield from (["parts", "3", name, "folder"], ["parts", "3", "one.csv", name])
    for limits in (["--most-legs", "3"], ["--most-features", "1"], ["--most-legs", "4", "--most-features", "2"]):
        yield from (
            ["run", "--explain", *limits, store, "both.txt", "one.csv", "two.csv"]
            for store in ("new", "small", "sound")
        )
    for name in sorted(scripts()):
        yield from (
            ["run", "--explain", "sound", name],
            ["run", "--strict", "--explain", "new", name],
            ["run", "--explain", "large", name],
        )
    for name in (*SHAPES, *OTHER_ZONES, *NAMES, "sound"):
        yield from (["zones", flag, "sound", name, *PERIOD] for flag in ("--explain", "-q", "--dwell"))
    for name in (*RECTS, *NAMES):
        yield from (
            ["moments", *flags, "--rects", name, "sound", *PERIOD] for flags in (["--explain"], ["-q", "--visits"])
        )


def bounds() -> Iterator[list[str]]:
    """Rectangles and periods that are refused, or where no leg is."""
    for times in TIMES:
        for store in ("sound", "large"):
            yield from (
                ["moments", "--explain", store, "0", "0", "9", "9", *times],
                ["gaps", "--explain", store, *times],
            )
            yield from (
                ["zones", "--explain", *kind, store, "zones.csv", *times] for kind in ([], ["--features", "always"])
            )
    for corners in CORNERS:
        yield from (
            ["moments", flag, "large", *corners.split(), *PERIOD] for flag in ("--explain", "--visits", "--dwell")
        )
    for first, count in itertools.product(NUMBERS[:5], repeat=2):
        yield from (
            ["parts", "--first", first, "--count", count, "4", "many.csv", "folder"],
            ["part", first, count, "many.csv"],
        )


def lines() -> list[list[str]]:
    """The lines that are not random, each once."""
    found = itertools.chain(helps(), words(), options(), on_stores(), on_files(), bounds())
    return [list(line) for line in dict.fromkeys(map(tuple, found))]


def random_line(chance: random.Random) -> list[str]:
    """A right line with some options, some words of which are others."""
    command = chance.choice(["run", *RIGHT])
    # No number is so great that `parts` would write as many files.
    others = [*STORES, *GOOD, *BAD, *SHAPES, *RECTS, *NUMBERS[:6], *PERIOD, "random-1.txt"]
    rest = [chance.choice(others) if chance.random() < 0.15 else word for word in RIGHT[command]]
    if command == "run":
        rest = [chance.choice(STORES), f"random-{chance.randrange(40)}.txt", *chance.sample([*GOOD, *BAD], 15)]
    for option, values in OPTIONS[command].items():
        if chance.random() < 0.2:
            rest[:0] = [option, *([chance.choice(values)] if values else [])]
    return [command, *rest]


@dataclass(frozen=True)
class Answer:
    """What a program answers, and what it changed in its folder."""

    status: int
    output: bytes
    error: bytes
    changed: dict[str, tuple[int, bytes]]

    def differs(self, other: "Answer") -> list[str]:
        """Which parts differ, the names of files among them."""
        names = [name for name in ("status", "output", "error") if getattr(self, name) != getattr(other, name)]
        found = {*self.changed, *other.changed}
        return names + sorted(it for it in found if self.changed.get(it) != other.changed.get(it))


class Copy:
    """A copy of the folder, for one run at a time. What a run changes is put back."""

    def __init__(self, given: Path, place: Path) -> None:
        self.given, self.folder = given, place
        shutil.copytree(given, place, symlinks=True)
        self.known = self.seen()

    def seen(self) -> dict[str, tuple[int, ...]]:
        """What tells of each file whether it was written, replaced, or given other rights."""
        found = {}
        for path in self.folder.rglob("*"):
            about = path.lstat()
            is_folder = path.is_dir() and not path.is_symlink()
            rest = () if is_folder else (about.st_ino, about.st_size, about.st_mtime_ns)
            found[str(path.relative_to(self.folder))] = (about.st_mode, *rest)
        return found

    def put_back(self) -> dict[str, tuple[int, bytes]]:
        """What a run changed, of each name the rights and the bytes, and nothing where it is gone; all is put back."""
        seen, changed = self.seen(), {}
        for name in sorted({*seen, *self.known}, reverse=True):
            if seen.get(name) != self.known.get(name):
                changed[name] = self.put_back_file(name)
        self.known = self.seen() if changed else self.known
        return changed

    def put_back_file(self, name: str) -> tuple[int, bytes]:
        path, given, was = self.folder / name, self.given / name, (0, b"")
        if path.is_dir() and not path.is_symlink():
            was = (path.stat().st_mode, b"folder")
            shutil.rmtree(path)
        elif os.path.lexists(path):
            was = (path.lstat().st_mode, os.fsencode(os.readlink(path)) if path.is_symlink() else path.read_bytes())
            path.unlink()
        if given.is_dir() and not given.is_symlink():
            shutil.copytree(given, path, symlinks=True)
        elif os.path.lexists(given):
            shutil.copy2(given, path, follow_symlinks=False)
        return was

    def answer(self, program: Path, line: list[str]) -> Answer:
        """What a program answers here."""
        is_full = line[:1] == [FULL]
        with open(FULL[1:], "wb") as full:
            ended = subprocess.run(
                ["mftb", *line[is_full:]],
                executable=program,
                cwd=self.folder,
                stdin=subprocess.DEVNULL,
                stdout=full if is_full else subprocess.PIPE,
                stderr=subprocess.PIPE,
                timeout=120,
            )
        error = SECONDS.sub(b"N s", ended.stderr)
        return Answer(ended.returncode, ended.stdout or b"", error, self.put_back())


def shown(answer_: Answer) -> str:
    """The beginning of an answer."""
    return "  " + " ".join(repr(part[:300] if isinstance(part, bytes) else part) for part in astuple(answer_)[:3])


def compare(programs: list[Path], found: list[list[str]], given: Path) -> collections.Counter[str]:
    """Runs the lines with both programs, and prints where they differ: how many lines ended how."""
    counts: collections.Counter[str] = collections.Counter()
    count = os.cpu_count() or 1
    copies: queue.SimpleQueue[Copy] = queue.SimpleQueue()
    with tempfile.TemporaryDirectory() as name, concurrent.futures.ThreadPoolExecutor(count) as pool:
        for number in range(count):
            copies.put(Copy(given, Path(name, str(number))))

        def answers(line: list[str]) -> list[Answer]:
            copy = copies.get()
            try:
                return [copy.answer(program, line) for program in programs]
            finally:
                copies.put(copy)

        for line, (old, new) in zip(found, pool.map(answers, found)):
            counts[f"status {old.status}"] += 1
            if parts := old.differs(new):
                counts["differ"] += 1
                print(f"{ascii(line)}: differ in {', '.join(parts)}\n{shown(old)}\n{shown(new)}")
    return counts


def main() -> int:
    parser = argparse.ArgumentParser(description=__doc__.split("\n", maxsplit=1)[0])
    parser.add_argument("programs", nargs=2, type=Path, metavar="PROGRAM", help="the old one, and the new one")
    parser.add_argument("--every", type=int, default=1, metavar="N", help="run one line in N")
    parser.add_argument("--random", type=int, default=300, metavar="N", help="so many lines at random besides")
    parser.add_argument("--seed", type=int, default=1, metavar="N")
    parser.add_argument(
        "--but", action="append", default=[], metavar="WORD", help="pass over lines that have this word"
    )
    asked = parser.parse_args()
    # A cache of 2^31 pages is then refused at once.
    resource.setrlimit(resource.RLIMIT_AS, (MOST_MEMORY, MOST_MEMORY))
    programs, chance = [program.resolve() for program in asked.programs], random.Random(asked.seed)
    found = lines() + [random_line(chance) for _ in range(asked.random)]
    found = [line for line in found if not set(line) & set(asked.but)][:: asked.every]
    with tempfile.TemporaryDirectory() as name:
        fill(Path(name), programs[0], chance)
        counts = compare(programs, found, Path(name))
    statuses = ", ".join(f"{count} with {status}" for status, count in sorted(counts.items()) if status != "differ")
    print(f"{len(found)} command lines ({statuses}), {counts['differ']} answered otherwise")
    return 1 if counts["differ"] else 0


if __name__ == "__main__":
    sys.exit(main())
