"""Runs random scripts over random files, and compares the answers with those of examples/check.py:
tools/random-scripts [--first N] [--count N].

For each number up to four files are made, of few features, of many, or of long records; some are refused. A script
loads them and asks about places and moments, many of which are those of the legs. The script is cut into runs over
one store, each with a cache of 1 to 256 pages, and some have a check behind them. The answers are then to be those
of examples/check.py, which shares nothing with the program. Where they are not, the folder is kept and named. The
program is built first where it is not built yet.
"""
import argparse
import csv
import io
import pathlib
import random
import shutil
import subprocess
import sys
import tempfile
from fractions import Fraction

from compiling import proved

ROOT = pathlib.Path(__file__).resolve().parents[2]
PROGRAM = ROOT / "crates" / "mftb" / "out" / "mftb"
sys.path.insert(0, str(ROOT / "examples"))
import check  # noqa: E402

START = check.instant("2024-01-01T00:00:00Z")
LETTERS = list("abcdefgh")
PREDICATES = ("ever", "always", "enters", "leaves", "crosses", "bypasses")
VALUES = ("", "x", "a b", 'q"r', "u,v")
# What the program says where a piece without a load is the first over the store.
EMPTY = "mftb: there was no store store: an empty one was made\n"
QUESTIONS = ("box", "legs", "legs", "features", "features", "count", "trajectory", "write")


def after_start(moment):
    return check.date(START + moment)


class Maker:
    """Makes the files and the script of a number."""

    def __init__(self, number, folder):
        self.random, self.folder = random.Random(number), folder
        pick = self.random.choice
        self.axes, self.columns, self.step = pick([2, 2, 2, 3]), pick([0, 1, 2]), pick([7, 999, 1000])
        # The names, how many records a file has, and how many positions a record.
        self.names, self.records, self.positions = pick(
            [
                (LETTERS, (0, 12), (1, 4)),
                (LETTERS + ["a name, in two"], (0, 12), (1, 4)),
                ([f"n{k}" for k in range(pick([80, 200]))], (60, 250), (1, 4)),
                (["a", "b", 'the "third"'], (3, 12), (1, 400)),
            ]
        )
        # The last end of each feature, in milliseconds after the start.
        self.ends = dict.fromkeys(self.names, 0)
        # The first and the last moment of each record, and where its feature is then.
        self.meetings = [(0, (Fraction(0),) * self.axes)]

    def coordinate(self):
        pick, number = self.random.choice, self.random.randint
        if self.random.random() < 0.03:
            return Fraction(number(-(10**9), 10**9), 10 ** number(1, 7))
        return Fraction(number(-16, 16), pick([1, 1, 1, 2, 4, 5]))

    def places(self):
        places = [[self.coordinate() for _ in range(self.axes)] for _ in range(self.random.randint(*self.positions))]
        if len(places) > 1 and self.random.random() < 0.2:
            places[1] = places[0]
        return places

    def record(self, unit, start):
        """A record, which now and then begins before the end of the feature's last one."""
        pick, number = self.random.choice, self.random.randint
        name = pick(self.names)
        begin = max(self.ends[name] + pick([0, 0, number(0, 3) * self.step]), start)
        if self.random.random() < 0.01:
            begin = max(begin - pick([1, self.step]), 0)
        places = self.places()
        end = begin + max(len(places) - 1, 1) * pick([1, 2, self.step]) + number(0, 3)
        self.ends[name] = max(self.ends[name], end)
        self.meetings += [(begin, places[0]), (end, places[-1])]
        trajectory = " ".join(check.shown(value) for place in places for value in place)
        times = [after_start(moment) for moment in (begin, end)]
        if unit == "sec":
            times = [check.shown(Fraction(moment - start, 1000)) for moment in (begin, end)]
        return [name, *times, trajectory, *(pick(VALUES) for _ in range(self.columns))]

    def file(self, number):
        """Writes a file of random records."""
        unit, start = self.random.choice(["sec", "sec", "absolute"]), number * 500
        corners = [" ".join([digit] * self.axes) for digit in "01"]
        columns = [word for k in range(self.columns) for word in (f"column {k}", "xsd:token")]
        records = [self.record(unit, start) for _ in range(self.random.randint(*self.records))]
        with open(self.folder / f"{number}.csv", "w", newline="", encoding="utf-8") as out:
            lines = csv.writer(out, lineterminator="\n")
            dates = [after_start(start), after_start(start + 10**6)]
            lines.writerow(["@stboundedby", "urn:x", f"{self.axes}D", *corners, *dates, unit])
            lines.writerow(["@columns", "mfidref", "trajectory", *columns])
            lines.writerows(records)

    def question(self):
        pick, number = self.random.choice, self.random.randint
        word = pick(QUESTIONS)
        if word in ("count", "write"):
            return word
        if word == "trajectory":
            return f"{word} {pick([*self.names, 'nobody'])}"
        moment, place = pick(self.meetings)
        most = max(self.ends.values()) + 10
        first = pick([number(-10, most), moment])
        last = max(first, pick([first + number(0, 1500), first + number(0, most), first, pick(self.meetings)[0]]))
        near = pick([place, [self.coordinate() for _ in place]])
        sides = zip(*(sorted([value, self.coordinate()]) for value in near[:2]))
        words = [check.shown(side) for corner in sides for side in corner]
        predicate = [] if word == "box" else [pick(PREDICATES)]
        return " ".join([word, *predicate, *words, after_start(first), after_start(last)])

    def script(self):
        """Writes the files, and gives the lines of the script."""
        lines = []
        for number in range(self.random.randint(1, 4)):
            self.file(number)
            lines.append(f"load {number}.csv")
            lines += [self.question() for _ in range(self.random.randint(0, 4))]
        return lines + [self.question() for _ in range(self.random.randint(5, 25))]

    def runs(self, lines):
        """The script in pieces, with the pages of the cache of each, and whether a check comes behind."""
        while lines:
            length = self.random.randint(1, max(2, len(lines)))
            yield lines[:length], self.random.choice([1, 2, 3, 8, 256]), self.random.random() < 0.3
            lines = lines[length:]


def said(folder, *words):
    """What the program prints, and where it fails its status and what it says."""
    done = subprocess.run([PROGRAM, *words], cwd=folder, capture_output=True, text=True)
    told = done.stderr.replace(EMPTY, "")
    return done.stdout, f"status {done.returncode}: {told}" if done.returncode else told


def answers(maker, lines):
    """What the program answers to a script, over one store, and what it says on standard error."""
    text, faults = "", ""
    files = sorted(path.name for path in maker.folder.glob("*.csv"))
    for piece, pages, checked in maker.runs(lines):
        cache = ["--cache-pages", str(pages)]
        (maker.folder / "script.txt").write_text("\n".join(piece) + "\n")
        out, fault = said(maker.folder, "run", *cache, "store", "script.txt", *files)
        text, faults = text + out, faults + fault
        if checked:
            report, fault = said(maker.folder, "check", *cache, "store")
            faults += fault if report.startswith("ok 1\n") else f"no report: {fault}"
    return text, faults


def agrees(number, folder):
    """Whether the program answers the script of a number as it is to, and how many legs there were."""
    maker, wanted, book = Maker(number, folder), io.StringIO(), check.Book()
    lines = maker.script()
    book.run(folder, "\n".join(lines), wanted)
    text, faults = answers(maker, lines)
    (folder / "answers").write_text(text)
    (folder / "wanted").write_text(wanted.getvalue())
    (folder / "faults").write_text(faults)
    (folder / "whole-script").write_text("\n".join(lines) + "\n")
    return (text, faults) == (wanted.getvalue(), ""), len(book.legs)


def main():
    words = argparse.ArgumentParser(description=__doc__.split("\n")[0])
    words.add_argument("--first", type=int, default=0, help="the first number")
    words.add_argument("--count", type=int, default=100, help="how many numbers")
    asked = words.parse_args()
    proved()
    differ, legs = 0, 0
    for number in range(asked.first, asked.first + asked.count):
        folder = pathlib.Path(tempfile.mkdtemp())
        agreed, count = agrees(number, folder)
        legs += count
        if agreed:
            shutil.rmtree(folder)
        else:
            differ += 1
            print(f"{number}: the answers differ, see {folder}")
    print(f"{asked.count} scripts over {legs} legs, {differ} answered otherwise")
    sys.exit(1 if differ else 0)
