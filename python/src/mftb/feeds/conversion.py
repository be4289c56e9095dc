"""What the readers of feeds share: positions in, a file of legs out (docs/user/FILES.md).

The files are read once, and nothing is written before each line was judged: until then positions
wait in a temporary file on disk. What is held in memory is one position of each feature. Only
where a feature goes back in time are positions put into order, in a temporary database on disk.

Coordinates and attribute values are texts from end to end: no number is computed from them but the
corners of the header line, which pick the least and the greatest text, and with --unwrap a
longitude beyond the date line.
"""

from __future__ import annotations

import contextlib
import copy
import gc
import io
import math
import os
import signal
import sys
from argparse import Namespace
from collections import Counter
from collections.abc import Callable, Iterable, Iterator, Mapping
from typing import TextIO, TypeAlias

from mftb.commands import ended, say
from mftb.feeds import seams
from mftb.feeds.judging import Batch, Judge, Sieve
from mftb.feeds.legs import Legs
from mftb.feeds.positions import Bounds, Position, Positions, Sorted, Spool, Unwrapped, axes_of
from mftb.legfiles import beside
from mftb.sources import Columns
from mftb.texts import LeftOut, Refused, field, instant, several

# Positions between two words of progress, and lines that cannot be read of which each is named.
STRIDE, NAMED = 50_000, 20


class IsThere(Refused):
    """That all positions of the files were converted before."""


# What reads a file, and gives what is judged of its lines, some at once.
FileReader: TypeAlias = Callable[[str, Judge], Iterator[Batch]]
Reader: TypeAlias = Callable[[Namespace], FileReader]


class Feed:
    """The positions of the files, and what was seen of them.

    `reader` makes what gives the line numbers of a file, each with its position, or with why it
    has none. `begins` is where each feature ended before.
    """

    def __init__(
        self, tool: str, reader: Reader, options: Namespace, begins: Mapping[str, Position], quiet: bool = False
    ) -> None:
        self.tool, self.reader, self.options, self.quiet = tool, reader, options, quiet
        self.begins, self.sieve = begins, Sieve(options, begins)
        self.counts: Counter[str] = Counter()
        self.spool = Spool()
        self.bounds = self.spool.bounds
        self.lines, self.features, self.bad = 0, 0, 0
        # The last moment so far, and the first feature that goes back in time.
        self.latest, self.disorder = -math.inf, ""
        self.ordered: Iterable[Positions] = self.spool
        self.written = 0
        self.legs = Legs(options, self.counts)

    def survey(self) -> None:
        """Judges every line, and sees what the header needs and whether there is an order."""
        ends: dict[str, int] = {}
        for path, batch in self.batches():
            self.lines += batch.lines
            for line, why in batch.faults:
                self.leave_out(path, line, why)
            for feature, (first, last) in batch.early.items():
                self.sieve.note(feature, first, last)
            if batch.numbers:
                self.spool.add(batch.packed, batch.bounds)
            self.follow(path, batch, ends)
        self.features = len(ends)
        self.judge(ends)
        self.order()

    def follow(self, path: str, batch: Batch, ends: dict[str, int]) -> None:
        """Notes where each feature is now, and the first that goes back in time."""
        if not self.disorder and batch.numbers:
            back = batch.back(ends) if batch.bounds.first < self.latest else batch.disorder
            if back:
                line, feature = back
                self.disorder = f"{path} line {line}: {feature!r} goes back in time"
            self.latest = max(self.latest, batch.bounds.last)
        ends.update(batch.lasts)

    def leave_out(self, path: str, line: int, why: Exception) -> None:
        """Counts a line without a position; one that cannot be read ends all, or is named."""
        if isinstance(why, LeftOut):
            self.counts[str(why)] += 1
            return
        if not self.options.skip_bad:
            raise Refused(f"{path} line {line}: {why}; nothing is written (see --skip-bad)")
        self.bad += 1
        if self.bad <= NAMED:
            self.say(f"{path} line {line}: {why}")
        elif self.bad == NAMED + 1:
            self.say("further lines that cannot be read are only counted")
        self.counts["that cannot be read"] += 1

    @property
    def status(self) -> int:
        """That of a conversion that ended well."""
        return 0

    def say(self, what: object) -> None:
        if not self.quiet:
            say(self.tool, what)

    def batches(self) -> Iterator[tuple[str, Batch]]:
        """What the files have, with a word of progress on a terminal."""
        terminal, read = sys.stderr.isatty(), self.reader(self.options)
        for path in self.options.files:
            number = 0
            for batch in read(path, Judge(path, self.sieve)):
                if terminal and number // STRIDE < (number + batch.lines) // STRIDE:
                    say(self.tool, f"{path} line {batch.last_line}", end="")
                number += batch.lines
                yield path, batch
            if not number:
                self.say(f"{path} has nothing to convert; it is passed over")

    def judge(self, ends: Mapping[str, int]) -> None:
        """Refuses files without a position and columns that no file has."""
        files, kept = self.options.files, self.options.kept
        if not ends and self.sieve.early:
            raise IsThere(
                f"nothing here is later than {self.options.before}; {self.sieve.question()}; nothing is written"
            )
        if not ends:
            raise Refused("there is no position in these files; nothing is written")
        if kept.first_missing():
            raise Refused(f"no file has a column {kept.first_missing()!r}; nothing is written")
        for name, count in kept.lacking.items():
            self.say(f"{count} of {len(files)} files have no column {name!r}: it is blank there")
        early = sum(count for why, count in self.counts.items() if why.startswith("not later"))
        if 2 * early >= self.lines and self.sieve.early:
            self.say(self.sieve.question())

    def order(self) -> None:
        """Sorts the positions where a feature goes back in time, and covers where legs begin."""
        if self.disorder:
            self.say(f"{self.disorder}; sorting by time, in a temporary file on disk")
            self.ordered = Sorted(self.spool)
        if self.options.unwrap:
            longitudes = {feature: float(begin.place[0]) for feature, begin in self.begins.items()}
            self.ordered, self.bounds = Unwrapped(self.ordered, longitudes), Bounds()
            for positions in self.ordered:
                self.bounds.widen(positions.moments, positions.axes())
        earliest = self.bounds.first - self.options.gap
        for begin in self.begins.values():
            if begin.moment >= earliest:
                self.bounds.widen([begin.moment], axes_of([begin.place]))


# The output


def write(out: TextIO, feed: Feed) -> None:
    """Writes the two header lines and a record for each leg."""
    bounds, options = feed.bounds, feed.options
    start = bounds.first - bounds.first % 1000
    low, high = " ".join(bounds.low), " ".join(bounds.high)
    ends = instant(start), instant(bounds.last)
    head = ["@stboundedby", options.crs, options.dimension, low, high, *ends, "sec"]
    names = [text for pair in options.written for text in pair]
    for line in head, ["@columns", "mfidref", "trajectory", *names]:
        out.write(",".join(map(field, line)) + "\n")
    feed.legs.begin(start, feed.begins)
    terminal = sys.stderr.isatty()
    for positions in feed.ordered:
        records = feed.legs.records(positions)
        count = len(records) - records.count("")
        if terminal and feed.written // STRIDE < (feed.written + count) // STRIDE:
            say(feed.tool, f"leg {feed.written + count}", end="")
        feed.written += count
        out.write("".join(records))
    feed.counts["alone"] += feed.legs.alone()


def save(feed: Feed) -> None:
    """Writes to the file of -o, or to standard output, and to that of --state."""
    options = feed.options
    with contextlib.ExitStack() as files:
        # What is entered last gets its name first: a state never stands for legs that do not.
        state = files.enter_context(beside(options.state)) if options.state else None
        out: TextIO
        if options.output in (None, "-"):
            out = io.TextIOWrapper(sys.stdout.buffer, encoding="utf-8", newline="\n")
        else:
            out = files.enter_context(beside(options.output))
        write(out, feed)
        out.flush()
        if state:
            seams.write_state(state, options, feed.legs.ends())


def begins_of(tool: str, reader: Reader, options: Namespace) -> dict[str, Position]:
    """Where each feature ended in PREVIOUS: a state, a file of legs, or a feed."""
    path = options.after
    if path is None:
        return {}
    if path == options.state and not os.path.exists(path):
        say(tool, f"{path} is not there yet: nothing came before")
        return {}
    kind = seams.kind(path)
    if kind == "feed":
        return ends_of_feed(tool, reader, options)
    read = {"state": seams.read_state, "store": seams.read_store, "legs": seams.read_legs}[kind]
    return {end[0]: Position(*end) for end in read(path, options)}


def ends_of_feed(tool: str, reader: Reader, options: Namespace) -> dict[str, Position]:
    """Where each feature ends in the feed PREVIOUS, as its conversion would find."""
    earlier = copy.copy(options)
    earlier.files, earlier.after, earlier.start, earlier.end = [options.after], None, None, None
    earlier.kept = Columns(earlier)
    feed = Feed(tool, reader, earlier, {}, quiet=True)
    feed.survey()
    for positions in feed.ordered:
        feed.legs.records(positions)
    # A later file's segments are its own.
    return {name: end._replace(segment=0) for name, end in feed.legs.ends().items()}


def why_no_leg(feed: Feed) -> str:
    """Why there is no leg, in words."""
    counts = feed.counts
    if counts["outside"]:
        return "all are outside --bbox"
    if counts["gaps"]:
        return f"{several(counts['gaps'], 'time')} the next position comes later than --gap allows"
    if counts["too fast"]:
        return f"what follows a position is too fast for {feed.options.max_speed} (see --max-speed)"
    return "no feature has two positions"


def summary(feed: Feed) -> str:
    """What was read, made and left out, in one line."""
    counts, options = dict(feed.counts), feed.options
    gaps, segments = counts.pop("gaps", 0), counts.pop("between segments", 0)
    over, alone = counts.pop("over the date line", 0), counts.pop("alone", 0)
    outside, _ = counts.pop("outside", 0), counts.pop("fast", 0)
    if "too fast" in counts:
        counts[f"too fast for {options.max_speed}"] = counts.pop("too fast")
    words = [f"{count} {why}" for why, count in counts.items() if count]
    said = f"{several(feed.features, 'feature')}, {several(feed.written, 'leg')}"
    said += f" from {several(feed.lines, options.unit)}"
    said += f"; left out: {', '.join(words)}" if words else ""
    said += f"; {several(outside, 'leg')} outside --bbox" if outside else ""
    said += f"; no leg across {several(gaps, 'gap')}" if gaps else ""
    said += f"; no leg between segments, {several(segments, 'time')}" if segments else ""
    said += f"; no leg over the date line, {several(over, 'time')}" if over else ""
    return said + (f"; {several(alone, 'position')} in no leg" if alone else "")


# The tool's work


def run(tool: str, options: Namespace, reader: Reader, unit: str = "line") -> int:
    """Does the tool's work; the status is 0, 1 where there is no output, and 2 for wrong words."""
    options.unit = unit
    signal.signal(signal.SIGTERM, signal.default_int_handler)
    wrong = wrong_words(options)
    if wrong:
        say(tool, wrong)
        return 2
    return ended(tool, lambda: convert(tool, options, reader).status, "stopped; no file is written")


def convert(tool: str, options: Namespace, reader: Reader) -> Feed:
    """Reads the files, writes the legs, and says what was made; gives what was seen."""
    # Batches are many objects and few cycles.
    gc.set_threshold(100_000, 50, 100)
    options.kept = Columns(options)
    feed = Feed(tool, reader, options, begins_of(tool, reader, options))
    feed.survey()
    save(feed)
    remarks: Iterator[str | None] = (remark() for remark in options.remarks)
    for said in filter(None, remarks):
        say(tool, said)
    if not feed.written:
        say(tool, f"no leg is made: {why_no_leg(feed)}")
    fast = feed.counts["fast"]
    if fast:
        legs = f"{several(fast, 'leg')} {'need' if fast > 1 else 'needs'}"
        say(tool, f"{legs} more than {options.usual_speed} (see --max-speed)")
    say(tool, summary(feed))
    return feed


def wrong_words(options: Namespace) -> str | None:
    """What is wrong with the files that are named, if something is."""
    read = [*options.files, *([options.after] if options.after else [])]
    for out in options.output, options.state:
        others = read if out == options.output else options.files
        if out and any(is_same_file(out, path) for path in others):
            return f"{out} is both read and written"
    if options.output and options.state and same_name(options.output, options.state):
        return f"{options.state} is written twice"
    return None


def same_name(one: str, two: str) -> bool:
    return os.path.realpath(one) == os.path.realpath(two)


def is_same_file(one: str, two: str) -> bool:
    return os.path.exists(one) and os.path.exists(two) and os.path.samefile(one, two)
