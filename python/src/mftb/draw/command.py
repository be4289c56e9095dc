"""Draws the legs of files or of a store, and over them those of an answer, as a picture (SVG, or PNG).

The files are in the profile of docs/user/FILES.md, and their legs are grey; without a file those
of the store are. An answer is what a run of a script printed: its records of legs (of `legs`, `box`
and `trajectory`) are drawn in colour, by feature; where it has none, the tracks of the features
that `features` named, in the question's period where --script says it (all of them with --whole).
"""

from __future__ import annotations

import argparse
import math
import shutil
import subprocess
from argparse import Namespace
from collections import Counter
from collections.abc import Callable, Iterable, Iterator, Mapping, Sequence
from pathlib import Path
from typing import TypeAlias

from mftb import answers, asking, rectangles, texts
from mftb.commands import ended, example, say
from mftb.draw import coast, crossings, labels, stored, svg, zones
from mftb.draw.plot import MANY, WIDTH, Extent, Ink, Piece, Place, Seen, View, in_degrees, size
from mftb.legfiles import LegFile, beside
from mftb.program import NAMING

EXAMPLE = """example:
  tools/draw harbour.csv --box -60.3 0 60.3 0 --answer answer.txt -o picture.svg
  tools/draw harbour.csv --script script.txt --question 3 --answer answer.txt -o picture.png
  tools/draw --store harbour.mftb --box -60.3 0 60.3 0 --answer answer.txt -o picture.svg

The picture shows the rectangle and the answer, and of the files what is near; all of the files
with --whole, where that is little more, and without rectangle and answer; just --view where that is
given. What lies far off all else does not set the frame. A rectangle without width or height is a
line. x goes to the right and y upwards, in one scale; in degrees a degree east is as much shorter
as it is on the Earth. Colours follow the reader's choice of light or dark. A .png takes
rsvg-convert (Debian's package librsvg2-bin). The files are read once or twice, and not held
in memory; a store is asked by mftb for the legs in view, and they are not held either. Where all of
a store is shown, what lies far off counts. This tool is no part of any proof."""

LEFT, TOP, BELOW = 70, 40, 136
FIRST_START = "its times are taken to count from the first file's start"
# What has legs.
Source: TypeAlias = "Files | stored.Stored"
OTHERS = {".jpg", ".jpeg", ".gif", ".pdf", ".webp", ".tif", ".tiff", ".bmp"}


class Files:
    """The files of legs: what their header lines say, and their legs one by one."""

    kind = "files"

    def __init__(self, paths: Sequence[str]) -> None:
        self.paths, self.heads = paths, [header(path) for path in paths]
        self.title = ", ".join(Path(path).name for path in paths)
        first = self.heads[0]
        self.crs, self.dimension, self.start = first.head[1], first.dimension, first.start
        self.columns = ["mfidref", "", "", "trajectory", *first.columns]
        self.count, self.first, self.last = 0, math.inf, -math.inf

    def legs(self, _view: View | None = None) -> Iterator[Seen]:
        """Each leg; the period is noted."""
        self.count = 0
        for path in self.paths:
            file = LegFile(path)
            try:
                yield from self.legs_of(file)
            except (ValueError, IndexError):
                raise file.refused() from None
        if not self.count:
            raise texts.Refused("there is no leg in these files")

    def legs_of(self, file: LegFile) -> Iterator[Seen]:
        """Each leg of a file."""
        first, last, count, step = math.inf, -math.inf, 0, 0
        for count, row in enumerate(file, 1):
            if not step:
                absolute, step, wide = file.unit == "absolute", file.dimension, 2 * file.dimension
                moment: Callable[[str], float] = float
                if absolute:
                    moment = file.milliseconds
                if not file.head:
                    raise ValueError("a record before the header lines")
            begin, end = moment(row[1]), moment(row[2])
            first, last = first if first < begin else begin, last if last > end else end
            numbers = [*map(float, row[3].split())]
            if not -4e8 < sum(numbers) < 4e8:
                raise ValueError("no numbers")
            if len(numbers) == wide:
                yield Seen(file, row, 0, numbers[0], numbers[1], numbers[step], numbers[step + 1])
                continue
            if not numbers or len(numbers) % step:
                raise ValueError("no places")
            places = list(zip(numbers[::step], numbers[1::step]))
            for number, ends in enumerate(zip(places, places[1:] or places)):
                yield Seen(file, row, number, *ends[0], *ends[1])
        if count:
            self.note(file, count, first, last)

    def note(self, file: LegFile, count: int, first: float, last: float) -> None:
        """Counts a file's records, and widens the period."""
        unit = {"absolute": 1, "minute": 60_000}.get(file.unit, 1000)
        start = 0 if file.unit == "absolute" else file.start
        self.count += count
        self.first = min(self.first, start + first * unit)
        self.last = max(self.last, start + last * unit)

    def bounds(self, shown: Shown | None, is_whole: bool) -> list[Place]:
        """Two corners of what is shown of features, or of all legs; nothing where there is none."""
        every = Extent()
        for file, row, number, x, y, u, v in self.legs():
            one, two = (x, y), (u, v)
            for piece in shown.pieces(file, row, number, one, two) if shown else [(one, two)]:
                every.add(*piece[0])
                every.add(*piece[1])
        return every.corners(is_whole)

    def corners(self) -> list[Place]:
        """The corners that the header lines say; nothing where one says none."""
        try:
            fields = [text.split() for file in self.heads for text in file.head[3:5]]
            return [(float(field[0]), float(field[1])) for field in fields]
        except (ValueError, IndexError):
            return []


def header(path: str) -> LegFile:
    """A file whose header lines were read, as far as they stand before its first record."""
    file = LegFile(path)
    for _ in file:
        break
    if not file.head:
        raise file.refused()
    return file


def moment(file: LegFile | stored.Stored, row: list[str], number: int) -> int:
    """When the leg with a number in its record begins."""
    first, last = (file.milliseconds(text) for text in row[1:3])
    legs = max(len(row[3].split()) // file.dimension - 1, 1)
    return first + (last - first) * number // legs


class Shown:
    """What is shown of an answer: its legs, or the tracks of features, and the rectangle."""

    def __init__(self, options: Namespace, files: Source) -> None:
        self.given: list[answers.Answer] = []
        if options.answer:
            found = answers.read_answers(options.answer, options.script)
            self.given = answers.chosen(found, options.question)
        self.hits = list(answers.hits(self.given, files.dimension))
        self.is_whole = options.whole
        # The features whose tracks are shown, and in which periods.
        self.names: dict[str, list[answers.Period | None]] = {} if self.hits else answers.names(self.given)
        boxes = [answer.box() for answer in self.given] if options.question else []
        self.box = options.box or next((box for box in boxes if box), None)
        if options.label not in files.columns:
            raise texts.Refused(f"there is no column {options.label!r}")
        self.label = files.columns.index(options.label)
        self.crossings = crossings.read(options.moments) if options.moments else []
        self.outlines = zones.wanted(options)
        # The offset of each leg, but of one that is there at several moments.
        self.legs: dict[tuple, float | None] = {}
        self.own = {hit.name for hit in self.hits}
        for hit in self.hits:
            where = (hit.name, *rounded(hit.places))
            is_new = self.legs.setdefault(where, hit.first) == hit.first
            self.legs[where] = hit.first if is_new else None

    def pieces(
        self, file: LegFile | stored.Stored, row: list[str], number: int, one: Place, two: Place
    ) -> list[tuple[Place, Place]]:
        """What is shown of a leg in the track of its feature: its part in each period that was asked for."""
        periods = self.names.get(row[0], [])
        if not periods or self.is_whole or None in periods:
            return [(one, two)] if periods else []
        first, last = moment(file, row, number), moment(file, row, number + 1)
        parts = [(max(first, begin), min(last, end)) for begin, end in filter(None, periods)]
        span = max(last - first, 1)
        return [
            (
                between(one, two, (begin - first) / span),
                between(one, two, (end - first) / span) if last > first else two,
            )
            for begin, end in parts
            if begin <= end
        ]

    def title(self, files: Source) -> str:
        """The question, or the names of the files."""
        if self.given and len(self.given) == 1 and self.given[0].words:
            return self.given[0].title()
        return files.title

    def row_label(self, row: list[str]) -> str:
        """What a feature is called, by a record of the files or of an answer."""
        return row[self.label] if self.label < len(row) else row[0]


def between(one: Place, two: Place, share: float) -> Place:
    """The place after a share of the way between two."""
    return one[0] + (two[0] - one[0]) * share, one[1] + (two[1] - one[1]) * share


def rounded(places: Iterable[Sequence[float]]) -> tuple[float, ...]:
    """Two places as the store keeps them."""
    return tuple(round(number, 7) for place in places for number in place)


# What is seen


def seen(options: Namespace, files: Source, shown: Shown) -> list[Place]:
    """The places that the picture shows: what was asked for, or all where that is little more."""
    near = Extent()
    for hit in shown.hits:
        for place in hit.places:
            near.add(*place)
    for crossing in shown.crossings:
        near.add(*crossing.place)
    zones.extend(near, shown.outlines)
    found, box = near.corners(), shown.box
    if box:
        wide = max(box[2] - box[0], box[3] - box[1]) if shown.names else 0
        found += [(box[0] - wide, box[1] - wide), (box[2] + wide, box[3] + wide)]
    if options.whole or not found:
        every = files.bounds(shown if shown.names and not options.whole else None, options.whole) + found
        if not every:
            raise texts.Refused(f"no feature of the answer is in the {files.kind}")
        return every
    every = found + files.corners()
    return every if size(every) <= 1.5 * size(found) else found


class Scene:
    """The picture's ink: grey, and in colour by feature."""

    def __init__(self, view: View, shown: Shown) -> None:
        self.view, self.shown, self.grey = view, shown, Ink(view)
        # Of each feature that is coloured its label and its legs that are seen, and of each colour
        # its ink, where these are too many.
        self.groups: dict[str, list[Piece]] = {name: [] for name in shown.names}
        self.labels: dict[str, str] = {}
        self.inks: dict[str, Ink] = {}
        self.total = 0
        self.numbers = {name: number for number, name in enumerate(self.groups)}
        # What the base would be by each leg that is in the answer and in the files.
        self.votes: Counter[float] = Counter()
        for hit in shown.hits:
            label = shown.row_label([hit.name, "", "", "", *hit.values])
            self.take(label, *map(view.at, hit.places))

    def scan(self, files: Source) -> None:
        """Takes in the legs of the files."""
        view, special = self.view, self.shown.own or self.shown.names
        left, right, low, top = view.edges()
        add, start, rise, across, scale = self.grey.add, view.x, view.y, view.across, view.scale
        for file, row, number, x, y, u, v in files.legs(view):
            if special and row[0] in special:
                if self.is_coloured(file, row, number, (x, y), (u, v)):
                    continue
            is_within = left <= x <= right and left <= u <= right and low <= y <= top and low <= v <= top
            if not is_within:
                if x < left and u < left or x > right and u > right:
                    continue
                if y < low and v < low or y > top and v > top:
                    continue
            a, b = (x - start) * across, (rise - y) * scale
            add(row[0], a, b, a + (u - x) * across, b - (v - y) * scale, is_within)

    def is_coloured(self, file: LegFile | stored.Stored, row: list[str], number: int, one: Place, two: Place) -> bool:
        """Takes a leg of a feature of the answer; whether it is drawn in colour."""
        name = row[0]
        if self.shown.names:
            found = self.shown.pieces(file, row, number, one, two)
            for begin, end in found:
                self.labels[name] = self.shown.row_label(row)
                self.take(name, self.view.at(begin), self.view.at(end))
            return bool(found)
        offset = self.shown.legs.get((name, *rounded((one, two))))
        if offset is not None:
            self.votes[moment(file, row, number) - offset] += 1
        return False

    def take(self, name: str, one: Place, two: Place) -> None:
        """Takes a leg that is drawn in the colour of its feature, where it is seen."""
        found = self.groups.setdefault(name, [])
        number = self.numbers.setdefault(name, len(self.numbers))
        if not self.view.shows(one, two):
            return
        self.total += 1
        if self.total <= MANY:
            found.append((one, two))
        kind = svg.colour(number)
        self.inks.setdefault(kind, Ink(self.view, MANY // 10)).add(name, *one, *two)

    def by_label(self) -> dict[str, list[Piece]]:
        """The legs of features, by what these are called."""
        return {self.labels.get(name, name): found for name, found in self.groups.items()}

    def marks(self, groups: list[str]) -> Iterator[svg.Mark]:
        """The words of each crossing that is seen."""
        found = self.shown.crossings
        for crossing, words in zip(found, crossings.times(found)):
            label, place = self.labels.get(crossing.name, crossing.name), self.view.at(crossing.place)
            if self.view.shows(place, place):
                yield words, groups.index(label) if label in groups else 0, place

    def coloured(self) -> Iterator[str]:
        """What is in colour."""
        if self.total > MANY:
            return svg.many(self.inks)
        return svg.coloured(self.by_label(), arrows=bool(self.shown.hits))


# The picture


def periods(options: Namespace, files: Source, scene: Scene) -> Iterator[str]:
    """The lines below the picture that say of when the legs are."""
    yield f"Legs of the {files.kind}: {svg.period(files.first, files.last)}"
    hits = scene.shown.hits
    if hits:
        base, is_found = answers.base_of(scene.votes, files.start)
        if options.base is not None:
            base = options.base
        elif not is_found:
            say("draw", f"no leg of the answer is in the files; {FIRST_START} (see --base)")
        first, last = min(hit.first for hit in hits), max(hit.last for hit in hits)
        yield f"Legs in colour: {svg.period(base + first, base + last)}"


def picture(options: Namespace, files: Source, shown: Shown) -> Iterator[str]:
    """The whole SVG text."""
    corners = [options.view[:2], options.view[2:]] if options.view else None
    places = corners or seen(options, files, shown)
    view = View(places, in_degrees(files.crs), exact=bool(corners))
    scene = Scene(view, shown)
    scene.scan(files)
    groups, title = scene.by_label(), shown.title(files)
    rows = svg.key(list(groups), shown.box, files.kind, bool(shown.outlines))
    longest = max(map(labels.text_width, ["the rectangle asked for", *list(groups)[: svg.ROWS]]))
    wide = max(LEFT + WIDTH + 24 + 32 + round(longest), LEFT + round(labels.text_width(title))) + 16
    high = max(TOP + view.height + BELOW, TOP + len(rows) * 20 + 20)
    style = svg.style() + (zones.STYLE if shown.outlines else "")
    yield f'<svg xmlns="http://www.w3.org/2000/svg" viewBox="0 0 {wide} {high}"'
    yield f'  width="{wide}" height="{high}">'
    yield f"<title>{svg.clean(title)}</title><style>{style}</style>"
    yield f'<rect class="paper" width="{wide}" height="{high}"/>'
    yield f'<text class="title" x="{LEFT}" y="24">{svg.clean(title)}</text>'
    yield f'<clipPath id="plot"><rect width="{WIDTH}" height="{view.height}"/></clipPath>'
    yield from plotted(options, scene, groups)
    for place, row in enumerate(rows):
        yield f'<g transform="translate({LEFT + WIDTH + 24} {TOP + 12 + 20 * place})">{row}</g>'
    yield f'<g transform="translate({LEFT} {TOP + view.height + 44})">'
    yield from svg.caption(view, files.crs, options.units, periods(options, files, scene))
    yield "</g></svg>"


def plotted(options: Namespace, scene: Scene, groups: Mapping[str, list[Piece]]) -> Iterator[str]:
    """The plot: the frame's lines, legs, what was asked for, and names."""
    view, box = scene.view, scene.shown.box
    yield f'<g transform="translate({LEFT} {TOP})">'
    yield from svg.ticks(view)
    yield '<g clip-path="url(#plot)">'
    yield svg.path("coast", coast.path(view, options.coast)) if options.coast else ""
    yield from svg.grey(scene.grey)
    yield svg.asked(view, box) if box else ""
    outlines = scene.shown.outlines
    yield from (zones.path(view, outline) for outline in outlines)
    yield from scene.coloured()
    others = [(one, two) for _, one, two in scene.grey.pieces[:600]]
    marks = list(scene.marks(list(groups)))
    yield from svg.rings(marks)
    sides = {outline.name: list(zones.edges(view, outline)) for outline in outlines if outline.name}
    yield from labels.names(view, labels.Named(groups, marks, sides), others, box)
    yield f'</g><rect class="frame" width="{WIDTH}" height="{view.height}"/></g>'


def save(text: str, path: str) -> None:
    """Writes a picture: a PNG by rsvg-convert where the name says so, else the SVG text."""
    if not path.lower().endswith(".png"):
        with beside(path) as out:
            out.write(text)
        return
    with beside(path, "wb") as out:
        ended = subprocess.run(["rsvg-convert"], input=text.encode(), stdout=out, stderr=subprocess.PIPE)
        if ended.returncode:
            said = ended.stderr.decode(errors="replace").strip()
            raise texts.Refused(f"rsvg-convert cannot make {path}: {said}")


# The command line


def words() -> Namespace:
    """The words of the command line."""
    parser = argparse.ArgumentParser(
        description=__doc__, epilog=example(EXAMPLE), formatter_class=argparse.RawDescriptionHelpFormatter
    )
    parser.add_argument("files", metavar="FILE", nargs="*", help="files of legs")
    for name, what in ("box", "the rectangle of the question"), ("view", "what the picture shows"):
        parser.add_argument(f"--{name}", nargs=4, type=texts.number, metavar=("X1", "Y1", "X2", "Y2"), help=what)
    rectangles.add_words(parser, " by its name")
    add_answer(parser)
    parser.add_argument(
        "--moments",
        metavar="FILE",
        help="what mftb moments printed: a ring and the time where a leg crosses an edge",
    )
    parser.add_argument("--whole", action="store_true", help="show all of the files, or of the store")
    add_store(parser)
    parser.add_argument(
        "--units",
        choices=["metres", "miles", "nautical"],
        default="metres",
        help="of the scale bar",
    )
    parser.add_argument(
        "--coast",
        metavar="SHAPEFILE",
        help="coastlines below all, in degrees (needs python3-pyshp); a coarse one of the world is "
        "in Debian's python-cartopy-data: /usr/share/cartopy/data/shapefiles/gshhs/c/GSHHS_c_L1.shp",
    )
    parser.add_argument("-o", dest="output", metavar="OUT", required=True, help="the picture")
    options = parser.parse_intermixed_args()
    wrong = wrong_words(options)
    if wrong:
        parser.error(wrong)
    return options


def add_store(parser: argparse.ArgumentParser) -> None:
    parser.add_argument(
        "--base",
        type=texts.bound,
        metavar="T",
        help="the start instant of the first file that the store took (without: found by the legs "
        "that are in the answer and in the files)",
    )
    parser.add_argument(
        "--store",
        help="the store, which is asked for that instant (mftb info), and without a FILE for the legs in view",
    )
    parser.add_argument(
        "--period",
        nargs=2,
        type=texts.bound,
        metavar=("T1", "T2"),
        help="only the store's legs from one moment to another one",
    )
    parser.add_argument("--program", metavar="MFTB", help=NAMING)


def add_answer(parser: argparse.ArgumentParser) -> None:
    parser.add_argument("--answer", help="what a run printed")
    parser.add_argument("--script", help="the run's script, which has the words of the questions")
    parser.add_argument(
        "--question",
        type=int,
        metavar="N",
        help="draw only the Nth answer (each command has one, load too), with its rectangle, and "
        "with its words and its count in the title",
    )
    parser.add_argument(
        "--label",
        metavar="COLUMN",
        default="mfidref",
        help="the column that names what is coloured (mfidref)",
    )


def wrong_words(options: Namespace) -> str | None:
    """What is wrong with the words of the command line, if something is."""
    for box in options.box, options.view:
        if box and (box[0] > box[2] or box[1] > box[3]):
            return "X1 is above X2, or Y1 above Y2"
    if options.view and (options.view[0] == options.view[2] or options.view[1] == options.view[3]):
        return "--view has no width or no height"
    if not options.files and not options.store:
        return "a FILE is wanted, or --store"
    if options.period and (options.files or not options.store):
        return "--period takes --store, and no FILE"
    if options.period and options.period[0] > options.period[1]:
        return "T1 is after T2"
    if (options.question or options.script) and not options.answer:
        return "--question and --script take --answer"
    kind = Path(options.output).suffix.lower()
    if kind in OTHERS:
        return f"{options.output}: pictures are .svg or .png"
    if kind == ".png" and not shutil.which("rsvg-convert"):
        return f"{options.output} takes rsvg-convert (Debian's package librsvg2-bin)"
    return None


def draw(options: Namespace) -> None:
    """Draws the picture."""
    if options.store:
        store = asking.Store(options.program, options.store)
        store.read_info()
        options.base = store.start
    files: Source = Files(options.files) if options.files else stored.Stored(store, options.period)
    shown = Shown(options, files)
    lines = picture(options, files, shown)
    save("\n".join(line for line in lines if line) + "\n", options.output)


def main() -> int:
    return ended("draw", lambda: draw(words()), "stopped; no file is written")
