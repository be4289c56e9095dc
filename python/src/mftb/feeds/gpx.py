"""Tracks of GPX 1.1 files as a file of legs, in the profile of docs/user/FILES.md.

A feature is a track, by its name; x is the longitude, y the latitude, z with --3d the elevation.
"""

from __future__ import annotations

from argparse import Namespace
from collections import Counter
from collections.abc import Iterator, Sequence
from pathlib import Path
from typing import IO
from xml.parsers import expat

from mftb import sources, texts
from mftb.feeds import arguments, conversion
from mftb.feeds.judging import Batch, Item, Judge
from mftb.feeds.positions import Position

EXAMPLE = """example:
  tools/from_gpx --columns ele=xsd:decimal morning.gpx evening.gpx -o rides.csv

A track without a name gets its file's. Tracks of one name are one feature, unless --apart is
given; no leg joins two segments. --columns takes what stands in a point, such as ele or hdop, or
else in its track, such as type. --join joins segments, as where a logger begins a new file each
day. Points may come in any order; where a track goes back in time, all are sorted on disk, and that
is said. Routes and waypoints have no moments, and are not read.
This tool is no part of any proof."""

BLANKS = b" \t\r\n\xef\xbb\xbf"
TRACK, SEGMENT, POINT = "/gpx/trk", "/gpx/trk/trkseg", "/gpx/trk/trkseg/trkpt"


class Tracks:
    """The names of the tracks of all files, and the number of segments so far."""

    def __init__(self, options: Namespace) -> None:
        self.options, self.segments = options, 0
        self.taken: Counter[str] = Counter()

    def name(self, given: str, path: str, number: int) -> str:
        """The feature's name of a track, the file's `number`th."""
        name = given or file_name(path) + (f" {number}" if number > 1 else "")
        self.taken[name] += 1
        if self.options.apart and self.taken[name] > 1:
            return f"{name} {self.taken[name]}"
        return name

    def segment(self) -> int:
        """The number of the segment, where they are not joined."""
        return 0 if self.options.join else self.segments


def file_name(path: str) -> str:
    """A file's name, as a track without one has it."""
    name = Path(path).name
    for end in (".gz", ".zip", ".gpx"):
        name = name[: -len(end)] if name.lower().endswith(end) and name != end else name
    return "track" if path == "-" else name


class File:
    """What is read of one file: after each piece, `found` has the points that ended in it."""

    def __init__(self, path: str, tracks: Tracks) -> None:
        self.path, self.tracks = path, tracks
        self.found: list[tuple[int, Item]] = []
        self.place, self.number, self.line = "", 0, 0
        self.text: list[str] = []
        self.track: dict[str, str] = {}
        self.point: dict[str, str] = {}
        self.feature: str | None = None
        self.parser = expat.ParserCreate(namespace_separator=" ")
        self.parser.buffer_text = True
        self.parser.StartElementHandler = self.start
        self.parser.EndElementHandler = self.end
        self.parser.CharacterDataHandler = self.text.append

    def parse(self, piece: bytes) -> None:
        """Reads the next piece; an empty one ends the file."""
        try:
            self.parser.Parse(piece, not piece)
        except expat.ExpatError as why:
            said = expat.errors.messages[why.code]
            raise texts.Refused(f"{self.path} line {why.lineno}: not well-formed: {said}") from None

    def start(self, tag: str, attributes: dict[str, str]) -> None:
        self.place += "/" + tag.rpartition(" ")[2]
        self.text.clear()
        if not self.place.startswith("/gpx"):
            raise texts.Refused(f"{self.path} is not GPX: it begins with {self.place[1:]!r}")
        if self.place == TRACK:
            self.number, self.track, self.feature = self.number + 1, {}, None
        elif self.place == SEGMENT:
            self.tracks.segments += 1
        elif self.place == POINT:
            self.point, self.line = dict(attributes), self.parser.CurrentLineNumber

    def end(self, _: str) -> None:
        text = "".join(self.text).strip()
        self.text.clear()
        above, _, tag = self.place.rpartition("/")
        if self.place == POINT:
            self.found.append((self.line, self.position()))
        elif above.startswith(POINT):
            self.point.setdefault(tag, text)
        elif above == TRACK:
            self.track[tag] = text
        self.place = above

    def position(self) -> Item:
        """The position of the point that ended, or why there is none."""
        options = self.tracks.options
        if self.feature is None:
            self.feature = self.tracks.name(self.track.get("name", ""), self.path, self.number)
        try:
            feature = texts.feature_name(self.feature, "the track's name")
            x, y, time = (self.own(name) for name in ("lon", "lat", "time"))
            place = texts.degrees(x, y, ("lon", "lat"))
            if options.three:
                place += (texts.plain_decimal(self.own("ele"), "ele"),)
            values = tuple([self.value(names) for names in options.kept.names])
            return Position(feature, moment(time), place, values, self.tracks.segment())
        except (texts.BadLine, texts.LeftOut) as why:
            return why

    def value(self, names: Sequence[str]) -> str:
        """What the point, or else its track, has under the first of these names."""
        for name in names:
            if name in self.point or name in self.track:
                self.tracks.options.kept.missing.discard(names[0])
                return self.point.get(name, self.track.get(name, ""))
        return ""

    def own(self, name: str) -> str:
        """What the point has under a name."""
        if name not in self.point:
            raise texts.BadLine(f"the point has no {name!r}")
        return self.point[name]


def moment(text: str) -> int:
    try:
        return texts.read_instant(text)
    except ValueError:
        raise texts.BadLine(f"time {text!r} is no instant of the form yyyy-mm-ddThh:mm:ssZ") from None


def reader(options: Namespace) -> conversion.FileReader:
    tracks = Tracks(options)
    return lambda path, judge: read(path, tracks, judge)


def read(path: str, tracks: Tracks, judge: Judge) -> Iterator[Batch]:
    """What is judged of a file's points, some at once."""
    file = File(path, tracks)
    with sources.opened(path) as source:
        piece = skip_blanks(source)
        if not piece:
            return
        # In any encoding the first sign is <, perhaps behind a mark.
        if b"<" not in piece.lstrip(BLANKS)[:4]:
            raise texts.Refused(f"{path} is not GPX: it does not begin with '<' (see tools/from_csv)")
        while piece:
            file.parse(piece)
            for numbers, items in sources.batches(iter(file.found)):
                yield judge(numbers, items)
            file.found.clear()
            piece = source.read(1 << 16)
        file.parse(b"")


def skip_blanks(source: IO[bytes]) -> bytes:
    """The first piece that has more than blanks; nothing where there is none."""
    piece = source.read(1 << 16)
    while piece and not piece.strip(BLANKS):
        piece = source.read(1 << 16)
    return piece


def parse(given: Sequence[str] | None = None) -> Namespace:
    """The options of the command line, or of words that are given."""
    words = arguments.words(
        __doc__,
        EXAMPLE,
        gap="5m",
        why="since a logger that is on writes at least each minute",
        most="off",
        usual="1200km/h",
    )
    words.add_argument(
        "--3d",
        dest="three",
        action="store_true",
        help=f"the elevation as z; --crs is then {arguments.WITH_ELEVATION}",
    )
    words.add_argument(
        "--apart",
        action="store_true",
        help="each track a feature of its own: a second one of a name gets a 2",
    )
    words.add_argument("--join", action="store_true", help="legs join segments too, where the gap allows")
    options = words.parse_args(given)
    if options.three:
        options.dimension = "3D"
    if options.three and options.crs == arguments.LONGITUDE_LATITUDE:
        options.crs = arguments.WITH_ELEVATION
    return options


def main() -> int:
    return conversion.run("from_gpx", parse(), reader, "point")
