"""Writes a store as one page for a browser: a map that pans, zooms and plays.

The page is one file, and needs no network. The store's legs are grey tracks; over them lie
rectangles, zones, and answers in colour. A click on a leg or on a crossing says which feature it is,
when it was there, and its attributes.
"""

import argparse
import os
from pathlib import Path

from mftb import rectangles, texts, zonefiles
from mftb.commands import ended, example, say
from mftb.legfiles import beside
from mftb.page import layers, reading
from mftb.page.data import Legs
from mftb.page.layers import Layer, Wanted
from mftb.page.reading import Period
from mftb.page.writing import Page, write
from mftb.program import NAMING
from mftb.rectangles import Rectangle, checked

EXAMPLE = """example:
  tools/page harbour.mftb --rect mouth=-60.3,0,60.3,0 -o map.html
  tools/page harbour.mftb --answers answer.txt --script script.txt -o map.html
  tools/page harbour.mftb --zones ports.csv --answers visits.csv --title Ports -o map.html

For a rectangle the program is asked when each leg is inside (mftb moments), so that the page has
the exact moment of each crossing. An answer is what mftb run printed (legs, box, trajectory,
features), or mftb moments (--visits too). Of several answers the first one is shown, and the page's
list shows the others. Zones are CSV with the columns name and wkt: POLYGON, MULTIPOLYGON or
LINESTRING. Open the page from its file, in a browser of 2023 or later. This tool is no part of any proof."""
FAILED = 2


def words() -> argparse.ArgumentParser:
    """The words of the command line."""
    parser = argparse.ArgumentParser(
        description=__doc__, epilog=example(EXAMPLE), formatter_class=argparse.RawDescriptionHelpFormatter
    )
    parser.add_argument("store", metavar="STORE", help="the file that keeps the database")
    parser.add_argument("-o", dest="output", metavar="OUT", required=True, help="the page")
    parser.add_argument("--title", help="the page's title (the store's name)")
    add_places(parser)
    add_answers(parser)
    parser.add_argument(
        "--period",
        nargs=2,
        type=texts.bound,
        metavar=("T1", "T2"),
        help="only the legs from one moment to another one",
    )
    parser.add_argument("--units", choices=["metres", "miles", "nautical"], default="metres", help="of the scale bar")
    parser.add_argument("--program", metavar="MFTB", help=NAMING)
    return parser


def add_places(parser: argparse.ArgumentParser) -> None:
    """The words that name places."""
    rectangles.add_words(parser, ", and the crossings of its edges; without width or height it is a line")
    parser.add_argument(
        "--box",
        action="append",
        default=[],
        nargs=4,
        metavar=("X1", "Y1", "X2", "Y2"),
        help="a rectangle without a name",
    )


def add_answers(parser: argparse.ArgumentParser) -> None:
    """The words that name answers."""
    parser.add_argument(
        "--answers",
        "--answer",
        "--moments",
        action="append",
        default=[],
        metavar="FILE",
        help="what mftb run or mftb moments printed",
    )
    parser.add_argument("--script", help="the run's script, which has the words of the questions")
    parser.add_argument(
        "--question", type=int, metavar="N", help="only the Nth answer (each command has one, load too)"
    )
    parser.add_argument("--label", metavar="COLUMN", default="mfidref", help="the column that names features (mfidref)")


def page_of(options: argparse.Namespace) -> Page:
    """The page that was asked for."""
    period = Period(*options.period) if options.period else None
    legs = reading.read(options.store, options.program, period)
    title = options.title or Path(options.store).name
    page = Page(title, legs, label=label_of(options.label, legs), units=options.units)
    page.zones = [zone for path in options.zones for zone in zonefiles.read(path)]
    given = [*options.rect, *(one for path in options.rects for one in rectangles.read(path))]
    page.rectangles = [named(it, place) for place, it in enumerate(given, 1)]
    wanted = Wanted(options.script, options.question)
    for path in options.answers:
        page.layers += layers.read(path, legs, wanted)
    whole = period or span_of(legs)
    page.layers += [inside(it, options, legs, whole) for it in page.rectangles]
    return page


def inside(given: Rectangle, options: argparse.Namespace, legs: Legs, period: Period) -> Layer:
    """When legs are inside a rectangle."""
    return layers.inside(given, options.store, options.program, legs, period)


def named(given: Rectangle, place: int) -> Rectangle:
    """A rectangle with a name."""
    return given if given.name else Rectangle(f"rectangle {place}", given.sides)


def span_of(legs: Legs) -> Period:
    """From the first moment of legs to the last one."""
    first = min(track.times[0] for track in legs.tracks.values())
    last = max(track.times[-1] for track in legs.tracks.values())
    return Period(legs.head.base + first, legs.head.base + last)


def label_of(column: str, legs: Legs) -> int | None:
    """The place of the column that names features; nothing if the name itself does."""
    if column == "mfidref":
        return None
    for place, (name, _) in enumerate(legs.head.columns):
        if name == column:
            return place
    raise texts.Refused(f"there is no column {column!r}")


def save(options: argparse.Namespace) -> Page:
    """Reads the store, and writes the page."""
    page = page_of(options)
    with beside(options.output) as out:
        write(page, out)
    return page


def work(options: argparse.Namespace) -> int:
    """Writes the page, and says what is in it."""
    page = save(options)
    count = page.legs.count()
    what = f"{texts.several(count.legs, 'leg')} of {texts.several(count.features, 'feature')}"
    size = os.path.getsize(options.output) if os.path.isfile(options.output) else 0
    say("page", f"{options.output}: {what}, {size / 1e6:.1f} MB")
    return 0


def main() -> int:
    """The command `mftb-page`."""
    parser = words()
    options = parser.parse_args()
    try:
        options.rect += [checked(Rectangle("", tuple(sides))) for sides in options.box]
    except argparse.ArgumentTypeError as why:
        parser.error(f"argument --box: {why}")
    if options.period and options.period[0] > options.period[1]:
        parser.error("argument --period: T1 is after T2")
    if (options.question or options.script) and not options.answers:
        parser.error("--question and --script take --answers")
    status = ended("page", lambda: work(options), "stopped; no file is written")
    return FAILED if status == 1 else status
