"""Pages of the examples, made without the program: the files of legs are read as they stand."""

import io
from pathlib import Path

from common import ROOT

from mftb.legfiles import LegFile
from mftb.page import layers
from mftb.page.data import Head, Legs
from mftb.page.layers import Wanted
from mftb.rectangles import Rectangle
from mftb.texts import exact_units
from mftb.page.writing import Page, write

EXAMPLES = ROOT / "examples"


def legs_of(*paths: Path) -> Legs:
    """The legs of files, cut as the file format cuts them; the base is the first one's start."""
    legs: Legs | None = None
    for path in paths:
        file = LegFile(str(path))
        for row in file:
            if legs is None:
                head = Head(file.head[1], file.dimension, file.start, list(zip(file.columns, file.types)))
                legs = Legs(head)
            take(legs, file, row)
    assert legs
    return legs


def take(legs: Legs, file: LegFile, row: list[str]) -> None:
    """Takes the legs of a record."""
    base, step = legs.head.base, legs.head.dimension
    begin, end = (file.milliseconds(text) - base for text in row[1:3])
    numbers = list(map(exact_units, row[3].split()))
    places = [tuple(numbers[place : place + step]) for place in range(0, len(numbers), step)]
    places = places if len(places) > 1 else places * 2
    count = len(places) - 1
    for leg in range(count):
        first, last = (begin + (end - begin) * number // count for number in (leg, leg + 1))
        legs.add(row[0], first, last, places[leg], places[leg + 1], tuple(row[4:]))


def harbour() -> Page:
    """The harbour with all answers, its rectangle, and one crossing as `mftb moments` says it."""
    folder = EXAMPLES / "harbour"
    legs = legs_of(folder / "harbour.csv")
    page = Page("Harbour <mouth> & sea", legs)
    page.rectangles = [Rectangle("mouth", ("-60.3", "0", "60.3", "0"))]
    page.layers = layers.read(str(folder / "answer.txt"), legs, Wanted(str(folder / "script.txt")))
    crossing = (
        "feature,enters,leaves,enters_at,leaves_at,x_in,y_in,x_out,y_out,enters_by,leaves_by\n"
        "Ekko,5130000/7,5130000/7,2024-06-03T09:02:12.857142Z,2024-06-03T09:02:12.857143Z,-60.3,0,-60.3,0,edge,edge\n"
    )
    page.layers.append(layers.moments(io.StringIO(crossing), "moments", "inside mouth", legs))
    return page


def many(features: int, legs_each: int) -> Page:
    """Features that go round in circles, a leg a minute."""
    legs = Legs(Head("urn:ogc:def:crs:OGC:1.3:CRS84", base=1_717_372_800_000, columns=[("kind", "xsd:token")]))
    turns = [(0, 0), (30_000, 10_000), (40_000, 40_000), (10_000, 50_000), (-20_000, 20_000)]
    for feature in range(features):
        across, up = 120_000_000 + feature % 97 * 400_000, 550_000_000 + feature % 89 * 300_000
        places = [(across + turns[leg % 5][0], up + turns[leg % 5][1] + leg * 900) for leg in range(legs_each + 1)]
        for leg in range(legs_each):
            times = leg * 60_000, (leg + 1) * 60_000
            legs.add(f"ship {feature}", *times, places[leg], places[leg + 1], ("cargo",))
    return Page("many", legs)


def written(page: Page, path: Path) -> Path:
    """The file of a page."""
    with open(path, "w", encoding="utf-8") as out:
        write(page, out)
    return path
