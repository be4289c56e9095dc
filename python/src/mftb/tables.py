"""Asks a store, and prints the answers as one table that other programs read.

A row is a leg of an answer to `box`, `legs` or `trajectory`, with its moments as instants, or a
feature of an answer to `features`, with the values of its last leg. What else a script asks has no
row.
"""

from __future__ import annotations

import argparse
import json
import re
import sys
import tempfile
from argparse import Namespace
from collections.abc import Callable, Iterable, Iterator, Sequence
from contextlib import nullcontext
from itertools import groupby, islice
from pathlib import Path
from typing import Any, TextIO

from mftb import playing
from mftb.answers import read_script
from mftb.asking import Row, Store
from mftb.commands import ended, example, say
from mftb.draw.plot import in_degrees
from mftb.legfiles import beside
from mftb.playing import Tracks
from mftb.program import NAMING
from mftb.sources import BATCH
from mftb.texts import Known, field, further_fields

EXAMPLE = """example:
  tools/table harbour.mftb script.txt -o answers.csv
  tools/table harbour.mftb --ask 'legs ever 0 0 1 1 2024-06-03T09:00:00Z 2024-06-03T09:05:00Z'
  tools/table harbour.mftb script.txt --format geojson -o answers.geojson

The columns are: question (its number), words, feature, begin, end, x0, y0, x1, y1 (in three
dimensions x0, y0, z0, x1, y1, z1), and the attributes by their names. csv is for
pandas.read_csv and for .import of sqlite3; wkt is csv with one column wkt in place of the
coordinates; json is a list of objects; geojson is for QGIS, kepler.gl and geopandas.read_file:
there a feature of `features` has its legs in the question's period, or its whole track with
--whole; so it has in gpkg and trips. gpkg is a GeoPackage, whose layers are `legs`, for
QGIS's Temporal Controller, and `tracks`, with moments as M; trips is GeoJSON with a moment a
position, for a trip layer of kepler.gl. The status is 3 where a line was refused.
The answers are those of mftb; this tool is no part of any proof."""
PLAIN = re.compile(r"-?(?:0|[1-9][0-9]*)(?:\.[0-9]+)?(?:[eE][+-]?[0-9]+)?")
NUMBERS = {"integer", "int", "long", "short", "byte", "decimal", "double", "float"}
NUMBERS |= {"nonNegativeInteger", "positiveInteger", "unsignedInt", "unsignedLong"}


class Layout:
    """The columns of the table."""

    def __init__(self, store: Store, is_wkt: bool = False) -> None:
        axes = "xyz"[: store.dimension]
        ends = ["wkt"] if is_wkt else [f"{axis}{end}" for end in "01" for axis in axes]
        self.is_wkt = is_wkt
        self.names = ["question", "words", "feature", "begin", "end", *ends]
        self.types = [kind.split(":")[-1] for _, kind in store.columns]
        self.values = len(self.names)
        for name, _ in store.columns:
            while name in self.names:
                name += "_"
            self.names.append(name)

    def fields(self, row: Row) -> list[Any]:
        """A row as texts."""
        places = [text for place in row.places for text in place]
        if self.is_wkt:
            places = [line_of(row.places)] if places else []
        blank = [""] * (self.values - 5 - len(places))
        values = [*row.values, *[""] * (len(self.types) - len(row.values))]
        return [str(row.number), row.words, row.feature, row.begin, row.end, *places, *blank, *values]

    def lines(self, rows: Iterable[Row]) -> Iterator[str]:
        """Rows as lines of CSV."""
        names, more, width = Known(field), Known(further_fields), len(self.types)
        for row in rows:
            number, words, feature, begin, end, places, values = row
            if not places or len(values) != width or self.is_wkt:
                yield ",".join(map(field, self.fields(row))) + "\n"
                continue
            first, last = places
            ends = f"{','.join(first)},{','.join(last)}"
            yield f"{number},{names[words]},{names[feature]},{begin},{end},{ends}{more[values]}\n"

    def object(self, row: Row) -> dict[str, Any]:
        """A row as an object, without what it does not have."""
        texts = self.fields(row)
        found: dict[str, Any] = {"question": row.number}
        found |= {name: text for name, text in zip(self.names[1:5], texts[1:5]) if text}
        for name, text in zip(self.names[5 : self.values], texts[5:]):
            if text:
                found[name] = Number(text)
        for name, kind, text in zip(self.names[self.values :], self.types, texts[self.values :]):
            if text:
                found[name] = value(kind, text)
        return found


class Number(float):
    """A number that is written with the digits that it was read with."""

    text: str

    def __new__(cls, text: str) -> Number:
        made = super().__new__(cls, text)
        made.text = text
        return made

    def __repr__(self) -> str:
        return self.text


def value(kind: str, text: str) -> Any:
    """A value of a column of a type, as JSON has it."""
    if kind in NUMBERS and PLAIN.fullmatch(text):
        return int(text) if text.lstrip("-").isdigit() else Number(text)
    if kind == "boolean" and text in ("true", "false", "1", "0"):
        return text in ("true", "1")
    return text


def as_json(thing: Any) -> str:
    """An object of texts, numbers and lists as JSON, each number with its own digits."""
    if isinstance(thing, Number):
        return thing.text
    if isinstance(thing, dict):
        return "{" + ", ".join(f"{as_json(key)}: {as_json(it)}" for key, it in thing.items()) + "}"
    if isinstance(thing, (list, tuple)):
        return "[" + ", ".join(map(as_json, thing)) + "]"
    return json.dumps(thing, ensure_ascii=False)


def line_of(places: Sequence[Sequence[str]]) -> str:
    """The line between two places as WKT."""
    height = "Z " if len(places[0]) == 3 else ""
    return f"LINESTRING {height}({', '.join(' '.join(place) for place in places)})"


# What is written


def write_csv(out: TextIO, store: Store, rows: Iterable[Row], is_wkt: bool) -> None:
    layout = Layout(store, is_wkt)
    out.write(",".join(map(field, layout.names)) + "\n")
    lines = layout.lines(rows)
    while found := list(islice(lines, BATCH)):
        out.write("".join(found))


def write_list(out: TextIO, rows: Iterable[Row], shown: Callable[[Row], Any], start: str, end: str) -> None:
    """Objects, one a line."""
    out.write(start)
    between = "\n"
    for row in rows:
        out.write(between + as_json(shown(row)))
        between = ",\n"
    out.write(f"\n{end}\n")


def write_json(out: TextIO, store: Store, rows: Iterable[Row]) -> None:
    layout = Layout(store)
    write_list(out, rows, layout.object, "[", "]")


def write_geojson(out: TextIO, store: Store, rows: Iterable[Row], tracks: Tracks) -> None:
    """A map's features: RFC 7946."""
    layout = Layout(store)
    ends = set(layout.names[5 : layout.values])

    def shown(row: Row) -> dict[str, Any]:
        said = {name: it for name, it in layout.object(row).items() if name not in ends}
        ways = [row] if row.begin else tracks.of(row)
        return {"type": "Feature", "geometry": geometry(ways), "properties": said}

    write_list(out, rows, shown, '{"type": "FeatureCollection", "features": [', "]}")


def geometry(legs: Iterable[Row]) -> dict[str, Any] | None:
    """Legs as a line, or as several where there are gaps."""
    lines: list[list[list[Number]]] = []
    for leg in legs:
        first, last = ([Number(text) for text in place] for place in leg.places)
        if lines and lines[-1][-1] == first:
            lines[-1].append(last)
        else:
            lines.append([first, last])
    if not lines:
        return None
    if len(lines) == 1:
        return {"type": "LineString", "coordinates": lines[0]}
    return {"type": "MultiLineString", "coordinates": lines}


# The run


def full_rows(rows: Iterable[Row | None], tracks: Tracks) -> Iterator[Row]:
    """The rows, those of features with the moments and the values of their last legs."""
    for row in rows if tracks.legs else filter(None, rows):
        if row is None:
            continue
        track = tracks.legs.get(row.feature) if not row.begin else None
        yield row._replace(values=track[-1].values) if track else row


def features_of(rows: Iterable[Row | None]) -> list[str]:
    return list(dict.fromkeys(row.feature for row in rows if row and not row.begin))


def write(options: Namespace, store: Store, rows: Iterable[Row | None], tracks: Tracks) -> None:
    """The table of all answers, or a file for each."""
    full = full_rows(rows, tracks)
    if options.question:
        full = (row for row in full if row.number == options.question)
    if not options.split:
        with beside(options.output, mode_of(options)) if options.output else nullcontext(sys.stdout) as out:
            write_one(options, store, full, tracks, out)
        return
    kind = {"wkt": "csv", "trips": "geojson"}.get(options.format, options.format)
    Path(options.split).mkdir(exist_ok=True)
    for number, own in groupby(full, lambda row: row.number):
        with beside(str(Path(options.split, f"question-{number}.{kind}")), mode_of(options)) as out:
            write_one(options, store, own, tracks, out)


def mode_of(options: Namespace) -> str:
    return "wb" if options.format == "gpkg" else "w"


def write_one(options: Namespace, store: Store, rows: Iterable[Row], tracks: Tracks, out: Any) -> None:
    if options.format == "json":
        write_json(out, store, rows)
    elif options.format == "geojson":
        write_geojson(out, store, rows, tracks)
    elif options.format == "trips":
        playing.write_trips(out, rows, tracks)
    elif options.format == "gpkg":
        playing.write_geopackage(out, store.crs, store.dimension, store.columns, rows, tracks)
    else:
        write_csv(out, store, rows, options.format == "wkt")


def table(options: Namespace) -> int:
    """Runs the script, and then asks for the tracks of the features that were named."""
    store = Store(options.program, options.store)
    with tempfile.NamedTemporaryFile("w", suffix=".txt") as lines:
        lines.write("".join(f"{line}\n" for line in options.ask))
        lines.flush()
        script = options.script or lines.name
        # Without a file nothing is loaded, so a store that is absent is a mistake.
        words = ["--explain"] if options.files else ["--explain", "--existing"]
        out, is_refused = store.run(script, options.files, words)
        with out:
            store.read_info()
            asks = any(line.startswith("features") for line in read_script(script))
            legs = store.tracks(features_of(store.rows(out, script))) if asks else {}
            write(options, store, store.rows(out, script), Tracks(legs, options.whole))
    if options.format in ("geojson", "trips") and not in_degrees(store.crs):
        say("table", f"{store.crs}: GeoJSON's coordinates are taken as degrees")
    return 3 if is_refused else 0


# The command line


def words() -> Namespace:
    parser = argparse.ArgumentParser(
        description=__doc__, epilog=example(EXAMPLE), formatter_class=argparse.RawDescriptionHelpFormatter
    )
    parser.add_argument("store", metavar="STORE", help="the file that keeps the database")
    parser.add_argument("script", metavar="SCRIPT", nargs="?", help="the script")
    parser.add_argument("files", metavar="FILES", nargs="*", help="the files that it may load")
    parser.add_argument("--ask", action="append", default=[], metavar="LINE", help="a line in place of a script")
    parser.add_argument("--question", type=int, metavar="N", help="only the Nth answer")
    parser.add_argument("--format", choices=["csv", "json", "geojson", "wkt", "gpkg", "trips"], default="csv")
    parser.add_argument("--whole", action="store_true", help="the whole tracks of the features that were named")
    parser.add_argument("-o", dest="output", metavar="OUT", help="the table (standard output)")
    parser.add_argument("--split", metavar="DIR", help="a file a question in this folder")
    parser.add_argument("--program", metavar="MFTB", help=NAMING)
    # The script and the files may stand behind options.
    options = parser.parse_intermixed_args()
    if bool(options.script) == bool(options.ask):
        parser.error("a SCRIPT is wanted, or --ask")
    if options.split and options.output:
        parser.error("-o or --split")
    if options.format == "gpkg" and not (options.output or options.split):
        parser.error("--format gpkg is written to a file: -o or --split")
    return options


def main() -> int:
    return ended("table", lambda: table(words()))
