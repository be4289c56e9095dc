"""Where features ended: what one conversion leaves for the next one (--after and --state)."""

from __future__ import annotations

import csv
import io
import json
import tempfile
from argparse import Namespace
from collections.abc import Iterable, Iterator, Mapping
from typing import TYPE_CHECKING, TextIO, TypeAlias

from mftb.asking import Store
from mftb.legfiles import LegFile
from mftb.sources import opened
from mftb.texts import BadLine, Refused, instant, plain_decimal, read_instant

if TYPE_CHECKING:
    from mftb.feeds.positions import Position

# A feature, and the moment, the place and the values of its last position.
End: TypeAlias = tuple[str, int, tuple[str, ...], tuple[str, ...]]
MARK = "mftb feed state"
# What a store's page 0 has behind its first eight bytes.
MAGIC = b"MFTB"


def kind(path: str) -> str:
    """What a file is: a `state`, a `store`, a file of `legs`, or a `feed`."""
    with opened(path) as raw:
        start = raw.read(100)
    if start[8:12] == MAGIC:
        return "store"
    start = start.lstrip(b"\xef\xbb\xbf \t\r\n")
    if start.startswith(b'{"' + MARK.encode()):
        return "state"
    return "legs" if start.startswith(b"@") else "feed"


def read_state(path: str, options: Namespace) -> Iterator[End]:
    """The last position of each feature of a state: its moment, its place and its values."""
    try:
        with opened(path) as raw:
            state = json.loads(raw.read().decode())
        agree(options, state["crs"], state["dimension"], [(name, kind) for name, kind in state["columns"]])
        for name, (moment, place, values) in state["features"].items():
            yield name, read_instant(moment), coordinates(place), tuple(map(str, values))
    except (ValueError, KeyError, TypeError, AttributeError, BadLine):
        raise Refused(f"{path} is no state that --state left") from None


def read_legs(path: str, options: Namespace) -> Iterator[End]:
    """The last position of each feature of a file of legs."""
    file = LegFile(path)
    ends: dict[str, tuple[int, tuple[str, ...], tuple[str, ...]]] = {}
    for name, _, last, trajectory, *values in file:
        try:
            moment = file.milliseconds(last)
            if name not in ends or ends[name][0] <= moment:
                place = coordinates(" ".join(trajectory.split()[-file.dimension :]))
                ends[name] = moment, place, tuple(values)
        except (ValueError, BadLine):
            raise file.refused() from None
    columns = zip(file.columns, file.types)
    agree(options, file.head[1], f"{file.dimension}D", columns)
    for name, end in ends.items():
        yield name, *end


def read_store(path: str, options: Namespace) -> Iterator[tuple]:
    """The last position of each feature of a store: where its last leg ends."""
    store = Store(getattr(options, "program", None), path)
    ends: dict[str, tuple[int, tuple[str, ...], tuple[str, ...]]] = {}
    store.read_info()
    agree(options, store.crs, f"{store.dimension}D", store.columns)
    if not store.extent:
        return
    box = " ".join(map(str, store.extent))
    with tempfile.NamedTemporaryFile("w", suffix=".txt") as script:
        script.write(f"legs ever {box} {instant(store.first)} {instant(store.last)}\n")
        script.flush()
        out, _ = store.run(script.name, words=("-q", "--existing"))
        with out:
            for row in filter(None, store.rows(out, script.name)):
                moment = read_instant(row.end)
                if row.feature not in ends or ends[row.feature][0] < moment:
                    ends[row.feature] = moment, tuple(row.places[-1]), row.values
    for name, end in ends.items():
        yield name, *end


def coordinates(place: str) -> tuple[str, ...]:
    return tuple(plain_decimal(text, "a coordinate") for text in place.split())


class OtherWords(Refused):
    """That what came before was made with other words."""


def agree(options: Namespace, crs: str, dimension: str, columns: Iterable[tuple[str, str]]) -> None:
    """Refuses what was made with other words, since one store would not take both."""
    for what, there, here in [
        ("--crs", crs, options.crs),
        ("dimension", dimension, options.dimension),
        ("--columns", words_of(columns), words_of(options.written)),
    ]:
        if there != here:
            raise OtherWords(f"{options.before} was made with another {what}: {there!r}, here {here!r}")


def words_of(columns: Iterable[tuple[str, str]]) -> str:
    """Columns as --columns takes them."""
    pairs = (name if kind == "xsd:string" else f"{name}={kind}" for name, kind in columns)
    out = io.StringIO()
    csv.writer(out, lineterminator="").writerow(pairs)
    return out.getvalue()


def write_state(out: TextIO, options: Namespace, ends: Mapping[str, Position]) -> None:
    """Writes the last position of each feature, a line each."""
    head = {MARK: 1, "crs": options.crs, "dimension": options.dimension}
    start = json.dumps({**head, "columns": options.written}, ensure_ascii=False)
    out.write(start[:-1] + ', "features": {')
    for number, (name, end) in enumerate(ends.items()):
        fields = instant(end.moment), " ".join(end.place), end.values
        texts = (json.dumps(it, ensure_ascii=False) for it in (name, fields))
        out.write(("," if number else "") + "\n" + ": ".join(texts))
    out.write("\n}}\n")
