"""Answers as frames of pandas and geopandas, which are imported when they are asked for."""

from __future__ import annotations

import gc
import io
from collections.abc import Iterable, Iterator, Sequence
from contextlib import contextmanager
from dataclasses import fields
from functools import partial
from typing import TYPE_CHECKING, Any

import numpy
import pandas

from mftb.forms import EPOCH, MILLISECOND, Form, LegForm, MomentForm, StayForm, VisitForm, exact
from mftb.runs import Printed

if TYPE_CHECKING:
    import geopandas

FRACTIONS = {"decimal", "double", "float"}
NUMBERS = {
    "integer",
    "int",
    "long",
    "short",
    "byte",
    "nonNegativeInteger",
    "positiveInteger",
    "unsignedInt",
} | FRACTIONS
# Below this each whole number is a double.
WHOLE = 2.0**53
TRUTH = {"true": True, "1": True, "false": False, "0": False}
COMMA, SPACE, QUOTE = b', "'
# The program keeps coordinates in units of this part of one.
UNITS = 1e7
AXES = "xyz"
ENDS = [f"{axis}_{end}" for axis in AXES for end in ("in", "out")]


def frame(printed: Printed, form: Form, with_exact: bool = False) -> pandas.DataFrame:
    """The records as a frame."""
    if isinstance(form, LegForm):
        return legs(printed.read(), printed.count, form)
    if isinstance(form, MomentForm):
        return moments(printed.read(), form, with_exact)
    if not form.names:
        raise TypeError("the records of this answer are no table: iterate over them")
    return texts(printed.read(), form.names)


def of_records(records: Sequence[Any]) -> pandas.DataFrame:
    """Records as a frame: fractions are seconds, as doubles."""
    rows = [{it.name: getattr(record, it.name) for it in fields(record)} for record in records]
    found = pandas.DataFrame(rows)
    return found.assign(seconds=found["seconds"].astype(float)) if "seconds" in found else found


def texts(data: bytes, names: Sequence[str]) -> pandas.DataFrame:
    """Records of texts."""
    if not data:
        return pandas.DataFrame({name: pandas.Series([], dtype=object) for name in names})
    return pandas.read_csv(
        io.BytesIO(data), header=None, names=list(names), dtype=str, keep_default_na=False, engine="c"
    )


# Legs


def legs(data: bytes, count: int, form: LegForm) -> pandas.DataFrame:
    """Legs: the feature, its moments, its places and its attributes."""
    axes = AXES[: form.dimension]
    places = [f"{axis}{end}" for end in "01" for axis in axes]
    values = unlike([name for name, _ in form.columns], ["feature", "begin", "end", *places])
    types = {name: kind.rpartition(":")[2] for name, (_, kind) in zip(values, form.columns)}
    found = spread(data, count, places, types)
    made = {"feature": found["feature"].astype(object)}
    made |= {name: instants(form, found[name].to_numpy()) for name in ("begin", "end")}
    # A whole number of units over their number is the double that is next to the decimal.
    made |= {name: numpy.rint(found[name].to_numpy() * UNITS) / UNITS for name in places}
    made |= {name: typed(found[name], kind) for name, kind in types.items()}
    return pandas.DataFrame(made, copy=False)


def unlike(names: Sequence[str], taken: Sequence[str]) -> list[str]:
    """Names of columns, each with as many `_` behind it as it takes to be a new one."""
    found = list(taken)
    for name in names:
        while name in found:
            name += "_"
        found.append(name)
    return found[len(taken) :]


def spread(data: bytes, count: int, places: Sequence[str], types: dict[str, str]) -> pandas.DataFrame:
    """The fields of legs, with a column for each coordinate; attributes are numbers where their type says so."""
    kinds: dict[str, Any] = {"feature": "category", "begin": float, "end": float} | dict.fromkeys(places, float)
    kinds |= {name: float if kind in NUMBERS else "category" for name, kind in types.items()}
    if not count:
        return pandas.DataFrame({name: pandas.Series([], dtype=kind) for name, kind in kinds.items()})
    if QUOTE not in data:
        return parsed(with_commas(data, count, 3 + len(types), len(places) - 1), kinds, types)
    short = {"feature": "category", "begin": float, "end": float, "places": str} | {name: kinds[name] for name in types}
    found = parsed(data, short, types)
    split = numpy.fromstring(" ".join(found.pop("places")), sep=" ").reshape(count, len(places))
    return found.assign(**{name: split[:, place] for place, name in enumerate(places)})


def parsed(data: Any, kinds: dict[str, Any], types: Iterable[str]) -> pandas.DataFrame:
    """The fields of records; an attribute with a value that is no number is read as texts."""
    blank = {name: [""] for name in types if kinds[name] is float}
    read = partial(pandas.read_csv, header=None, names=list(kinds), engine="c", lineterminator="\n", low_memory=False)
    read = partial(read, na_filter=bool(blank), keep_default_na=False, na_values=blank or None)
    try:
        return read(io.BytesIO(data), dtype=kinds)
    except ValueError:
        return read(io.BytesIO(data), dtype=kinds | dict.fromkeys(blank, str), na_filter=False)


def with_commas(data: bytes, count: int, commas: int, spaces: int) -> Any:
    """The records, without quotes, with commas for the blanks between coordinates.

    Each record has so many commas, and so many blanks between its coordinates.
    """
    if data.count(b" ") == count * spaces:
        return data.replace(b" ", b",")
    signs = numpy.frombuffer(bytearray(data), numpy.uint8)
    third = numpy.flatnonzero(signs == COMMA).reshape(count, commas)[:, 2]
    blanks = numpy.flatnonzero(signs == SPACE)
    first: Any = numpy.searchsorted(blanks, third)
    signs[blanks[first[:, None] + numpy.arange(spaces)]] = COMMA
    return signs


def instants(form: LegForm, seconds: numpy.ndarray) -> Any:
    """Moments so many seconds after the store's start, exactly: these have at most three digits behind the point."""
    start = (form.start - EPOCH) // MILLISECOND
    offsets = numpy.rint(seconds * 1000).astype("int64")
    try:
        return pandas.to_datetime(offsets + start, unit="ms", utc=True)
    except pandas.errors.OutOfBoundsDatetime:
        # pandas keeps no moment before 1677 or after 2262.
        return numpy.array([form.start + int(it) * MILLISECOND for it in offsets], dtype=object)


def typed(column: pandas.Series, kind: str) -> pandas.Series:
    """A column of attributes as its type says, if all its values are of that type; else as texts."""
    if column.dtype == float:
        is_whole = kind not in FRACTIONS and column.notna().all() and (column.abs() < WHOLE).all()
        return column.astype("int64") if is_whole and (column % 1 == 0).all() else column
    if kind == "boolean" and set(column) <= set(TRUTH):
        return column.map(TRUTH).astype(bool)
    return column.astype(object)


# Moments


def moments(data: bytes, form: MomentForm, with_exact: bool) -> pandas.DataFrame:
    """Stays, visits or dwells, under the program's own names.

    The exact moments are left out unless they are asked for, since no column of pandas keeps them.
    """
    columns = form.columns if isinstance(form, StayForm) else ()
    own = list(form.names or ())[: -len(columns) or None]
    values = unlike([name for name, _ in columns], [*own, *ENDS])
    found = texts(data, own + values)
    for name, (_, kind) in zip(values, columns):
        found[name] = typed(numbered(found[name], kind.rpartition(":")[2]), kind.rpartition(":")[2])
    for name in own:
        if name in ("enters", "leaves"):
            column = found.pop(name)
            if with_exact:
                found[name] = [exact(text, form.start) for text in column]
        elif name.endswith("_at"):
            found[name] = pandas.to_datetime(found[name], utc=True)
        elif name in ENDS or name in ("least", "most"):
            found[name] = found[name].astype(float)
        elif name in ("legs", "visits"):
            found[name] = found[name].astype("int64")
    return found


def numbered(column: pandas.Series, kind: str) -> pandas.Series:
    """Texts of attributes as numbers, if their type says so and all are; blank ones are none."""
    if kind not in NUMBERS:
        return column
    try:
        return column.mask(column == "").astype(float)
    except ValueError:
        return column


# Geometries


def geoframe(printed: Printed, form: Form, crs: str | None) -> geopandas.GeoDataFrame:
    """The records with a geometry: the line of a leg, a stay or a gap, and where a visit begins."""
    import geopandas

    found = frame(printed, form)
    ends = ("0", "1") if isinstance(form, LegForm) else ("_in", "_out")
    axes = [axis for axis in AXES if f"{axis}{ends[0]}" in found]
    if not axes:
        raise TypeError("these records have no places: ask .legs or .trajectory")
    if isinstance(form, VisitForm):
        geometry = geopandas.points_from_xy(*(found[f"{axis}_in"] for axis in axes))
    else:
        both = [found[[f"{axis}{end}" for axis in axes]].to_numpy() for end in ends]
        geometry = geopandas.array.GeometryArray(lines(numpy.stack(both, axis=1)))
    return geopandas.GeoDataFrame(found, geometry=geometry, crs=known(crs))


def lines(places: numpy.ndarray) -> Any:
    """Lines between two places each."""
    import shapely

    if hasattr(shapely, "linestrings"):
        return shapely.linestrings(places)
    from shapely.geometry import LineString

    # One by one, since numpy asks each line of a list for its coordinates.
    found = numpy.empty(len(places), dtype=object)
    with uncollected():
        for place, pair in enumerate(places.tolist()):
            found[place] = LineString(pair)
    return found


@contextmanager
def uncollected() -> Iterator[None]:
    """Keeps the collector of garbage from going through many new things, none of which is any."""
    was_on = gc.isenabled()
    gc.disable()
    try:
        yield
    finally:
        if was_on:
            gc.enable()


def known(crs: str | None) -> Any:
    """The coordinate reference system, if its name is one that is known; else none."""
    import pyproj

    try:
        return pyproj.CRS.from_user_input(crs) if crs else None
    except pyproj.exceptions.CRSError:
        return None
