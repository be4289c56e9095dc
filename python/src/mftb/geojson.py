"""Shapes of GeoJSON as WKT. Numbers of a file stay as they are written: none goes through a double."""

from __future__ import annotations

import json
from collections.abc import Iterator, Mapping, Sequence
from decimal import Decimal
from typing import Any

from mftb import lines
from mftb.sources import opened
from mftb.texts import Refused

SUFFIXES = {".geojson", ".json"}
# How deep the positions of each kind lie.
DEPTHS = {"LineString": 1, "Polygon": 2, "MultiPolygon": 3}
KINDS = {*DEPTHS, "Feature", "FeatureCollection"}


def is_geojson(given: Mapping[str, Any]) -> bool:
    """Whether a mapping is a thing of GeoJSON, and no shapes by their names."""
    return isinstance(given.get("type"), str)


def wkt(given: Mapping[str, Any]) -> str:
    """A geometry, or that of a feature, as WKT."""
    if given.get("type") == "Feature":
        given = given.get("geometry") or {}
    kind = given.get("type")
    if not isinstance(kind, str) or kind not in DEPTHS:
        raise ValueError(f"{kind or 'nothing'} is no Polygon, MultiPolygon or LineString")
    try:
        return f"{kind.upper()} {nested(given['coordinates'], DEPTHS[kind])}"
    except (KeyError, TypeError, IndexError):
        raise ValueError(f"the {kind} has no coordinates") from None


def nested(part: Sequence[Any], depth: int) -> str:
    """Positions in brackets; a third ordinate is left out, as z does not count."""
    if not depth:
        return f"{lines.number(part[0])} {lines.number(part[1])}"
    if not part:
        return "EMPTY"
    return f"({', '.join(nested(one, depth - 1) for one in part)})"


def features(given: Mapping[str, Any]) -> Iterator[Mapping[str, Any]]:
    """The features of a collection, or the one thing that is given."""
    if given.get("type") == "FeatureCollection":
        yield from given["features"]
    else:
        yield given


def named(given: Mapping[str, Any], name: str = "name") -> dict[str, str]:
    """The shapes of features as WKT, by a property of theirs."""
    found: dict[str, str] = {}
    for place, feature in enumerate(features(given), 1):
        own = property_of(feature.get("properties") or {}, name)
        if own in (None, ""):
            raise ValueError(f"feature {place} has no property {name!r}")
        if str(own) in found:
            raise ValueError(f"feature {place}: {own!r} stands a second time")
        try:
            found[str(own)] = wkt(feature)
        except ValueError as why:
            raise ValueError(f"feature {place}, {own!r}: {why}") from None
    if not found:
        raise ValueError("there is no feature")
    return found


def property_of(properties: Mapping[str, Any], name: str) -> Any:
    """A property, by its name in any case."""
    own = {key.lower(): value for key, value in reversed(list(properties.items()))}
    return properties.get(name, own.get(name.lower()))


def read(path: str, name: str = "name") -> dict[str, str]:
    """The shapes of a file by their names."""
    try:
        with opened(path) as raw:
            given = json.loads(raw.read().decode("utf-8-sig"), parse_float=Decimal)
        if not isinstance(given, dict) or given.get("type") not in KINDS:
            raise ValueError("it is no GeoJSON")
        return named(given, name)
    except (ValueError, KeyError, TypeError, AttributeError, RecursionError) as why:
        raise Refused(f"{path}: {why}") from None
