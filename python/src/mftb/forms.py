"""How each kind of record is read: field by field, and as the columns of a frame."""

from __future__ import annotations

import json
from collections.abc import Sequence
from dataclasses import dataclass
from datetime import datetime, timedelta, timezone
from fractions import Fraction
from typing import Any, Generic, TypeVar

from mftb.errors import ProgramFailed
from mftb.records import Counts, Dwell, Feature, Info, Leg, Loaded, Stay, Visit

Record = TypeVar("Record")
EPOCH = datetime(1970, 1, 1, tzinfo=timezone.utc)
MILLISECOND = timedelta(milliseconds=1)
MICROSECOND = timedelta(microseconds=1)


def instant(text: str) -> datetime:
    """The moment of an instant in UTC, as the program writes it, to the microsecond."""
    return datetime.fromisoformat(text)


def milliseconds(text: str) -> int:
    """An offset in seconds with at most three digits behind the point, in milliseconds."""
    whole, _, part = text.partition(".")
    size = int(whole.lstrip("-") or 0) * 1000 + int((part + "000")[:3])
    return -size if text.startswith("-") else size


def exact(text: str, start: Fraction) -> Fraction:
    """An exact moment, which is printed as a fraction of milliseconds, in seconds since 1970."""
    return start + Fraction(text) / 1000


@dataclass(frozen=True)
class Form(Generic[Record]):
    """How records of one kind are read."""

    # The names of the columns; with `None` the first line has them.
    names: Sequence[str] | None = None

    def record(self, fields: Sequence[str]) -> Record:
        raise NotImplementedError


@dataclass(frozen=True)
class LegForm(Form[Leg]):
    """Legs of a store, which says when its time begins and what its columns are."""

    start: datetime = EPOCH
    dimension: int = 2
    columns: Sequence[tuple[str, str]] = ()

    def record(self, fields: Sequence[str]) -> Leg:
        begin, end = (self.start + milliseconds(text) * MILLISECOND for text in fields[1:3])
        places = tuple(map(float, fields[3].split(" ")))
        attributes = {name: text for (name, _), text in zip(self.columns, fields[4:])}
        return Leg(fields[0], begin, end, places[: self.dimension], places[self.dimension :], attributes)


class FeatureForm(Form[Feature]):
    def record(self, fields: Sequence[str]) -> Feature:
        *zone, feature = fields
        return Feature(feature, *zone)


class CountForm(Form[Counts]):
    def record(self, fields: Sequence[str]) -> Counts:
        return Counts(*map(int, fields))


@dataclass(frozen=True)
class LoadForm(Form[Loaded]):
    file: str = ""

    def record(self, fields: Sequence[str]) -> Loaded:
        count, legs, features = map(int, fields)
        return Loaded(legs, features, records=count, file=self.file)


class LineForm(Form[tuple[str, ...]]):
    """Records as they stand, as of `write`."""

    def record(self, fields: Sequence[str]) -> tuple[str, ...]:
        return tuple(fields)


@dataclass(frozen=True)
class MomentForm(Form[Record]):
    """Records with a header line, by whose names the fields are found."""

    start: Fraction = Fraction(0)

    def named(self, fields: Sequence[str]) -> dict[str, str]:
        return dict(zip(self.names or (), fields))

    def stay(self, said: dict[str, str]) -> dict[str, Any]:
        """The fields that stays and visits share."""
        ends: dict[str, Any] = {name: exact(said[name], self.start) for name in ("enters", "leaves")}
        ends |= {name: instant(said[name]) for name in ("enters_at", "leaves_at")}
        for end in ("in", "out"):
            places = (said.get(f"{axis}_{end}") for axis in "xyz")
            ends[f"place_{end}"] = tuple(float(text) for text in places if text is not None)
        by = {name: said.get(name, "") for name in ("enters_by", "leaves_by")}
        where = {name: said.get(name, "") for name in ("zone", "from_side", "to_side", "edge_in", "edge_out")}
        return {"feature": said["feature"], **ends, **by, **where}


@dataclass(frozen=True)
class StayForm(MomentForm[Stay]):
    # The attribute columns whose values stand behind the other fields.
    columns: Sequence[tuple[str, str]] = ()

    def record(self, fields: Sequence[str]) -> Stay:
        own = len(fields) - len(self.columns)
        attributes = {name: text for (name, _), text in zip(self.columns, fields[own:])}
        return Stay(**self.stay(self.named(fields[:own])), attributes=attributes)


class VisitForm(MomentForm[Visit]):
    def record(self, fields: Sequence[str]) -> Visit:
        said = self.named(fields)
        return Visit(**self.stay(said), legs=int(said["legs"]))


class DwellForm(MomentForm[Dwell]):
    def record(self, fields: Sequence[str]) -> Dwell:
        said = self.named(fields)
        least, most = (Fraction(said[name]) for name in ("least", "most"))
        return Dwell(said["feature"], int(said["visits"]), least, most, said.get("zone", ""))


def since_1970(moment: datetime) -> Fraction:
    """Seconds since 1970, exactly."""
    return Fraction((moment - EPOCH) // MICROSECOND, 1_000_000)


def start_of(info: Info) -> Fraction:
    """When the store's time begins, in seconds since 1970."""
    return since_1970(info.start or EPOCH)


def leg_form(info: Info) -> LegForm:
    return LegForm(start=info.start or EPOCH, dimension=info.dimension or 2, columns=info.columns)


def form_of(command: str, rest: str, info: Info) -> Form:
    """The form of the answers to a command of a script."""
    if command in ("box", "legs", "trajectory"):
        return leg_form(info)
    forms: dict[str, Form] = {
        "features": FeatureForm(names=["feature"]),
        "count": CountForm(names=["legs", "features"]),
        "load": LoadForm(names=["records", "legs", "features"], file=rest),
    }
    return forms.get(command, LineForm())


def info_of(text: str) -> Info:
    """What `mftb info --json` says."""
    try:
        said = json.loads(text)
        moments: dict[str, Any] = {name: said[name] and instant(said[name]) for name in ("start", "first", "last")}
        columns = tuple((it["name"], it["type"]) for it in said["columns"] or ())
        left, low, right, top = map(float, said["extent"] or (0, 0, 0, 0))
        extent = (left, low, right, top) if said["extent"] else None
        same: dict[str, Any] = {name: said[name] for name in PLAIN}
    except (KeyError, TypeError, ValueError):
        raise ProgramFailed("mftb info does not say what the store holds; is it mftb?") from None
    return Info(columns=columns, extent=extent, **moments, **same)


PLAIN = ("legs", "features", "crs", "dimension", "most_legs", "most_features", "pages", "bytes", "version", "state")
