"""Times without a position: the gaps between the legs of each feature."""

from __future__ import annotations

import csv
import io
from collections.abc import Sequence
from datetime import datetime
from typing import Any

from mftb import forms, lines, runs
from mftb.forms import EPOCH, MILLISECOND, Form, LegForm, milliseconds
from mftb.records import Gap, Leg
from mftb.results import Answer

MOST = 100_000_000
EVERYWHERE = (-MOST, -MOST, MOST, MOST)


class GapForm(LegForm):
    """Gaps, which lie in a spool as legs do."""

    def record(self, fields: Sequence[str]) -> Gap:  # type: ignore[override]
        leg = super().record(fields)
        return Gap(leg.feature, leg.begin, leg.end, leg.start, leg.finish)


def between(legs: Answer[Leg], form: LegForm, period: lines.Period) -> Answer[Gap]:
    """The gaps between legs, which come in the order of time for each feature, that have a part in a period."""
    first, last = (since_start(moment, form.start) for moment in period)
    spool, count = runs.Spool(), 0
    printed, _ = legs.records()
    # Of each feature when its last leg ended, and where.
    ends: dict[str, tuple[int, list[str]]] = {}
    with printed.opened() as file, open(spool.path, "w", encoding="utf-8", newline="") as out:
        write = csv.writer(out, lineterminator="\n").writerow
        for row in csv.reader(io.TextIOWrapper(file, encoding="utf-8", newline="")):
            begin, places = milliseconds(row[1]), row[3].split(" ")
            end, place = ends.get(row[0], (begin, []))
            if end < begin and end < last and begin > first:
                write([row[0], *map(shown, (end, begin)), " ".join(place + places[: form.dimension])])
                count += 1
            ends[row[0]] = milliseconds(row[2]), places[form.dimension :]
    answer: Answer[Gap] = Answer(" ".join(["gaps", *map(lines.moment, period)]), legs.crs)
    read: Form[Any] = GapForm(start=form.start, dimension=form.dimension)
    return answer.fill(runs.Printed(spool, 0, count), read)


def since_start(moment: lines.Moment, start: datetime) -> float:
    """Milliseconds from the store's start to a moment."""
    found = forms.instant(lines.moment(moment))
    return ((found - EPOCH) - (start - EPOCH)) / MILLISECOND


def shown(offset: int) -> str:
    """An offset in milliseconds, in seconds."""
    whole, part = divmod(abs(offset), 1000)
    return ("-" if offset < 0 else "") + f"{whole}.{part:03}"
