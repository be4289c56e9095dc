"""Spans of a clock: quarters of an hour, days or months, as the clocks of a zone show them."""

from __future__ import annotations

import re
from collections.abc import Iterator
from datetime import date, datetime, time, timedelta, timezone, tzinfo
from fractions import Fraction
from itertools import pairwise
from zoneinfo import ZoneInfo, ZoneInfoNotFoundError

SPAN = re.compile(r"([1-9][0-9]*)? *(s|min|h|d|day|week|month|year)")
SECONDS = {"s": 1, "min": 60, "h": 3600}
DAY = 86_400
# So many days a span has at least.
DAYS = {"day": 1, "week": 7, "month": 28, "year": 365}
MOST = 1_000_000


class Clock:
    """A clock that shows a zone's time, cut into spans: `15min`, `6h`, `day`, `week`, `month`, `year`.

    A span below a day begins where the clock shows a multiple of it since midnight. So an hour that the
    clock shows twice has its quarters twice, and one that it leaves out has none.
    """

    def __init__(self, span: str, tz: str | tzinfo = "UTC") -> None:
        found = SPAN.fullmatch(span.strip())
        count, unit = (int(found[1] or 1), found[2]) if found else (0, "")
        self.step = count * SECONDS.get(unit, DAY)
        self.span, self.unit = span, "day" if unit in ("d", *SECONDS) else unit
        if not found or DAY % self.step:
            raise ValueError(f"{span!r} is no part of a day as 15min or 6h, and no day, week, month or year")
        self.zone = zone_of(tz)

    def edges(self, first: Fraction, last: Fraction) -> list[int]:
        """The edges of the spans that hold a period, in seconds since 1970; the last one may be its end."""
        if last - first > MOST * min(self.step, DAY) * DAYS[self.unit]:
            raise ValueError(f"the period has more than a million spans of {self.span}: take a shorter one")
        found: list[int] = []
        for edge in self.all_edges(self.date_of(first)):
            if edge <= first:
                found.clear()
            found.append(edge)
            if edge >= last and len(found) > 1:
                return found
        raise ValueError("the period ends behind the last year")

    def all_edges(self, day: date) -> Iterator[int]:
        """The edges from the unit on that a day lies in."""
        for begin, end in pairwise(self.units(day)):
            yield from (self.edges_of(begin) if self.step < DAY else [self.start(begin)])
            last = end
        yield self.start(last)

    def units(self, day: date) -> Iterator[date]:
        """The first days of units, from the one on that a day lies in."""
        if self.unit == "week":
            day -= timedelta(days=day.weekday())
        elif self.unit in ("month", "year"):
            day = day.replace(day=1, month=1 if self.unit == "year" else day.month)
        while day.year < date.max.year:
            yield day
            if self.unit in ("month", "year"):
                after = day.month % 12 + 1 if self.unit == "month" else 1
                day = day.replace(year=day.year + (after == 1), month=after)
            else:
                day += timedelta(days=DAYS[self.unit])

    def edges_of(self, day: date) -> list[int]:
        """The edges in a day: where the clock shows a multiple of the step, and where the day begins."""
        begin, end = self.start(day), self.start(day + timedelta(days=1))
        if end - begin == DAY:
            return list(range(begin, end, self.step))
        found = {begin}
        for seconds in range(0, DAY, self.step):
            shown = datetime.combine(day, time()) + timedelta(seconds=seconds)
            for fold in (0, 1):
                moment = int(shown.replace(tzinfo=self.zone, fold=fold).timestamp())
                if self.shown(moment).replace(tzinfo=None) == shown:
                    found.add(moment)
        return sorted(found)

    def start(self, day: date) -> int:
        """When a day begins."""
        return int(datetime.combine(day, time(), tzinfo=self.zone).timestamp())

    def date_of(self, moment: Fraction) -> date:
        return self.shown(moment.__floor__()).date()

    def shown(self, moment: int) -> datetime:
        """What the clock shows at a moment."""
        return (datetime(1970, 1, 1, tzinfo=timezone.utc) + timedelta(seconds=moment)).astimezone(self.zone)


def zone_of(tz: str | tzinfo) -> tzinfo:
    if not isinstance(tz, str):
        return tz
    try:
        return ZoneInfo(tz)
    except (ZoneInfoNotFoundError, ValueError, OSError):
        raise ValueError(f"there is no zone {tz!r} here; UTC and Europe/Berlin are such names") from None
