"""Asks three questions of the same legs in shapely's words, in geopandas' and in ours: python/dev/compared.py [--legs N]

Who was inside? When did each ship enter and leave? How many entered in each quarter of an hour? It prints the seconds of
a processor for each, and how many answers differ. It needs shapely and geopandas (Debian's python3-geopandas).
"""

import argparse
import random
import resource
import sys
import tempfile
import time
import warnings
from collections import Counter
from collections.abc import Callable, Iterable, Iterator
from pathlib import Path
from typing import Any, NamedTuple

sys.path.insert(0, str(Path(__file__).resolve().parents[1] / "src"))
import mftb  # noqa: E402

START = 1_717_372_800
HEAD = "@stboundedby,metres,2D,,,2024-06-03T00:00:00Z,,sec\n@columns,mfidref,trajectory\n"
# Tenths of a metre; the corners are places that ships go through.
PORT = (2_001, 2_001, 3_001, 2_601)
EACH, STEP = 500, 60
QUARTER = 900
# So near are two moments in doubles that are taken as one.
NEAR = 1e-6


class Leg(NamedTuple):
    ship: str
    begin: int
    end: int
    start: tuple[float, float]
    finish: tuple[float, float]


class Visit(NamedTuple):
    ship: str
    enters: Any
    leaves: Any


def walks(legs: int) -> Iterator[Leg]:
    """Ships that go about on a grid, a leg a minute; in the order of time."""
    random.seed(7)
    places = [(random.randrange(1, 5_000, 50), random.randrange(1, 5_000, 50)) for _ in range(legs // EACH)]
    for step in range(EACH):
        for ship, (x, y) in enumerate(places):
            new = (x + 50 * random.randint(-3, 3), y + 50 * random.randint(-3, 3))
            yield Leg(f"ship {ship}", step * STEP, (step + 1) * STEP, (x / 10, y / 10), (new[0] / 10, new[1] / 10))
            places[ship] = new


class Timed(NamedTuple):
    seconds: float
    answer: Any


def timed(work: Callable[[], Any]) -> Timed:
    """What a work makes, and the seconds of a processor that it and what it started took."""
    begun = used()
    answer = work()
    return Timed(used() - begun, answer)


def used() -> float:
    children = resource.getrusage(resource.RUSAGE_CHILDREN)
    return time.process_time() + children.ru_utime + children.ru_stime


def joined(stays: Iterable[Visit]) -> list[Visit]:
    """Stays of each ship that go on at once, as visits."""
    found: list[Visit] = []
    for stay in stays:
        if found and found[-1].ship == stay.ship and abs(found[-1].leaves - stay.enters) < NEAR:
            found[-1] = found[-1]._replace(leaves=stay.leaves)
        else:
            found.append(stay)
    return found


def quarters(visits: Iterable[Visit], first: int) -> Counter[int]:
    """How many enter in each quarter of an hour; who is inside as the period begins does not."""
    return Counter(int(visit.enters // QUARTER) for visit in visits if visit.enters > first)


class Shapely:
    """A line a leg, cut to the period; each is met with the box, and moments follow from the part of the line."""

    name = "shapely"

    def __init__(self, legs: list[Leg], period: tuple[int, int]) -> None:
        from shapely.geometry import box
        from shapely.prepared import prep

        self.legs, (self.first, self.last) = legs, period
        self.box = box(*(side / 10 for side in PORT))
        self.meets = prep(self.box).intersects

    def lines(self) -> Iterator[tuple[Leg, float, float, Any]]:
        from shapely.geometry import LineString

        for leg in self.legs:
            first, last = max(leg.begin, self.first), min(leg.end, self.last)
            if first > last:
                continue
            ends = [self.at(leg, moment) for moment in (first, last)]
            line = LineString(ends)
            if self.meets(line):
                yield leg, first, last, line

    def at(self, leg: Leg, moment: float) -> tuple[float, ...]:
        part = (moment - leg.begin) / (leg.end - leg.begin)
        return tuple(a + (b - a) * part for a, b in zip(leg.start, leg.finish))

    def who(self) -> set[str]:
        return {leg.ship for leg, *_ in self.lines()}

    def when(self) -> list[Visit]:
        found = []
        for leg, first, last, line in self.lines():
            places = self.box.intersection(line).coords
            parts = [0, 1]
            if line.length:
                parts = sorted(line.project(place, normalized=True) for place in map(point, (places[0], places[-1])))
            found.append(Visit(leg.ship, *(first + (last - first) * part for part in parts)))
        return joined(sorted(found))


def point(place: tuple[float, float]) -> Any:
    from shapely.geometry import Point

    return Point(place)


class Geopandas:
    """A frame of lines with an index; those that meet the box are cut by it, and moments follow from distances."""

    name = "geopandas"

    def __init__(self, legs: list[Leg], period: tuple[int, int]) -> None:
        import geopandas
        import numpy
        import pandas
        from shapely.geometry import LineString, box

        self.first, self.last = period
        self.box = box(*(side / 10 for side in PORT))
        frame = pandas.DataFrame([leg[:3] for leg in legs], columns=["ship", "begin", "end"])
        ends = numpy.array([leg.start + leg.finish for leg in legs])
        # Legs are cut to the period.
        first, last = frame.begin.clip(lower=self.first), frame.end.clip(upper=self.last)
        length = (frame.end - frame.begin).to_numpy()
        parts = [((moment - frame.begin).to_numpy() / length)[:, None] for moment in (first, last)]
        way = ends[:, 2:] - ends[:, :2]
        ends = numpy.hstack([ends[:, :2] + way * part for part in parts])
        lines = [LineString([row[:2], row[2:]]) for row in ends]
        frame = frame.assign(first=first, last=last)
        self.frame = geopandas.GeoDataFrame(frame, geometry=lines)[(first <= last).to_numpy()]
        self.frame.sindex  # noqa: B018

    def inside(self) -> Any:
        found = self.frame.iloc[self.frame.sindex.query(self.box, predicate="intersects")]
        return found.sort_values(["ship", "begin"])

    def who(self) -> set[str]:
        return set(self.inside()["ship"])

    def when(self) -> list[Visit]:
        found = self.inside()
        cut = found.geometry.intersection(self.box)
        stays = []
        for row, piece in zip(found.itertuples(), cut):
            line, places = row.geometry, piece.coords
            parts = [0, 1]
            if line.length:
                parts = sorted(line.project(point(place), normalized=True) for place in (places[0], places[-1]))
            stays.append(Visit(row.ship, *(row.first + (row.last - row.first) * part for part in parts)))
        return joined(stays)


class Ours:
    """A store."""

    name = "mftb"

    def __init__(self, file: Path, store: Path, period: tuple[int, int]) -> None:
        self.store = mftb.Store(store)
        self.store.load(file)
        self.port = tuple(mftb.lines.Decimal(side) / 10 for side in PORT)
        self.period = [mftb.forms.EPOCH + mftb.forms.MILLISECOND * 1000 * (START + it) for it in period]

    def who(self) -> set[str]:
        return {it.feature for it in self.store.features("ever", self.port, self.period)}

    def when(self) -> list[Visit]:
        visits = self.store.visits(self.port, self.period)
        return sorted(Visit(it.feature, it.enters - START, it.leaves - START) for it in visits)


def write(path: Path, legs: Iterable[Leg]) -> None:
    with open(path, "w") as out:
        out.write(HEAD)
        for leg in legs:
            places = " ".join(f"{number:.1f}" for number in (*leg.start, *leg.finish))
            out.write(f"{leg.ship},{leg.begin},{leg.end},{places}\n")


def differ(one: list[Visit], two: list[Visit]) -> str:
    """How many visits are in the first list only, and in the second one only, by ship and moments to the microsecond."""
    rounded = [
        Counter((it.ship, round(float(it.enters), 6), round(float(it.leaves), 6)) for it in some) for some in (one, two)
    ]
    return f"{sum((rounded[0] - rounded[1]).values())}, {sum((rounded[1] - rounded[0]).values())}"


def main() -> int:
    words = argparse.ArgumentParser(description=__doc__.split("\n")[0])
    words.add_argument("--legs", type=int, default=100_000)
    asked = words.parse_args()
    warnings.simplefilter("ignore")
    legs = list(walks(asked.legs))
    period = (3_601, EACH * STEP - 3_601)
    with tempfile.TemporaryDirectory() as folder:
        write(Path(folder, "legs.csv"), legs)
        makers: list[Callable[[], Any]] = [
            lambda: Shapely(legs, period),
            lambda: Geopandas(legs, period),
            lambda: Ours(Path(folder, "legs.csv"), Path(folder, "store"), period),
        ]
        found = [(made, timed(made.answer.who), timed(made.answer.when)) for made in map(timed, makers)]
    _, own_who, own_when = found[-1]
    print(f"{len(legs)} legs of {len(legs) // EACH} ships; seconds of a processor")
    print(
        "tool: make or load, who, when; ships; visits; entries by quarter; visits that ours has not, that only ours has"
    )
    for made, who, when in found:
        entries = sum(quarters(when.answer, period[0]).values())
        print(
            f"{made.answer.name}: {made.seconds:.2f}, {who.seconds:.2f}, {when.seconds:.2f}; {len(who.answer)}; "
            f"{len(when.answer)}; {entries}; {differ(when.answer, own_when.answer)}"
        )
        for ship in sorted(who.answer ^ own_who.answer)[:5]:
            print(f"  only one of both says that {ship} was inside")
    return 0


if __name__ == "__main__":
    sys.exit(main())
