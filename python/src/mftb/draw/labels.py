"""Names in a picture: where there is room for them."""

from __future__ import annotations

import math
from collections.abc import Iterator, Mapping, Sequence
from typing import NamedTuple, TypeAlias

from mftb.draw.plot import WIDTH, Piece, Place, View, pair, px
from mftb.draw.svg import ROWS, Mark, clean, colour

# A box: left, top, right, bottom.
Box: TypeAlias = tuple[float, float, float, float]
# A line, and how bad it is to cover it.
Weighed: TypeAlias = tuple[Piece, int]


class Spot(NamedTuple):
    """Where a name may stand: its box, the place that it names, and how far off that is."""

    box: Box
    anchor: Place
    away: float


def overlap(one: Box, two: Box) -> bool:
    """Whether two boxes meet."""
    return one[0] < two[2] and two[0] < one[2] and one[1] < two[3] and two[1] < one[3]


def meets(box: Box, piece: Piece) -> bool:
    """Whether a line meets a box: whether one of some points of it lies in the box."""
    (x, y), (u, v) = piece
    if not overlap(box, (min(x, u) - 1, min(y, v) - 1, max(x, u) + 1, max(y, v) + 1)):
        return False
    steps = max(int(math.dist(*piece) / 5), 1)
    points = ((x + (u - x) * i / steps, y + (v - y) * i / steps) for i in range(steps + 1))
    return any(box[0] < a < box[2] and box[1] < b < box[3] for a, b in points)


def text_width(text: str) -> float:
    """About how many pixels a text takes, in a wide font."""
    return sum(4.5 if sign in " .,:;'|!ijlI-" else 9.5 if sign.isupper() else 8 for sign in text)


def spots(found: Sequence[Piece], width: float) -> Iterator[Spot]:
    """Where a name of a width may stand, beside the last lines and the first ones."""
    anchors: list[Place] = []
    for one, two in [*found[-1:], *found[:3]]:
        anchors += [two, one, ((one[0] + two[0]) / 2, (one[1] + two[1]) / 2)]
    for away in (8, 22, 40):
        for x, y in anchors:
            for turn in range(8):
                u = x + away * math.cos(turn * math.pi / 4)
                v = y + away * math.sin(turn * math.pi / 4)
                side = (0, 0, 0.5, 1, 1, 1, 0.5, 0)[turn]
                rise = (0.5, 0, 0, 0, 0.5, 1, 1, 1)[turn]
                left, top = u - side * width, v - rise * 15
                yield Spot((left, top, left + width, top + 15), (x, y), away)


class Named(NamedTuple):
    """What has a name in a picture: features, marks, and the edges of zones, all in pixels."""

    groups: Mapping[str, Sequence[Piece]]
    marks: Sequence[Mark] = ()
    zones: Mapping[str, Sequence[Piece]] = {}

    def wanted(self) -> Iterator[tuple[str, str, Sequence[Piece]]]:
        """The words that are wanted, the class of each, and the lines that they may stand beside."""
        features = [(name, colour(number), found) for number, (name, found) in enumerate(self.groups.items())]
        yield from [(name, "zoned", found) for name, found in self.zones.items()][:ROWS]
        yield from features[:ROWS]
        yield from [(words, colour(number), [(place, place)]) for words, number, place in self.marks][:ROWS]


def names(view: View, named: Named, others: Sequence[Piece], box: Sequence[float] | None) -> Iterator[str]:
    """A name beside each zone and each feature that is coloured, and each mark's words, where there is room."""
    hits = [piece for found in named.groups.values() for piece in found] + edges(view, box)
    # What a name had better not cover, and how bad it is.
    lines = [(piece, 10) for piece in hits[:600]] + [(piece, 3) for piece in others[:600]]
    lines += [(piece, 5) for found in named.zones.values() for piece in found[:200]]
    taken: list[Box] = []
    for words, kind, found in named.wanted():
        best = best_spot(view, found, text_width(words) + 4, lines, taken) if found else None
        if best:
            taken.append(best.box)
            yield name_at(words, kind, best)


def edges(view: View, box: Sequence[float] | None) -> list[Piece]:
    """The sides of the rectangle that was asked for, as lines between pixels."""
    if not box:
        return []
    (left, bottom), (right, top) = view.at(box[:2]), view.at(box[2:])
    ring = [(left, bottom), (right, bottom), (right, top), (left, top)]
    return list(zip(ring, ring[1:] + ring[:1]))


def best_spot(
    view: View, found: Sequence[Piece], width: float, lines: Sequence[Weighed], taken: Sequence[Box]
) -> Spot | None:
    """The spot for a name that covers the fewest lines, if there is room."""
    best: Spot | None = None
    least = 40.0
    for spot in spots(found, width):
        box, anchor, away = spot
        inside = 0 < box[0] and box[2] < WIDTH and 0 < box[1] and box[3] < view.height
        near = nearest(box, anchor)
        lead = min(anchor[0], near[0]), min(anchor[1], near[1]), max(anchor[0], near[0]), max(anchor[1], near[1])
        if not inside or any(overlap(own, other) for own in (box, lead) for other in taken):
            continue
        cost = away / 4 + sum(weight for piece, weight in lines if meets(box, piece))
        cost += sum(weight / 5 for piece, weight in lines if meets(lead, piece)) if away > 8 else 0
        if cost < least:
            least, best = cost, spot
    return best


def nearest(box: Box, point: Place) -> Place:
    """The point of a box that is nearest to a place."""
    return min(max(point[0], box[0]), box[2]), min(max(point[1], box[1]), box[3])


def name_at(name: str, kind: str, spot: Spot) -> str:
    """A name in its box, with a thin line from its place where that is far."""
    box, anchor, _ = spot
    near = nearest(box, anchor)
    line = f'<path class="lead" d="M{pair(anchor)}L{pair(near)}"/>' if math.dist(anchor, near) > 12 else ""
    text = f'<text class="name" x="{px(box[0] + 2)}" y="{px(box[3] - 4)}">{clean(name)}</text>'
    return f'<g class="{kind}">{line}{text}</g>'
