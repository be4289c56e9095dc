"""The marks of a picture: colours, the frame, legs, names."""

from __future__ import annotations

import math
import re
from collections.abc import Iterable, Iterator, Mapping, Sequence
from typing import TypeAlias
from xml.sax.saxutils import escape

from mftb import texts
from mftb.draw.plot import WIDTH, Ink, Piece, Place, View, in_words, nice, pair, path_of, px, scale_bar

# Words beside a place, the number of its colour, and its pixel.
Mark: TypeAlias = tuple[str, int, Place]
ROWS = 24
LIGHT = "#1f6fb4 #c55a00 #1b7f3b #c2252d #7a3fa8 #007d84 #b8358a #6b6b00 #7b4b2a #30408f".split()
DARK = "#6cb4f5 #ff9d4d #5fd07f #ff7b7f #c29bf0 #4fd6dd #f58ccb #cfcf5a #d3a17c #9aa8ff".split()
DASHES = ["", ' stroke-dasharray="7 3"', ' stroke-dasharray="2 3"']


def clean(text: str) -> str:
    """A text as XML takes it."""
    return escape(re.sub("[\x00-\x1f\x7f\ufffe\uffff]", " ", text))


def colour(number: int) -> str:
    """The class of a colour."""
    return f"c{number % len(LIGHT)}"


def dash(number: int) -> str:
    """What tells lines of one colour apart."""
    return DASHES[number // len(LIGHT) % len(DASHES)]


def style() -> str:
    """The colours, for light and for dark."""

    def colours(paper: str, ink: str, soft: str, leg: str, palette: Sequence[str]) -> str:
        own = "".join(f".c{i}{{color:{value}}}" for i, value in enumerate(palette))
        return (
            f".paper{{fill:{paper}}}.name{{stroke:{paper}}}svg{{color:{ink}}}"
            f".leg,.dot{{stroke:{leg}}}.grid,.frame{{stroke:{soft}}}{own}"
        )

    light = colours("#ffffff", "#1c2126", "#e3e6e9", "#9aa2aa", LIGHT)
    dark = colours("#14181d", "#e6e9ec", "#2b3138", "#6d767f", DARK)
    return (
        "text{font:13px sans-serif;fill:currentColor}.small{font-size:11px;opacity:.75}"
        ".middle{text-anchor:middle}.end{text-anchor:end}.title{font-weight:bold}"
        "path,.frame{fill:none;stroke-linecap:round;stroke-linejoin:round}"
        ".dot{stroke-width:3}.hit,.ink{stroke:currentColor;stroke-width:2.5}"
        ".coast{stroke:currentColor;opacity:.5}"
        ".hit,.flat{stroke-linecap:butt}"
        ".start{stroke:currentColor;stroke-width:5}.head{fill:currentColor}"
        ".lead{stroke:currentColor;stroke-width:.7}.flat{stroke:currentColor;stroke-width:3}"
        ".box{fill:currentColor;fill-opacity:.08;stroke:currentColor;stroke-width:1.5}"
        ".scale{stroke:currentColor}.name{stroke-width:3;paint-order:stroke;stroke-linejoin:round}"
        f"{light}@media(prefers-color-scheme:dark){{{dark}}}"
    )


# Legs


def path(kind: str, way: str, more: str = "") -> str:
    """A path, where it has a line."""
    return f'<path class="{kind}" d="{way}"{more}/>' if way else ""


def grey(ink: Ink) -> Iterator[str]:
    """The legs of the files, with a dot at each position where there are few."""
    yield path("leg", ink.path())
    if len(ink.pieces) <= 600:
        ends = dict.fromkeys(pair(point) for _, *ends in ink.pieces for point in ends)
        yield path("dot", "".join(f"M{end}h0" for end in ends))


def arrow(one: Place, two: Place) -> str:
    """A triangle at the end of a leg, where the leg is long enough."""
    length = math.dist(one, two)
    if length < 14:
        return ""
    x, y = (two[0] - one[0]) / length, (two[1] - one[1]) / length
    left = two[0] - 9 * x + 4 * y, two[1] - 9 * y - 4 * x
    right = two[0] - 9 * x - 4 * y, two[1] - 9 * y + 4 * x
    return f"M{pair(two)}L{pair(left)}L{pair(right)}Z"


def coloured(groups: Mapping[str, Sequence[Piece]], arrows: bool) -> Iterator[str]:
    """What is coloured, by feature: its legs, with starts and heads where these are an answer."""
    for number, (name, found) in enumerate(groups.items()):
        if found:
            yield f'<g class="{colour(number)}"><title>{clean(name)}</title>'
            yield path("hit", path_of(found), dash(number)) if arrows else ""
            yield path("start", "".join(f"M{pair(one)}h0" for one, _ in found)) if arrows else ""
            yield path("head", "".join(arrow(*piece) for piece in found)) if arrows else ""
            yield path("ink", path_of(found), dash(number)) if not arrows else ""
            yield "</g>"


def many(inks: Mapping[str, Ink]) -> Iterator[str]:
    """What is coloured, where it is much: one path for each colour."""
    for kind, ink in inks.items():
        yield f'<g class="{kind}">{path("ink", ink.path())}</g>' if ink else ""


def rings(marks: Iterable[Mark]) -> Iterator[str]:
    """A ring at each place that is marked."""
    for words, number, (x, y) in marks:
        where = f'cx="{px(x)}" cy="{px(y)}" r="5"'
        ring = f'<circle class="cross" {where} fill="none" stroke="currentColor" stroke-width="2"/>'
        yield f'<g class="{colour(number)}">{ring}<title>{clean(words)}</title></g>'


def asked(view: View, box: Sequence[float]) -> str:
    """The rectangle that was asked for; without width or height it is a line."""
    (left, bottom), (right, top) = view.at(box[:2]), view.at(box[2:])
    if left == right or bottom == top:
        return f'<path class="flat" d="M{pair((left, bottom))}L{pair((right, top))}"/>'
    sides = f'x="{px(left)}" y="{px(top)}" width="{px(right - left)}" height="{px(bottom - top)}"'
    return f'<rect class="box" {sides}/>'


# Beside the plot and below it


def key(labels: Sequence[str], box: Sequence[float] | None, kind: str, has_zones: bool = False) -> list[str]:
    """The list beside the plot: what is grey, what was asked for, zones, and the features."""
    rows = [f'<path class="leg" d="M0 -4h24"/><text x="32">legs of the {kind}</text>']
    if box:
        flat = box[0] == box[2] or box[1] == box[3]
        sign = '<path class="flat" d="M0 -4h24"/>' if flat else '<rect class="box" y="-10" width="24" height="12"/>'
        rows.append(f'{sign}<text x="32">the {"line" if flat else "rectangle"} asked for</text>')
    if has_zones:
        rows.append('<rect class="zone" y="-10" width="24" height="12"/><text x="32">zones</text>')
    for number, name in enumerate(labels[:ROWS]):
        line = f'<path class="hit" d="M0 -4h24"{dash(number)}/>'
        rows.append(f'<g class="{colour(number)}">{line}<text x="32">{clean(name)}</text></g>')
    if len(labels) > ROWS:
        rows.append(f'<text x="32">and {len(labels) - ROWS} more</text>')
    return rows


def ticks(view: View) -> Iterator[str]:
    """Lines at round values of x and y, with the values."""
    left, right, low, top = view.edges()
    for x, text in rounds(left, right, (right - left) / 4):
        across = px(view.at((x, 0))[0])
        yield f'<path class="grid" d="M{across} 0V{view.height}"/>'
        yield f'<text class="small middle" x="{across}" y="{view.height + 15}">{text}</text>'
    for y, text in rounds(low, top, (right - left) * view.narrow / 4):
        y = view.at((0, y))[1]
        yield f'<path class="grid" d="M0 {px(y)}H{WIDTH}"/>'
        yield f'<text class="small end" x="-6" y="{px(y + 4)}">{text}</text>'


def rounds(least: float, most: float, span: float) -> Iterator[tuple[float, str]]:
    """The round values in a range, about a span apart, and how they are written."""
    step, digits = nice(span)
    for k in range(math.ceil(least / step), math.floor(most / step) + 1):
        yield k * step, f"{k * step:.{digits}f}"


def caption(view: View, crs: str, unit: str, lines: Iterable[str]) -> Iterator[str]:
    """The scale, the name of the coordinates, and what else is said."""
    end, words = scale_bar(view, crs, unit)
    yield f'<path class="scale" d="M0 -4v4h{px(end)}v-4"/>'
    yield f'<text x="{px(end + 8)}" y="3">{clean(words)}</text>'
    for place, line in enumerate([in_words(crs), *lines], 1):
        yield f'<text y="{4 + 20 * place}">{clean(line)}</text>'


def period(first: float, last: float) -> str:
    """From one moment to another one."""
    one, two = (texts.instant(math.floor(it)).rstrip("Z").replace("T", " ") for it in (first, last))
    return f"{one} to {two[11:] if one[:10] == two[:10] else two} UTC"
