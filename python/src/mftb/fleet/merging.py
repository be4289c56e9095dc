"""The answers of a fleet's parts, put together: streams that are in order are merged, and none is held whole."""

from __future__ import annotations

import heapq
import resource
from collections.abc import Callable, Iterable, Iterator, Sequence
from contextlib import ExitStack, contextmanager
from decimal import Decimal
from itertools import islice
from typing import BinaryIO

from mftb_fleetpart import Said, name_and_rest, text_of
from mftb.texts import Refused

# The fields of the line @stboundedby, and where they are.
LOW, HIGH, END = 3, 4, 6


class Asked:
    """The answers of the parts that were asked, and the files of their records, which are read once."""

    def __init__(self, answers: Iterable[Iterable[Said]], files: list[BinaryIO]) -> None:
        self.answers, self.files = [iter(said) for said in answers], files

    def next_of(self, numbers: Sequence[int]) -> tuple[list[Said], list[Iterator[bytes]]]:
        """The next answers of the parts with these numbers, and the streams of their lines."""
        said = [next(self.answers[number]) for number in numbers]
        streams = [lines(self.files[number], one) for number, one in zip(numbers, said)]
        return said, streams


def lines(file: BinaryIO, said: Said) -> Iterator[bytes]:
    """The lines of an answer."""
    file.seek(said.place)
    return islice(file, said.others)


@contextmanager
def opened(answers: Iterable[Iterable[Said]], paths: Iterable[str]) -> Iterator[Asked]:
    """The answers with the files of their records, all of them open."""
    _, most = resource.getrlimit(resource.RLIMIT_NOFILE)
    resource.setrlimit(resource.RLIMIT_NOFILE, (most, most))
    with ExitStack() as files:
        yield Asked(answers, [files.enter_context(open(path, "rb")) for path in paths])


def put_together(word: str, said: list[Said], streams: list[Iterator[bytes]], out: BinaryIO) -> None:
    """Writes the answer of the fleet to a question, from those of its parts."""
    refusals = {one.refusal for one in said}
    if len(refusals) > 1:
        raise Refused(
            f"parts do not agree on {word}: {', '.join(sorted(refusals))}; is each loaded with the same files?"
        )
    if said[0].refusal:
        out.write(said[0].refusal.encode() + b"\n")
        return
    first = []
    if word == "count":
        sums = map(sum, zip(*([int(text) for text in one.first[0].split(b",")] for one in said)))
        first = [",".join(map(str, sums)).encode()]
    elif word == "write":
        first = head_of(said)
    count = len(first) + sum(one.others for one in said)
    out.write(b"ok %d\n" % count)
    out.writelines(text + b"\n" for text in first)
    out.writelines(text_of(line) + b"\n" for line in heapq.merge(*streams))


def head_of(said: list[Said]) -> list[bytes]:
    """The header lines of the file of all parts: the corners and the last end are those of all legs."""
    if len({one.first[1] for one in said}) > 1:
        raise Refused("parts do not agree on their columns; is each loaded with the same files?")
    heads = [fields(one.first[0]) for one in said]
    loaded = [head for head, one in zip(heads, said) if one.others] or heads
    whole = list(heads[0])
    whole[LOW] = corner((head[LOW] for head in loaded), min)
    whole[HIGH] = corner((head[HIGH] for head in loaded), max)
    whole[END] = max(head[END] for head in loaded)
    return [b",".join(whole), said[0].first[1]]


def fields(text: bytes) -> list[bytes]:
    """The fields of a header line, with the quotes of those that have some."""
    found = []
    while text:
        _, rest = name_and_rest(text)
        found.append(text[: len(text) - len(rest)].removesuffix(b",") if rest else text)
        text = rest
    return found


def corner(places: Iterable[bytes], best: Callable) -> bytes:
    """The least or the greatest number of each axis, as its text."""
    axes = zip(*(place.decode().split() for place in places))
    return " ".join(best(texts, key=Decimal) for texts in axes).encode()
