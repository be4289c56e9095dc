"""What a run of a script printed: its answers, with the legs and the features in them."""

from __future__ import annotations

import csv
import re
from collections.abc import Iterator, Mapping
from typing import NamedTuple, TypeAlias

from mftb.sources import as_text, opened
from mftb.texts import Refused, number, read_instant, several

# Two moments in milliseconds since 1970.
Period: TypeAlias = tuple[int, int]

HEAD = re.compile("ok ([0-9]+)")
# The period at the end of a question, in moments of a script.
PERIOD = re.compile(r"(?:box|legs \w+|features \w+)(?: +\S+){4} +(\S+) +(\S+)")
RECTANGLE = re.compile(r"(?:box|legs \w+|features \w+)((?: +\S+){4})( +\S+){2}")


class Answer(NamedTuple):
    """An answer: its number from 1, the words of its question if known, and its records."""

    number: int
    words: str
    rows: list

    def title(self) -> str:
        """The question and the count of its answer."""
        what = "feature" if self.words.startswith("features") else "record"
        question = self.words or f"question {self.number}"
        return f"{question}: {several(len(self.rows), what)}"

    def box(self) -> list[float] | None:
        """The rectangle that was asked for, if there is one."""
        found = RECTANGLE.fullmatch(self.words)
        try:
            return [number(text) for text in found[1].split()] if found else None
        except ValueError:
            return None

    def period(self) -> Period | None:
        """The period that was asked for, in milliseconds since 1970, if there is one."""
        return period_of(self.words)


def period_of(words: str) -> Period | None:
    """The period of a question, if it has one."""
    found = PERIOD.fullmatch(words)
    try:
        return (read_instant(found[1]), read_instant(found[2])) if found else None
    except ValueError:
        return None


class Hit(NamedTuple):
    """A leg of an answer, with its times in milliseconds after the store's base."""

    name: str
    first: float
    last: float
    places: list
    values: list


def read_answers(path: str, script: str | None) -> list[Answer]:
    """The answers of a file; a refusal is one without records."""
    questions = read_script(script) if script else []
    answers: list[Answer] = []
    left = 0
    with opened(path) as raw:
        for row in csv.reader(as_text(raw)):
            fields = [text.strip(" \t") for text in row]
            if left:
                answers[-1].rows.append(fields)
                left -= 1
                continue
            head = HEAD.fullmatch(fields[0]) if len(fields) == 1 else None
            if head or fields and fields[0].startswith("refused "):
                place = len(answers)
                words = questions[place] if place < len(questions) else ""
                answers.append(Answer(place + 1, words, []))
                left = int(head[1]) if head else 0
    return answers


def read_script(path: str) -> list[str]:
    """The commands of a script, each of which has an answer."""
    with opened(path) as raw:
        lines = (" ".join(line.split()) for line in as_text(raw))
        return [line for line in lines if line and not line.startswith("#")]


def chosen(answers: list[Answer], question: int | None) -> list[Answer]:
    """All answers, or the one with a number."""
    if question is None:
        return answers
    if not 0 < question <= len(answers):
        raise Refused(f"there is no answer {question}; there are {len(answers)}")
    return [answers[question - 1]]


def hits(answers: list[Answer], dimension: int) -> Iterator[Hit]:
    """The legs in answers."""
    for answer in answers:
        for row in answer.rows:
            try:
                first, last = (number(text) * 1000 for text in row[1:3])
                numbers = [number(word) for word in row[3].split()]
            except (ValueError, IndexError):
                continue
            if len(numbers) == 2 * dimension:
                places = [tuple(numbers[:2]), tuple(numbers[dimension : dimension + 2])]
                yield Hit(row[0], first, last, places, row[4:])


def names(answers: list[Answer]) -> dict[str, list[Period | None]]:
    """The features that answers to `features` name, and in which periods: their records have one field."""
    found: dict[str, list[Period | None]] = {}
    for answer in answers:
        period = answer.period()
        for row in answer.rows:
            if len(row) == 1:
                found.setdefault(row[0], []).append(period)
    return found


def base_of(votes: Mapping[float, int], start: float) -> tuple[float, bool]:
    """The store's base: the one under which most legs of the answer are legs of the files."""
    if not votes:
        return start, False
    most = max(votes.values())
    found = [base for base, count in votes.items() if count == most]
    return (start if start in found else found[0]), True
