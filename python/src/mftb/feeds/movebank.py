"""A Movebank download of locations as a file of legs, in the profile of docs/user/FILES.md.

A feature is an individual-local-identifier; x is the longitude, y the latitude.
"""

from __future__ import annotations

from argparse import Namespace
from collections.abc import Callable, Sequence

from mftb import sources, texts
from mftb.feeds import arguments, conversion
from mftb.feeds.positions import Position

EXAMPLE = """example:
  tools/from_movebank --columns individual-taxon-canonical-name --skip-bad storks.csv -o legs.csv

Columns are found by their names, with - or _: timestamp (2024-08-01 05:00:12.000, in UTC, or with
T, Z or an offset), location-long, location-lat, individual-local-identifier. Rows that were marked
as outliers are left out, by visible, or by hand, at the import or by an algorithm, where they were not
marked as valid by hand; as are rows without a location. Rows may come in any order; where an animal
goes back in time, all are sorted on disk, and that is said.
This tool is no part of any proof."""

NAMES = "timestamp", "individual-local-identifier", "location-long", "location-lat"
MARKS = "manually-marked-outlier", "algorithm-marked-outlier", "import-marked-outlier"
YES, NO = {"true", "1", "t", "yes"}, {"false", "0", "f", "no"}
# What R and others write for no value.
NOTHING = {"", "na", "nan", "null"}


class Studies:
    """The study of each animal, and the first animal that is in two."""

    def __init__(self) -> None:
        self.of: dict[str, str] = {}
        self.twice: str | None = None

    def see(self, animal: str, study: str) -> None:
        """Notes the study of an animal."""
        if self.of.setdefault(animal, study) != study and not self.twice:
            self.twice = f"{animal!r} is in the studies {self.of[animal]!r} and {study!r}"

    def remark(self) -> str | None:
        """What to say of an animal in two studies."""
        return self.twice and f"{self.twice}: here one feature (see --prefix)"


def layout(header: list[str], kept: sources.Columns, midnight: bool, studies: Studies) -> sources.RowReader:
    """What reads a row below this header line."""
    study = sources.place_of(header, "study-name", "study-id")
    at, who, x, y = (sources.column(header, name) for name in NAMES)
    time, animal, *axes = (header[place] for place in (at, who, x, y))
    is_outlier, values = outlier_reader(header), kept.reader(header)

    def read(row: list[str]) -> Position:
        if is_outlier(row):
            raise texts.LeftOut("marked as outliers")
        when = moment(row[at], time, midnight)
        if is_nothing(row[x]) and is_nothing(row[y]):
            raise texts.LeftOut("without a position")
        place = texts.degrees(row[x], row[y], axes)
        name = texts.feature_name(row[who], animal)
        if study is not None:
            studies.see(name, row[study])
        return Position(name, when, place, values.of(row))

    return sources.RowReader(read)


def outlier_reader(header: list[str]) -> Callable[[list[str]], bool]:
    """What says whether a row was marked as an outlier, in any of the ways that Movebank has."""
    visible, valid = (sources.place_of(header, name) for name in ("visible", "manually-marked-valid"))
    by_hand, *others = (sources.place_of(header, name) for name in MARKS)
    others = [place for place in others if place is not None]

    def says(row: list[str], place: int | None, what: bool) -> bool:
        return place is not None and truth(row[place], header[place]) is what

    def read(row: list[str]) -> bool:
        if says(row, by_hand, True) or says(row, visible, False):
            return True
        marked = any([says(row, place, True) for place in others])
        return marked and not says(row, valid, True)

    return read


def truth(text: str, what: str) -> bool | None:
    """Whether a field says true or false; nothing where it is blank."""
    word = text.strip().lower()
    if word in YES or word in NO:
        return word in YES
    if word not in NOTHING:
        raise texts.BadLine(f"{what} {text!r} is neither true nor false")
    return None


def is_nothing(text: str) -> bool:
    return text.strip().lower() in NOTHING


def moment(text: str, what: str, midnight: bool) -> int:
    """The moment of 2024-08-01 05:00:12.000, or with T, Z or an offset."""
    try:
        if text[4:5] + text[7:8] + text[10:11] == "-- " and len(text) in (19, 23):
            return texts.moment((text[:4], text[5:7], text[8:10]), text[11:])
        return texts.instant_or_day(text) if midnight else texts.read_instant(text)
    except ValueError:
        day = texts.DAY.fullmatch(text) and not midnight
        raise texts.BadLine(
            f"{what} {text!r} is no instant of the form yyyy-mm-dd hh:mm:ss" + (" (see --midnight)" if day else "")
        ) from None


def reader(options: Namespace) -> conversion.FileReader:
    studies = Studies()

    def layout_of(header: list[str]) -> sources.RowReader:
        return layout(header, options.kept, options.midnight, studies)

    options.remarks.append(studies.remark)
    return lambda path, judge: sources.read_table(path, layout_of, sources.Work(judge), options.encoding)


def parse(given: Sequence[str] | None = None) -> Namespace:
    """The options of the command line, or of words that are given."""
    words = arguments.words(
        __doc__, EXAMPLE, gap="25h", why="one location a day, and an hour to spare", most="200km/h", usual="200km/h"
    )
    words.add_argument(
        "--midnight",
        action="store_true",
        help="a day without a time is its midnight, as R writes it",
    )
    arguments.add_encoding(words)
    return words.parse_args(given)


def main() -> int:
    return conversion.run("from_movebank", parse(), reader)
