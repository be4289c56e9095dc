"""Answers: records that are read one by one, again and again, or at once as a frame."""

from __future__ import annotations

import csv
import io
from collections.abc import Iterator
from types import ModuleType
from typing import TYPE_CHECKING, Generic, TypeVar

from mftb.errors import MftbError
from mftb.forms import Form
from mftb.runs import Printed

if TYPE_CHECKING:
    import geopandas
    import pandas

Record = TypeVar("Record")
# A field of an attribute may be as long as a file.
csv.field_size_limit(1 << 30)


class Answer(Generic[Record]):
    """The answer to a question.

    It has a length, and can be iterated any number of times. Its records lie in a temporary file,
    so that an answer of any size takes no memory until it is made a frame.
    """

    def __init__(self, question: str, crs: str | None = None) -> None:
        self.question, self.crs = question, crs
        self.error: MftbError | None = None
        self._printed: Printed | None = None
        self._form: Form[Record] = Form()

    def fill(self, printed: Printed, form: Form[Record]) -> Answer[Record]:
        """Gives the answer its records."""
        self._printed, self._form = printed, form
        return self

    def records(self) -> tuple[Printed, Form[Record]]:
        """Where the records are, and how they are read; an answer that was refused raises why."""
        if self.error:
            raise self.error
        if self._printed is None:
            raise RuntimeError(f"{self.question!r} is asked when its batch ends")
        return self._printed, self._form

    def __len__(self) -> int:
        return self.records()[0].count

    def __iter__(self) -> Iterator[Record]:
        printed, form = self.records()
        read = form.record
        with printed.opened() as file:
            rows = csv.reader(io.TextIOWrapper(file, encoding="utf-8", newline=""))
            for _ in range(printed.count):
                yield read(next(rows))

    def __repr__(self) -> str:
        state = "not asked yet" if not (self._printed or self.error) else self.error or f"{len(self)} records"
        return f"<Answer to {self.question!r}: {state}>"

    def one(self) -> Record:
        """The record of an answer that has one."""
        (record,) = self
        return record

    def to_pandas(self, exact: bool = False) -> pandas.DataFrame:
        """The records as a frame, a row each.

        With `exact` stays and visits have the columns `enters` and `leaves`, of fractions.
        """
        return framing().frame(*self.records(), exact)

    def to_geopandas(self) -> geopandas.GeoDataFrame:
        """The records as a frame with a geometry: a line a leg, or two places of a stay, a visit or a gap."""
        return framing().geoframe(*self.records(), self.crs)


def framing() -> ModuleType:
    """What makes frames, if pandas is there."""
    try:
        from mftb import frames
    except ModuleNotFoundError as why:
        raise ModuleNotFoundError(f"frames take pandas (Debian's package python3-pandas): {why}") from None
    return frames
