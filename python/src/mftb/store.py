"""A store: what it is asked, and what is loaded into it. The answers are those of the program."""

from __future__ import annotations

import os
from collections.abc import Iterable, Sequence
from functools import partial
from pathlib import Path as FilePath
from types import TracebackType
from typing import TYPE_CHECKING, Any, TypeAlias, TypeVar

from mftb import errors, forms, gaps, lines, moments, runs
from mftb.lines import Path, Period, Predicate, Rectangle
from mftb.records import Counts, Feature, Gap, Info, Leg, Loaded, Report, Stay
from mftb.results import Answer
from mftb.tallies import Dwells, Visits
from mftb.zones import Asked, Words, Zones, asked

if TYPE_CHECKING:
    import pandas

Record = TypeVar("Record")
# The rectangles and the zones of a page.
Shown: TypeAlias = tuple[Asked | None, Asked | None]


class Questions:
    """The questions of a script; what answers them is said by whom is asked."""

    def _ask(self, line: str) -> Answer:
        raise NotImplementedError

    def count(self) -> Answer[Counts]:
        """How many legs and features there are: `.count().one()`."""
        return self._ask("count")

    def legs(self, predicate: Predicate, rectangle: Rectangle, period: Period) -> Answer[Leg]:
        """The legs of which a predicate holds, each leg alone."""
        return self._ask(lines.line("legs", predicate, *lines.words(rectangle, period)))

    def features(self, predicate: Predicate, zones: Rectangle, period: Period) -> Answer[Feature]:
        """The features of whose whole list of legs a predicate holds."""
        return self._ask(lines.line("features", predicate, *lines.words(zones, period)))

    def box(self, rectangle: Rectangle, period: Period) -> Answer[Leg]:
        """The legs whose least box meets this one, in x, in y and in time."""
        return self._ask(lines.line("box", *lines.words(rectangle, period)))

    def trajectory(self, name: str) -> Answer[Leg]:
        """The legs of a feature; none for an unknown name."""
        return self._ask(lines.line("trajectory", str(name)))


class Book(Questions):
    """What a store and a fleet have in common."""

    path: str

    def _run(self, script: Sequence[str], files: Sequence[str], spool: runs.Spool) -> str:
        """Runs the lines of a script, whose answers go to a spool, and returns what was said."""
        raise NotImplementedError

    def info(self) -> Info:
        """What the store holds."""
        raise NotImplementedError

    def _ask(self, line: str) -> Answer:
        return self.run([line])[0]

    def run(self, script: str | Iterable[str], files: Iterable[Path] = (), strict: bool = True) -> list[Answer]:
        """Runs a script in one process, and returns the answer to each of its commands.

        The script is a text, or lines. A line that is refused raises its error when all ran; with
        `strict=False` its answer has the error instead, and raises it when it is read.
        """
        script = lines.script_lines(script)
        asked = [(place, line) for place, line in enumerate(script, 1) if lines.command_of(line)]
        answers: list[Answer] = [Answer(line.strip()) for _, line in asked]
        self._fill(script, [place for place, _ in asked], answers, [os.fspath(file) for file in files])
        for answer in answers if strict else ():
            if answer.error:
                raise answer.error
        return answers

    def _fill(self, script: Sequence[str], places: Sequence[int], answers: Sequence[Answer], files: list[str]) -> None:
        """Runs a script, and gives answers their records or their errors."""
        spool = runs.Spool()
        told = Told(self._run(script, files, spool))
        info = self.info()
        for place, answer, printed in zip(places, answers, runs.answers(spool, len(answers)), strict=True):
            command, _, rest = answer.question.partition(" ")
            answer.crs = info.crs
            if isinstance(printed, str):
                answer.error = errors.of_refusal(printed, told.of(place, command, rest.strip(), printed), place)
            else:
                answer.fill(printed, forms.form_of(command, rest.strip(), info))
        runs.hint(told.rest)

    def batch(self, strict: bool = True) -> Batch:
        """Questions that are asked in one process, when the `with` block of the batch ends."""
        return Batch(self, strict)

    def load(self, *files: Path) -> list[Loaded]:
        """Loads files, in order. If one is refused its error is raised; those before it stay loaded."""
        names = [os.fspath(file) for file in files]
        return [answer.one() for answer in self.run([lines.line("load", name) for name in names], names)]

    def load_frame(self, frame: pandas.DataFrame, **columns: Any) -> Loaded:
        """Loads the positions of a frame; `mftb.positions.write` says what its columns are."""
        from mftb import positions

        with positions.legs_file(frame, **columns) as file:
            return self.load(file)[0]

    def gaps(self, period: Period) -> Answer[Gap]:
        """The times without a position, between two legs of a feature, that have a part in the period.

        They are found by this library, from all legs.
        """
        info = self.info()
        if info.first is None or info.last is None:
            raise errors.StoreError("the store has no legs")
        found = self.box(gaps.EVERYWHERE, (info.first, info.last))
        return gaps.between(found, forms.leg_form(info), period)

    def write(self, file: Path) -> None:
        """Writes all that the store holds as a file that can be loaded again."""
        printed, _ = self._ask("write").records()
        FilePath(file).write_bytes(printed.read())

    def page(
        self,
        file: Path,
        *,
        rectangles: Zones | None = None,
        zones: Zones | None = None,
        title: str | None = None,
        period: Period | None = None,
    ) -> str:
        """Writes a page for a browser, a map that moves, and returns the file's name.

        It has the crossings of rectangles, and the outlines of zones.
        """
        places = None if rectangles is None else asked(rectangles)
        outlines = None if zones is None else asked(zones)
        self._page(os.fspath(file), (places, outlines), title, period)
        return os.fspath(file)

    def _page(self, file: str, shown: Shown, title: str | None, period: Period | None) -> None:
        """Writes a page with rectangles and zones."""
        raise NotImplementedError

    def features(self, predicate: Predicate, zones: Zones, period: Period) -> Answer[Feature]:
        """The features of whose whole list of legs a predicate holds, of each zone that has a name or is a polygon."""
        given = asked(zones)
        if given.are_rectangles and not given.has_names:
            return super().features(predicate, given.shapes[""], period)
        given, flags = given.as_polygons(), ["--features", predicate]
        names, printed = self._inside(given, flags, period)
        answer: Answer[Feature] = Answer(given.question(flags, period), self.info().crs)
        return answer.fill(printed, forms.FeatureForm(names=names))

    def moments(self, zones: Zones, period: Period, *, attributes: bool = False) -> Answer[Stay]:
        """When each leg is inside a zone; a leg may be inside a polygon several times.

        If `attributes` are wanted, each record has those of its leg.
        """
        given, info = asked(zones), self.info()
        flags, columns = (["--legs", "--columns"], info.columns) if attributes else (["--legs"], ())
        answer: Answer[Stay] = Answer(given.question(flags, period), info.crs)
        names, printed = self._inside(given, flags, period, len(columns))
        return answer.fill(printed, forms.StayForm(names=names, start=forms.start_of(info), columns=columns))

    def visits(self, zones: Zones, period: Period) -> Visits:
        """When each feature is inside a zone, or inside each of some that have names.

        A visit is stays joined over legs without a gap in time. Those of each zone stand together.
        """
        given, flags, info = asked(zones), ["--visits"], self.info()
        names, printed = self._inside(given, flags, period)
        ends = moments.seconds(period)
        answer = Visits(given.question(flags, period), info.crs, given.names(), ends)
        answer.fill(printed, forms.VisitForm(names=names, start=forms.start_of(info)))
        return answer

    def dwell(self, zones: Zones, period: Period) -> Dwells:
        """How long each feature is inside a zone, or inside each of some that have names, in all."""
        given, flags, info = asked(zones), ["--dwell"], self.info()
        names, printed = self._inside(given, flags, period)
        answer = Dwells(given.question(flags, period), info.crs, partial(self.visits, zones, period))
        answer.fill(printed, forms.DwellForm(names=names, start=forms.start_of(info)))
        return answer

    def _inside(
        self, given: Asked, flags: list[str], period: Period, attributes: int = 0
    ) -> tuple[list[str], runs.Printed]:
        """The names of the fields, and the records, of what the program says of zones; so many are attributes."""
        with given.words(flags, period) as words:
            return moments.named(*self._told(words, given), given.has_names, attributes)

    def _told(self, words: Words, given: Asked) -> tuple[list[str], runs.Printed]:
        """The names of the fields of `mftb moments` or `mftb zones`, and the records."""
        raise NotImplementedError


class Store(Book):
    """A store of mftb: a file.

    It is made by the first load. `program` names the program; without it that of `MFTB_PROGRAM` is
    taken, else `mftb` on the path, else the one that the repository built. `cache_pages` is how many
    pages of 4096 bytes the program keeps in memory.
    """

    def __init__(
        self, path: Path, *, program: Path | None = None, cache_pages: int | None = None, in_place: bool = False
    ) -> None:
        self.path, self.program = os.fspath(path), runs.found(program)
        self._cache = ["--cache-pages", str(cache_pages)] if cache_pages else []
        self._in_place = ["--in-place"] if in_place else []

    def __repr__(self) -> str:
        return f"Store({self.path!r})"

    def info(self) -> Info:
        """What the store holds."""
        return forms.info_of(self._printed("info", "--json", self.path))

    def check(self) -> Report:
        """Tests that all pages of the store hold one database, and returns how much."""
        if not os.path.exists(self.path):
            # The program makes the file that it is to check.
            raise errors.StoreMissing(f"there is no store {self.path}")
        text = self._printed("check", *self._cache, self.path)
        pages, legs, features = map(int, text.split("\n")[1].split(","))
        return Report(legs, features, pages)

    def _page(self, file: str, shown: Shown, title: str | None, period: Period | None) -> None:
        from mftb.page import store

        store.save(store.Wanted(self.path, self.program, file, title, period), *shown)

    def _printed(self, *words: str) -> str:
        """What the program prints, if it ends well."""
        spool = runs.Spool()
        self._spooled(words, spool)
        return FilePath(spool.path).read_text()

    def _spooled(self, words: Sequence[str], spool: runs.Spool) -> str:
        """Runs the program, and returns what it said on standard error."""
        said = runs.spooled([self.program, *words], spool)
        if said.status and f"mftb: cannot read {self.path}\n" in said.text:
            raise errors.StoreMissing(said.text.strip(), status=said.status)
        if said.status:
            raise errors.of_status(said.status, said.text)
        return said.text

    def _run(self, script: Sequence[str], files: Sequence[str], spool: runs.Spool) -> str:
        is_loading = any(lines.command_of(line) == "load" for line in script)
        flags = ["--explain", *self._cache, *(self._in_place if is_loading else ["--existing"])]
        with runs.script_file(script) as name:
            return self._spooled(["run", *flags, self.path, name, "--", *files], spool).replace(name, "script")

    def _told(self, words: Words, given: Asked) -> tuple[list[str], runs.Printed]:
        said, spool = self._said(words)
        runs.hint(Told(said).rest)
        return runs.table(spool)

    def _said(self, words: Words) -> tuple[str, runs.Spool]:
        """What the program says of zones on standard error, and what it prints."""
        spool = runs.Spool()
        command = [words.command, *words.before, "--explain", *self._cache, self.path, *words.behind]
        return self._spooled(command, spool), spool


class Batch(Questions):
    """Questions of one run: each gives an answer at once, which is filled when the batch ends."""

    def __init__(self, book: Book, strict: bool = True) -> None:
        self._book, self._strict, self._answers = book, strict, list[Answer]()

    def _ask(self, line: str) -> Answer:
        self._answers.append(Answer(line))
        return self._answers[-1]

    def __enter__(self) -> Batch:
        return self

    def __exit__(
        self, kind: type[BaseException] | None, error: BaseException | None, trace: TracebackType | None
    ) -> None:
        if error is not None or not self._answers:
            return
        script = [answer.question for answer in self._answers]
        self._book._fill(script, range(1, len(script) + 1), self._answers, [])
        for answer in self._answers if self._strict else ():
            if answer.error:
                raise answer.error


class Told:
    """What a run said on standard error, line by line, beside its answers."""

    def __init__(self, text: str) -> None:
        self.rest = [line for line in text.splitlines() if line.startswith("mftb: ") and "UNPROVED" not in line]

    def of(self, place: int, command: str, rest: str, refusal: str) -> str:
        """What was said of a line that was refused, by its number, or of a file, by its name."""
        code = refusal.split()[1]
        begins = f"mftb: {rest}" if code.startswith("F") else f"mftb: script line {place}: "
        for line in self.rest:
            if line.startswith(begins) and (code in line or not code.startswith("F")):
                self.rest.remove(line)
                words = line.removeprefix("mftb: ")
                return words if code in words else f"{words} ({code})"
        return f"{command} {rest}: {refusal}"
