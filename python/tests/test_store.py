"""The library over a store: what it answers is what the pages work out by hand, and errors have the program's words."""
import importlib.util
import unittest
import warnings
from dataclasses import replace
from datetime import datetime, timedelta, timezone
from decimal import Decimal
from fractions import Fraction
from pathlib import Path

import mftb
from common import BUILT, ROOT, Case, folder_of, has_info
from mftb import errors, forms, lines, records, runs

S1 = ROOT / "examples" / "standard" / "S1.csv"
START = datetime(2012, 1, 17, 12, 33, 41, tzinfo=timezone.utc)
BOX = (11.5, 2.5, 13, 4)
PERIOD = ("2012-01-17T12:33:41Z", START + timedelta(minutes=3, seconds=19))
WALKING = {"state": "walking", "type code": "1"}


def after(seconds):
    return START + timedelta(seconds=seconds)


def since_1970(milliseconds):
    """An exact moment, so many milliseconds after the start of the example."""
    return Fraction(1326803621) + Fraction(milliseconds) / 1000


class Words(unittest.TestCase):
    def test_numbers_are_plain_decimals(self):
        for value, text in [
            (1, "1"),
            (-0.5, "-0.5"),
            (1e-7, "0.0000001"),
            (1e20, "100000000000000000000"),
            (Decimal("1.10"), "1.10"),
            (Fraction(1, 3), "0.3333333"),
            (" 2.50 ", "2.50"),
        ]:
            self.assertEqual(lines.number(value), text)
        for value in float("nan"), float("inf"), None:
            self.assertRaises(ValueError, lines.number, value)

    def test_moments_have_a_zone(self):
        summer = timezone(timedelta(hours=2))
        self.assertEqual(
            lines.moment(datetime(2024, 6, 3, 11, 0, 0, 500, tzinfo=summer)), "2024-06-03T09:00:00.000500Z"
        )
        with self.assertRaisesRegex(ValueError, "has no zone"):
            lines.moment(datetime(2024, 6, 3))

    def test_a_name_is_one_line(self):
        self.assertRaises(ValueError, lines.line, "trajectory", "a\nwrite")


class Errors(Case):
    """Errors of a stand-in that says what it is told."""

    def store(self, said, status):
        self.write("said", said)
        path = self.folder / self.write("mftb", f"#!/bin/sh\ncat {self.folder}/said >&2\nexit {status}\n")
        path.chmod(0o755)
        return mftb.Store(self.folder / "store", program=path)

    def test_each_line_of_the_manual_is_an_error_of_its_own(self):
        for said, kind, place in [
            ("memory", errors.MemoryExhausted, None),
            ("output", errors.OutputFailed, None),
            ("failed", errors.StoreError, None),
            ("store", errors.StoreError, None),
            ("no such store", errors.StoreMissing, None),
            ("store in use", errors.StoreInUse, None),
            ("store unfinished", errors.StoreUnfinished, None),
            ("store version", errors.StoreVersion, None),
            ("store malformed", errors.StoreMalformed, None),
            ("store full", errors.StoreFull, None),
            ("page 12 damaged", errors.StoreDamaged, 12),
            ("cannot read day.csv", errors.FileUnreadable, None),
            (f"cannot read {self.folder}/store", errors.StoreMissing, None),
        ]:
            with self.subTest(said):
                store = self.store(f"mftb: {said}\n", 1)
                with self.assertRaises(mftb.MftbError) as raised:
                    store.count()
                error = raised.exception
                self.assertIs(type(error), kind)
                self.assertEqual((str(error), error.status, error.place), (f"mftb: {said}", 1, place))

    def test_other_ends(self):
        for said, status, kind in [
            ("usage: mftb", 2, errors.WrongWords),
            ("", 7, errors.ProgramFailed),
            ("", "0; kill -9 $$", errors.ProgramFailed),
        ]:
            self.assertRaises(kind, self.store(said, status).count)

    def test_no_program(self):
        with self.assertRaisesRegex(errors.ProgramMissing, "there is no program"):
            mftb.Store("store", program=self.folder / "none")

    @unittest.skipIf(importlib.util.find_spec("pandas"), "pandas is there")
    def test_no_pandas(self):
        answer = mftb.Answer("count").fill(runs.Printed(runs.Spool(), 0, 0), forms.CountForm(names=["legs"]))
        for ask in answer.to_pandas, answer.to_geopandas, mftb.Table().to_pandas:
            self.assertRaisesRegex(ModuleNotFoundError, "frames take pandas", ask)

    def test_half_an_answer(self):
        store = self.store("", 0)
        self.assertRaisesRegex(errors.ProgramFailed, "gave 0 answers to 1|does not say", store.count)


@unittest.skipUnless(has_info(), "tools/unproved has made no build yet")
class Standard(Case):
    """The example of the standard, whose answers docs/user/SCRIPT.md and the manual pages work out."""

    @classmethod
    def setUpClass(cls):
        cls.store = mftb.Store(folder_of(cls) / "store", program=BUILT)
        cls.loaded = cls.store.load(S1)

    def test_what_is_loaded(self):
        self.assertEqual(self.loaded, [records.Loaded(5, 3, records=4, file=str(S1))])
        self.assertEqual(self.store.count().one(), records.Counts(5, 3))
        info = self.store.info()
        self.assertEqual((info.legs, info.features, info.dimension, info.start), (5, 3, 2, START))
        self.assertEqual((info.first, info.last, info.extent), (after(10), after(190), (10, 1, 12, 3)))
        self.assertEqual(info.columns, (("state", "xsd:token"), ("type code", "xsd:integer")))
        report = self.store.check()
        self.assertEqual((report.legs, report.features), (5, 3))

    def test_legs(self):
        first = records.Leg("a", after(10), after(150), (11, 2), (12, 3), WALKING)
        second = records.Leg("a", after(150), after(190), (12, 3), (10, 3), WALKING | {"type code": "2"})
        for _ in range(2):
            self.assertEqual(list(self.store.box(BOX, PERIOD)), [first, second])
        self.assertEqual(list(self.store.legs("enters", BOX, PERIOD)), [first])
        self.assertEqual(len(self.store.legs("crosses", BOX, PERIOD)), 0)
        self.assertEqual(list(self.store.features("crosses", BOX, PERIOD)), [records.Feature("a")])
        self.assertEqual([leg.end for leg in self.store.trajectory("c")], [after(100), after(190)])
        self.assertEqual(list(self.store.trajectory("nobody")), [])

    def test_moments(self):
        one, two = self.store.moments(BOX, PERIOD)
        edge = since_1970(80000), since_1970(150000), after(80), after(150), (11.5, 2.5), (12, 3), "edge", "leg"
        self.assertEqual(one, records.Stay("a", *edge, edge_in="left+bottom"))
        self.assertEqual((two.leaves, two.place_out, two.leaves_by), (since_1970(160000), (11.5, 3), "edge"))
        self.assertEqual((two.edge_in, two.edge_out), ("", "left"))
        (visit,) = self.store.visits(BOX, PERIOD)
        self.assertEqual((visit.enters, visit.leaves, visit.legs), (since_1970(80000), since_1970(160000), 2))
        self.assertEqual(list(self.store.dwell(BOX, PERIOD)), [records.Dwell("a", 1, Fraction(80), Fraction(80))])

    def test_attributes_of_stays(self):
        plain = list(self.store.moments(BOX, PERIOD))
        self.assertEqual([stay.attributes for stay in plain], [{}, {}])
        polygon = "POLYGON ((11.5 2.5, 13 2.5, 13 4, 11.5 4, 11.5 2.5))"
        for zones in BOX, {"one": BOX}, polygon, {"one": polygon}:
            stays = self.store.moments(zones, PERIOD, attributes=True)
            self.assertEqual([stay.attributes for stay in stays], [WALKING, WALKING | {"type code": "2"}])
            wanted = [replace(stay, attributes={}) for stay in stays]
            self.assertEqual(list(self.store.moments(zones, PERIOD)), wanted)

    def test_zones_with_names(self):
        visits = self.store.visits({"one": BOX, "all": (10, 1, 12, 3)}, PERIOD)
        self.assertEqual([(it.zone, it.feature) for it in visits], [("one", "a"), *(("all", name) for name in "abc")])
        (one,) = self.store.visits({"one": BOX}, PERIOD)
        self.assertEqual((one.enters_by, one.leaves_by, one.legs), ("edge", "edge", 2))
        (count,) = visits.by("year", key=lambda visit: visit.zone if visit.feature == "a" else None)[:1]
        self.assertEqual((count.zone, count.key, count.features, count.begin.year), ("one", "one", 1, 2012))
        # From 12:35:01 to 12:36:21.
        parts = self.store.dwell({"one": BOX}, PERIOD).by("1min")
        self.assertEqual([(it.begin.minute, it.seconds) for it in parts], [(35, 59), (36, 21)])

    def test_a_page(self):
        file = self.store.page(
            folder_of(type(self)) / "map.html", rectangles={"box": BOX}, title="A & b", period=PERIOD
        )
        self.assertIn("<title>A &amp; b</title>", Path(file).read_text())
        for words in {"rectangles": {"box": (1, 0, 0, 1)}}, {"period": ("now", PERIOD[1])}:
            self.assertRaises(ValueError, self.store.page, file, **words)
        late = ("2050-01-01T00:00:00Z", "2051-01-01T00:00:00Z")
        with self.assertRaisesRegex(mftb.MftbError, "there is no leg from"):
            self.store.page(file, period=late)

    def test_a_batch_is_one_run(self):
        with self.store.batch() as batch:
            legs, features = batch.box(BOX, PERIOD), batch.features("ever", BOX, PERIOD)
            count, track = batch.count(), batch.trajectory("b")
            self.assertRaises(RuntimeError, len, legs)
        self.assertEqual((len(legs), len(track), count.one().legs), (2, 1, 5))
        self.assertEqual([it.feature for it in features], ["a"])

    def test_a_script(self):
        script = f"# first\n\ncount\nlegs near 0 0 1 1 {PERIOD[0]} {PERIOD[0]}\nwrite\n"
        count, refused, written = self.store.run(script, strict=False)
        self.assertEqual((count.one().legs, len(written)), (5, 7))
        self.assertIsInstance(refused.error, errors.QuestionRefused)
        self.assertEqual((refused.error.code, refused.error.place, refused.error.status), ("Q4", 4, 3))
        known = "there are ever, always, enters, leaves, crosses and bypasses"
        self.assertEqual(str(refused.error), f"script line 4: unknown predicate 'near'; {known} (Q4)")
        self.assertRaises(errors.QuestionRefused, list, refused)
        self.assertRaises(errors.QuestionRefused, self.store.run, script)

    def test_a_file_that_is_refused(self):
        with self.assertRaises(errors.FileRefused) as raised:
            self.store.load(S1)
        self.assertEqual((raised.exception.code, raised.exception.place), ("F18", 3))
        self.assertIn(
            "record 3, feature a: begins at 2012-01-17T12:33:51Z, before its last leg ends", str(raised.exception)
        )
        self.assertRaises(errors.FileUnreadable, self.store.load, self.folder / "none.csv")

    def test_what_is_written_is_loaded(self):
        self.store.write(self.folder / "all.csv")
        other = mftb.Store(self.folder / "other", program=BUILT)
        self.assertEqual(other.load(self.folder / "all.csv")[0].legs, 5)
        self.assertEqual(list(other.box(BOX, PERIOD)), list(self.store.box(BOX, PERIOD)))

    def test_a_question_beside_all_legs_warns(self):
        with warnings.catch_warnings(record=True) as said:
            warnings.simplefilter("always")
            self.assertEqual(len(self.store.legs("ever", (2, 11, 3, 12), PERIOD)), 0)
        self.assertEqual([it.category for it in said], [mftb.MftbWarning])
        self.assertIn("with x and y exchanged it would", str(said[0].message))

    def test_a_store_that_is_not_there(self):
        absent = mftb.Store(self.folder / "absent", program=BUILT)
        for ask in absent.count, absent.info, absent.check, lambda: absent.moments(BOX, PERIOD):
            self.assertRaises(errors.StoreMissing, ask)
        self.assertFalse((self.folder / "absent").exists())


HEAD = "@stboundedby,metres,2D,,,2024-01-01T00:00:00Z,,sec\n@columns,mfidref,trajectory\n"
# a is silent from 10 to 20 and from 30 to 31.5; b never is.
SILENT = HEAD + "a,-1,10,0 0 1 0\nb,0,40,5 5 6 6\na,20,30,2 0 3 0\na,31.5,40,4 0 5 0\n"


@unittest.skipUnless(has_info(), "tools/unproved has made no build yet")
class Gaps(Case):
    @classmethod
    def setUpClass(cls):
        folder = folder_of(cls)
        (folder / "silent.csv").write_text(SILENT)
        cls.store = mftb.Store(folder / "store", program=BUILT)
        cls.store.load(folder / "silent.csv")

    def gaps(self, first, last):
        start = datetime(2024, 1, 1, tzinfo=timezone.utc)
        found = self.store.gaps([start + timedelta(seconds=it) for it in (first, last)])
        return [(gap.feature, *((it - start).total_seconds() for it in (gap.begin, gap.end))) for gap in found]

    def test_gaps_that_have_a_part_in_the_period(self):
        both = [("a", 10, 20), ("a", 30, 31.5)]
        self.assertEqual(self.gaps(-5, 50), both)
        self.assertEqual(self.gaps(12, 13), both[:1])
        self.assertEqual(self.gaps(0, 10), [])
        self.assertEqual(self.gaps(20, 30.001), both[1:])
        self.assertEqual(self.gaps(20, 30), [])

    def test_where_a_gap_lies(self):
        (gap, _) = self.store.gaps(("2024-01-01T00:00:00Z", "2024-01-01T00:01:00Z"))
        self.assertEqual((gap.start, gap.finish), ((1, 0), (2, 0)))


@unittest.skipUnless(has_info(), "tools/unproved has made no build yet")
class Fleet(Case):
    """A fleet of two parts is asked as a store is."""

    @classmethod
    def setUpClass(cls):
        cls.fleet = mftb.Fleet.new(folder_of(cls) / "fleet", 2, program=BUILT)
        cls.loaded = cls.fleet.load(S1)

    def test_what_is_loaded(self):
        self.assertEqual(self.loaded, [records.Loaded(5, 3, records=4, file=str(S1))])
        info = self.fleet.info()
        self.assertEqual((info.legs, info.features, info.start, info.extent), (5, 3, START, (10, 1, 12, 3)))
        self.assertEqual((info.first, info.last), (after(10), after(190)))
        self.assertEqual(self.fleet.check().legs, 5)
        with self.assertRaises(errors.FileRefused) as raised:
            self.fleet.load(S1)
        self.assertEqual((raised.exception.code, raised.exception.place), ("F18", 3))

    def test_questions(self):
        with self.fleet.batch() as batch:
            legs, features = batch.box(BOX, PERIOD), batch.features("crosses", BOX, PERIOD)
        self.assertEqual([(leg.feature, leg.begin) for leg in legs], [("a", after(10)), ("a", after(150))])
        self.assertEqual(list(features), [records.Feature("a")])
        (visit,) = self.fleet.visits(BOX, PERIOD)
        self.assertEqual((visit.enters, visit.leaves, visit.legs), (since_1970(80000), since_1970(160000), 2))
        stays = self.fleet.moments((10, 1, 12, 3), PERIOD)
        self.assertEqual([(it.feature, it.enters_at) for it in stays], self.all_stays())
        stays = self.fleet.moments(BOX, PERIOD, attributes=True)
        self.assertEqual([it.attributes["type code"] for it in stays], ["1", "2"])
        self.assertEqual(list(self.fleet.gaps(PERIOD)), [])

    def test_a_page_has_all_parts(self):
        file = self.fleet.page(folder_of(type(self)) / "map.html", rectangles={"box": BOX})
        self.assertIn("<title>fleet</title>", Path(file).read_text())
        self.assertEqual([it.feature for it in self.fleet.visits({"box": BOX}, PERIOD)], ["a"])

    def all_stays(self):
        """Each leg is inside for its whole time, as the rectangle is that of all legs."""
        return [*((name, after(10)) for name in "abc"), ("c", after(100)), ("a", after(150))]

    def test_a_line_that_is_refused(self):
        (refused,) = self.fleet.run(["legs near 0 0 1 1 a b"], strict=False)
        self.assertEqual((refused.error.code, refused.error.place), ("Q4", 1))
        self.assertRaises(ValueError, self.fleet.run, ["load a"])
