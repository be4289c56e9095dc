"""Visits and dwells by the spans of a clock; what is wanted of each is counted by hand."""
import importlib.util
import unittest
from datetime import datetime, timezone
from fractions import Fraction
from itertools import pairwise

import common
import mftb
from common import StandIn
from mftb.clocks import Clock

STAND_IN = """#!/bin/sh
case "$2$3" in
--json*) cat {0}/info ;;
--*--rects) cat {0}/"rects$2" ;;
--*) cat {0}/"$1$2-$6" ;;
*) cat {0}/"$1-$4" ;;
esac
"""
INFO = common.INFO | {"start": "2024-10-26T22:00:00.000Z"}
NAMES = "feature,enters,leaves,enters_at,leaves_at,x_in,y_in,x_out,y_out"
# The night in which Berlin's clocks go back: from 02:00 to 03:00 they show each minute twice, from 00:00Z and from 01:00Z.
NIGHT = "2024-10-26T22:00:00Z", "2024-10-27T23:00:00Z"


def at(hours, minutes=0):
    """A moment in milliseconds after 22:00Z, and the instant."""
    seconds = hours * 3600 + minutes * 60
    moment = datetime.fromtimestamp(1729980000 + seconds, timezone.utc)
    return f"{seconds * 1000}/1", moment.strftime("%Y-%m-%dT%H:%M:%S.000000Z")


def row(feature, begin, end, *more):
    (enters, enters_at), (leaves, leaves_at) = at(*begin), at(*end)
    return ",".join([feature, enters, leaves, enters_at, leaves_at, "0", "0", "0", "5", *map(str, more)])


class Edges(unittest.TestCase):
    def edges(self, span, tz, first, last):
        moments = [Fraction(int(datetime.fromisoformat(text).timestamp())) for text in (first, last)]
        clock = Clock(span, tz)
        return [clock.shown(edge).strftime("%d %H:%M %Z") for edge in clock.edges(*moments)]

    def test_quarters_of_an_hour(self):
        found = self.edges("15min", "Asia/Kolkata", "2024-06-03T03:40:00Z", "2024-06-03T04:00:00Z")
        self.assertEqual(found, ["03 09:00 IST", "03 09:15 IST", "03 09:30 IST"])

    def test_an_hour_that_is_shown_twice_and_one_that_is_left_out(self):
        autumn = self.edges("1h", "Europe/Berlin", "2024-10-26T23:00:00Z", "2024-10-27T02:30:00Z")
        self.assertEqual(autumn, ["27 01:00 CEST", "27 02:00 CEST", "27 02:00 CET", "27 03:00 CET", "27 04:00 CET"])
        spring = self.edges("30min", "Europe/Berlin", "2024-03-31T00:30:00Z", "2024-03-31T01:29:00Z")
        self.assertEqual(spring, ["31 01:30 CET", "31 03:00 CEST", "31 03:30 CEST"])
        self.assertEqual(self.edges("6h", "Europe/Berlin", "2024-10-26T22:00:00Z", "2024-10-27T06:00:00Z"),
                         ["27 00:00 CEST", "27 06:00 CET", "27 12:00 CET"])  # fmt: skip

    def test_a_day_without_a_midnight(self):
        found = self.edges("6h", "America/Sao_Paulo", "2018-11-04T01:00:00Z", "2018-11-04T09:00:00Z")
        self.assertEqual(found, ["03 18:00 -03", "04 01:00 -02", "04 06:00 -02", "04 12:00 -02"])

    def test_days_weeks_months_and_years(self):
        period = "2023-12-30T12:00:00Z", "2024-01-31T23:30:00Z"
        for span, wanted in [
            ("week", ["25 00:00 CET", "01 00:00 CET", "08 00:00 CET", "15 00:00 CET", "22 00:00 CET", "29 00:00 CET",
                      "05 00:00 CET"]),
            ("month", ["01 00:00 CET", "01 00:00 CET", "01 00:00 CET", "01 00:00 CET"]),
            ("year", ["01 00:00 CET", "01 00:00 CET", "01 00:00 CET"]),
        ]:  # fmt: skip
            with self.subTest(span):
                self.assertEqual(self.edges(span, "Europe/Berlin", *period), wanted)
        self.assertEqual(self.edges("1d", "Europe/Berlin", *NIGHT), ["27 00:00 CEST", "28 00:00 CET"])
        self.assertEqual(self.edges("24h", "Europe/Berlin", *NIGHT), ["27 00:00 CEST", "28 00:00 CET"])

    def test_a_year_of_quarters_has_each_moment_once(self):
        edges = Clock("15min", "Europe/Berlin").edges(Fraction(1704063600), Fraction(1735686000))
        self.assertEqual({after - before for before, after in pairwise(edges)}, {900})
        self.assertEqual((edges[0], edges[-1], len(edges)), (1704063600, 1735686000, 366 * 96 + 1))

    def test_what_is_no_span_or_zone(self):
        for span in "7min", "2day", "5h", "0min", "-1h", "quarter", "":
            self.assertRaises(ValueError, Clock, span)
        self.assertRaisesRegex(ValueError, "Mars/Olympus", Clock, "day", "Mars/Olympus")
        self.assertRaisesRegex(ValueError, "a million", Clock("1s").edges, Fraction(0), Fraction(10**9))


class By(StandIn):
    """A stand-in answers: by its flag and by the second corner of the rectangle."""

    def setUp(self):
        super().setUp()
        self.store = self.stand_in(STAND_IN, INFO)

    def answer(self, y, *visits, zone=""):
        """What the program prints of a rectangle, or of one that has a name: visits with what begins and ends each."""
        of, end, first, names = ("rects", "", f"{zone},", "rectangle,") if zone else ("moments", f"-{y}", "", "")
        joined = [first + row(*visit, 1) for visit in visits]
        head = f"{names}{NAMES},enters_by,leaves_by,legs"
        self.write(f"{of}--visits{end}", "\n".join([head, *joined]) + "\n")
        dwell = "".join(f"{first}{visit[0]},1,1,1\n" for visit in visits)
        self.write(f"{of}--dwell{end}", f"{names}feature,visits,least,most\n{dwell}")

    def test_visits_know_what_begins_and_ends_them(self):
        self.answer(1, ("a", (0, 0), (1, 0), "period", "edge"), ("b", (2, 0), (3, 0), "edge", "leg"))
        found = self.store.visits((0, 1, 9, 9), NIGHT)
        self.assertEqual(
            [(it.enters_by, it.leaves_by, it.zone) for it in found], [("period", "edge", ""), ("edge", "leg", "")]
        )

    def test_counts_of_an_hour_that_is_shown_twice(self):
        # 02:10 in summer time, 02:10 in winter time, and one that is inside as the period begins.
        self.answer(1, ("a", (2, 10), (2, 20), "edge", "edge"), ("b", (3, 10), (4, 20), "edge", "edge"),
                    ("c", (0, 0), (2, 0), "period", "edge"))  # fmt: skip
        found = self.store.visits((0, 1, 9, 9), NIGHT).by("1h", tz="Europe/Berlin")
        self.assertEqual(len(found), 25)
        some = [(it.begin.strftime("%H:%M %Z"), it.entered, it.left, it.features) for it in found[:6]]
        self.assertEqual(some, [("00:00 CEST", 0, 0, 1), ("01:00 CEST", 0, 0, 1), ("02:00 CEST", 1, 2, 2),
                                ("02:00 CET", 1, 0, 1), ("03:00 CET", 0, 1, 1), ("04:00 CET", 0, 0, 0)])  # fmt: skip

    def test_zones_and_keys(self):
        self.answer(1, ("a", (0, 5), (0, 10), "edge", "edge"), zone="one")
        zones = {"one": (0, 1, 9, 9), "two": (0, 2, 9, 9)}
        period = NIGHT[0], "2024-10-26T22:15:00Z"
        visits = self.store.visits(zones, period)
        self.assertEqual([(it.zone, it.feature) for it in visits], [("one", "a")])
        found = visits.by("15min")
        self.assertEqual([(it.zone, it.key, it.entered) for it in found], [("one", "", 1), ("two", "", 0)])
        found = visits.by("15min", key=lambda visit: "north" if visit.place_out > visit.place_in else None)
        self.assertEqual([(it.zone, it.key, it.entered) for it in found], [("one", "north", 1)])
        self.assertEqual(visits.by("15min", key=lambda visit: None), [])
        self.assertRegex(repr(visits.by("15min")), r"^<2 records: VisitCount\(.*\), \.\.>$")
        dwells = self.store.dwell(zones, period)
        self.assertEqual(dwells.one(), mftb.Dwell("a", 1, Fraction(1), Fraction(1), "one"))
        (part,) = dwells.by("15min")
        self.assertEqual((part.zone, part.seconds, part.length, part.is_whole), ("one", 300, 900, False))

    def test_dwells_of_days_with_25_hours(self):
        self.answer(1, ("a", (0, 0), (25, 0), "period", "period"), ("b", (0, 0), (24, 0), "period", "edge"))
        found = self.store.dwell((0, 1, 9, 9), NIGHT).by("day", tz="Europe/Berlin")
        self.assertEqual([(it.feature, it.seconds, it.length, it.is_whole) for it in found],
                         [("a", 90000, 90000, True), ("b", 86400, 90000, False)])  # fmt: skip
        found = self.store.dwell((0, 1, 9, 9), NIGHT).by("month", tz="UTC")
        self.assertEqual(sum(it.seconds for it in found if it.feature == "b"), 86400)

    def test_a_dwell_that_ends_on_an_edge_has_no_part_behind_it(self):
        self.answer(1, ("a", (0, 30), (1, 0), "edge", "edge"), ("b", (1, 0), (1, 0), "edge", "edge"))
        found = self.store.dwell((0, 1, 9, 9), NIGHT).by("1h")
        self.assertEqual([(it.feature, it.begin.hour, it.seconds) for it in found], [("a", 22, 1800), ("b", 23, 0)])

    def test_what_is_no_zone(self):
        for zones in {}, {"": (0, 0, 1, 1)}, {1: (0, 0, 1, 1)}, {"one": (0, 0, 1)}:
            self.assertRaises(ValueError, self.store.visits, zones, NIGHT)

    @unittest.skipUnless(importlib.util.find_spec("pandas"), "pandas is not there")
    def test_frames(self):
        self.answer(1, ("a", (2, 10), (2, 20), "edge", "edge"), zone="one")
        found = self.store.visits({"one": (0, 1, 9, 9)}, NIGHT)
        self.assertEqual(found.to_pandas()["zone"].tolist(), ["one"])
        counts = found.by("1h", tz="Europe/Berlin").to_pandas()
        self.assertEqual((len(counts), counts["entered"].sum(), str(counts["begin"].dt.tz)), (25, 1, "Europe/Berlin"))
        dwells = self.store.dwell({"one": (0, 1, 9, 9)}, NIGHT).by("1h").to_pandas()
        self.assertEqual(dwells["seconds"].tolist(), [600.0])


if __name__ == "__main__":
    unittest.main()
