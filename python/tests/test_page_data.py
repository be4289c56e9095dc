"""Legs as columns of a page, and how they are read from what the program writes."""

import io
import unittest
from array import array
from fractions import Fraction

from common import Case

from mftb import texts
from mftb.page import reading
from mftb.page.columns import packed
from mftb.page.data import Head, Legs
from mftb.page.reading import Period
from mftb.texts import Refused

# What `write` answers to the example of docs/user/SCRIPT.md.
WRITTEN = """ok 7
@stboundedby,urn:x-ogc:def:crs:EPSG:6.6:4326,2D,10 1,12 3,2012-01-17T12:33:41.000Z,2012-01-17T12:36:51.000Z,sec
@columns,mfidref,trajectory,state,xsd:token,type code,xsd:integer
a,10,150,11 2 12 3,walking,1
b,10,190,10 2 11 3,walking,2
a,150,190,12 3 10 3,walking,2
c,10,100,12 1 10 2,vehicle,1
c,100,190,10 2 11 3,vehicle,1
"""
START = 1326803621000


def read(text: str, period: Period | None = None) -> Legs | None:
    return reading.answered(io.StringIO(text), "store", period)


class Columns(unittest.TestCase):
    def test_differences_are_folded_into_planes(self) -> None:
        # 7, then differences of 3 and -2; the divisor is 1; folded they are 14, 6 and 3.
        column = packed(array("q", [7, 10, 8]))
        self.assertEqual(column.shape(), [3, 1, 1])
        self.assertEqual(column.planes, [bytes([14, 6, 3])])

    def test_the_divisor_goes(self) -> None:
        # 0, 1000 and -2000 in units of 1000 are 0, 1 and -3 as differences.
        column = packed(array("q", [0, 1000, -2000]))
        self.assertEqual(column.shape(), [3, 1000, 1])
        self.assertEqual(column.planes, [bytes([0, 2, 5])])

    def test_a_great_number_has_more_planes(self) -> None:
        # The greatest coordinate is 10^15 units; with its neighbour 1 more the divisor is 1.
        column = packed(array("q", [10**15, 10**15 + 1]))
        self.assertEqual(len(column.planes), 7)
        folded = sum(plane[0] << 8 * place for place, plane in enumerate(column.planes))
        self.assertEqual(folded, 2 * 10**15)

    def test_nothing_has_no_planes(self) -> None:
        self.assertEqual(packed(array("q")).shape(), [0, 1, 0])
        self.assertEqual(packed(array("q", [0, 0])).shape(), [2, 1, 0])


class Reading(Case):
    def test_legs_are_joined_to_strips(self) -> None:
        legs = read(WRITTEN)
        self.assertEqual(legs.count(), (3, 5))
        self.assertEqual(list(legs.tracks), ["a", "b", "c"])
        # a and c go on where they were; each feature is one strip.
        self.assertEqual(list(legs.track_sizes()), [1, 1, 1])
        self.assertEqual(list(legs.strip_sizes()), [3, 2, 3])
        self.assertEqual(list(legs.times()), [10_000, 150_000, 190_000, 10_000, 190_000, 10_000, 100_000, 190_000])
        self.assertEqual(list(legs.column(1))[:3], [20_000_000, 30_000_000, 30_000_000])

    def test_what_the_header_lines_say(self) -> None:
        head = read(WRITTEN).head
        self.assertEqual((head.crs, head.dimension), ("urn:x-ogc:def:crs:EPSG:6.6:4326", 2))
        self.assertEqual(head.base, START)
        self.assertEqual(head.columns, [("state", "xsd:token"), ("type code", "xsd:integer")])

    def test_attribute_rows_are_kept_once(self) -> None:
        legs = read(WRITTEN)
        self.assertEqual(list(legs.values), [("walking", "1"), ("walking", "2"), ("vehicle", "1")])
        self.assertEqual(list(legs.rows()), [0, 1, 1, 2, 2])

    def test_a_gap_or_a_jump_begins_a_strip(self) -> None:
        legs = Legs(Head())
        legs.add("a", 0, 10, (0, 0), (5, 5))
        legs.add("a", 11, 20, (5, 5), (6, 6))
        legs.add("a", 20, 30, (7, 6), (8, 8))
        self.assertEqual(list(legs.strip_sizes()), [2, 2, 2])
        self.assertEqual(list(legs.track_sizes()), [3])

    def test_numbers_are_exact(self) -> None:
        self.assertEqual(reading.units("-100000000"), -(10**15))
        self.assertEqual(reading.units("99999999.9999999"), 10**15 - 1)
        self.assertEqual(reading.units("-60.3000001"), -603_000_001)
        self.assertEqual(reading.milliseconds("999999999999.999"), 10**15 - 1)
        # Half a unit goes away from zero, as in a file.
        self.assertEqual(texts.exact_units("0.00000005"), 1)
        self.assertEqual(texts.exact_units("-0.00000005"), -1)

    def test_a_period_has_both_of_its_moments(self) -> None:
        legs = read(WRITTEN, Period(START + 150_000, START + 150_000))
        self.assertEqual(legs.count(), (3, 4))
        self.assertEqual(read(WRITTEN, Period(START + 190_001, START + 200_000)).count(), (0, 0))

    def test_the_leg_at_a_moment(self) -> None:
        legs = read(WRITTEN)
        self.assertEqual(legs.leg_at("a", 149_999), 10_000)
        self.assertEqual(legs.leg_at("a", Fraction(300_001, 2)), 150_000)
        self.assertIsNone(legs.leg_at("a", 9_999))
        self.assertIsNone(legs.leg_at("d", 0))

    def test_names_with_commas_quotes_and_lines(self) -> None:
        head = "".join(WRITTEN.splitlines(keepends=True)[:3])
        legs = read(head + '"b, ""c""\nd",0,10,0 9 10 9,007,"x,y"\n')
        self.assertEqual(list(legs.tracks), ['b, "c"\nd'])
        self.assertEqual(list(legs.values), [("007", "x,y")])

    def test_three_dimensions(self) -> None:
        lines = WRITTEN.replace("2D", "3D").splitlines(keepends=True)[:3]
        legs = read("".join(lines) + "a,0,1,1 2 3 4 5 6,,\n")
        self.assertEqual(
            [list(legs.column(axis)) for axis in range(3)],
            [[10**7, 4 * 10**7], [2 * 10**7, 5 * 10**7], [3 * 10**7, 6 * 10**7]],
        )

    def test_a_store_without_a_file_has_no_legs(self) -> None:
        self.assertIsNone(read("refused Q10\n"))

    def test_what_is_no_leg_is_named(self) -> None:
        with self.assertRaisesRegex(Refused, "store: record 4 that mftb run wrote is no leg"):
            read(WRITTEN.replace("b,10,190,10 2 11 3", "b,10,190,10 2"))
        with self.assertRaisesRegex(Refused, "store: mftb run wrote no header lines"):
            read("ok 1\nhello\n")
