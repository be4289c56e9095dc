"""tools/exactness: the right answers of the cases that are worked out by hand, and of each kind from a seed."""
import unittest
from fractions import Fraction

from common import ROOT

import elsewhere
import exactzones
from exactcases import KINDS, beside, cases, worked

# Of each worked case the part of its leg at which it is first inside, by hand; None where it never is.
PARTS = {
    "Ekko": Fraction(3, 7),
    "Fjord": None,
    "gate": Fraction(33333333, 100000000),
    "corner": Fraction(1, 2),
    "last moment": Fraction(33213, 60000),
    "grid": Fraction(1, 2),
    "year": Fraction(300001, 399999),
}


class Cases(unittest.TestCase):
    def test_worked_cases(self):
        for case in worked():
            stay, part = case.stay(), PARTS[case.kind]
            with self.subTest(case.kind):
                self.assertEqual(stay and Fraction(stay[0] - case.t0) / (case.t1 - case.t0), part)

    def test_half_of_each_kind_is_inside(self):
        made = list(cases(1, 10))
        self.assertEqual(len(made), 10 * len(KINDS))
        for case in made:
            self.assertEqual(case.is_inside(), case.number % 2 == 0)
        self.assertEqual(made, list(cases(1, 10)))

    def test_half_of_each_kind_of_zones_is_inside(self):
        made = list(exactzones.zone_kinds(1, 10))
        self.assertEqual(len(made), 10 * len(exactzones.KINDS))
        for case in made:
            self.assertEqual(case.is_inside(), case.number % 2 == 0)

    def test_cases_have_their_own_times(self):
        for made in (list(cases(2, 6)), list(beside(2, 6)), list(worked()), list(exactzones.zone_kinds(2, 6))):
            for one, next_ in zip(made, made[1:]):
                self.assertLess(one.t1, next_.t0)

    def test_doubles_are_right_of_plain_cases(self):
        made = [case for case in cases(3, 20) if case.kind == "plain"]
        for answer in (elsewhere.by_doubles, elsewhere.by_tolerance, elsewhere.by_samples):
            self.assertEqual(answer(made), [case.is_inside() for case in made])

    def test_doubles_say_what_the_page_says(self):
        """The column of doubles in the page's table of worked cases."""
        page = (ROOT / "docs" / "proof" / "EXACTNESS.md").read_text()
        for case, said in zip(worked(), elsewhere.by_doubles(list(worked()))):
            self.assertRegex(page, rf"(?m)^\| {case.kind} \| \w+ \| {'yes' if said else 'no'} \|")
