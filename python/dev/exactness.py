"""Asks others what mftb is asked, and counts the answers that are right: tools/exactness [--seed N] [--count N]
[--unproved] [--wrong TOOL].

A case asks whether a feature on a straight leg was inside a rectangle at some moment of a period; the cases are made
from a seed, so many of each kind, and the right answers are fractions by the rules of examples/check.py, which shares
nothing with the program. Answered are they by doubles in Python, with and without a tolerance, by samples of a second,
by shapely, by PostGIS (a server on this machine: apt-get install postgresql-15-postgis-3), and by mftb, where it is
built, or with --unproved on a build without proofs. SQLite's R*Tree answers the question that it is made for: whose
least box meets. Cases of polygons and gates ask shapely, GEOS's prepared geometries, PostGIS and mftb. What is not there
is left out. --wrong prints the cases of rectangles that one of them answers wrong.
"""
import argparse
import sys
from pathlib import Path

import elsewhere
import elsewhere_zones
from exactcases import beside, cases, worked
from exactzones import zone_kinds

ROOT = Path(__file__).resolve().parents[2]
BUILT = ROOT / "crates" / "mftb" / "out" / "mftb"
OTHERS = {
    "doubles": elsewhere.by_doubles,
    "doubles, 10^-6": elsewhere.by_tolerance,
    "samples of 1 s": elsewhere.by_samples,
    "shapely": elsewhere.by_shapely,
    "PostGIS, M": elsewhere.by_measure,
    "PostGIS, 3D": elsewhere.by_solid,
}


def meets_box(case):
    """Whether the least box of the case's leg meets the box of its question, exactly."""
    sides = zip(case.start, case.end, case.rect)
    meets = all(min(a, b) <= most and least <= max(a, b) for a, b, (least, most) in sides)
    return meets and case.t0 <= case.period[1] and case.period[0] <= case.t1


def counted(made, said, wanted):
    """Of each kind: how many are right, how many are missed, and how many are found that are not there."""
    table = {case.kind: [0, 0, 0] for case in made}
    for case, answer, right in zip(made, said, wanted, strict=True):
        table[case.kind][0 if answer == right else 1 if right else 2] += 1
    return table


def print_table(title, made, answers, wanted):
    """A table in Markdown: a line a kind, and a column for who answered; what is wrong stands behind the right ones."""
    told = {name: counted(made, said, wanted) for name, said in answers.items() if said is not None}
    print(f"\n{title}\n\n| Kind | " + " | ".join(told) + " |\n|---" + "|---" * len(told) + "|")
    for kind in dict.fromkeys(case.kind for case in made):
        cells = []
        for table in told.values():
            right, missed, found = table[kind]
            wrong = [f"{n} {word}" for n, word in ((missed, "missed"), (found, "made up")) if n]
            cells.append(f"{right}" + (f" ({', '.join(wrong)})" if wrong else ""))
        print(f"| {kind} | " + " | ".join(cells) + " |")
    for name in answers.keys() - told.keys():
        print(f"\n{name}: not on this machine", file=sys.stderr)


def print_worked(made, answers):
    """The cases that are worked out by hand: what each says of them, yes or no."""
    told = {name: said for name, said in answers.items() if said is not None}
    print("\nThe worked cases\n\n| Case | right | " + " | ".join(told) + " |\n|---|---" + "|---" * len(told) + "|")
    for at, case in enumerate(made):
        cells = ["yes" if said[at] else "no" for said in [[it.is_inside() for it in made], *told.values()]]
        print(f"| {case.kind} | " + " | ".join(cells) + " |")


def print_wrong(made, said):
    for case, answer in zip(made, said, strict=True):
        if answer != case.is_inside():
            stay = case.stay()
            inside = f"inside from {stay[0] - case.t0} to {stay[1] - case.t0} ms of the leg" if stay else "never inside"
            places = [[str(float(v)) for v in place] for place in (case.start, case.end)]
            print(f"{case.name()}: said {answer}, {inside}; {places} in {case.t1 - case.t0} ms")


def answers_of(made, program, only=None):
    """What each answers to whether it was inside."""
    answers = {name: answer(made) for name, answer in OTHERS.items() if only in (None, name)}
    if only in (None, "mftb"):
        answers["mftb"] = elsewhere.by_mftb(made, program)
    return answers


def box_answers_of(made, program):
    """What each answers to whose least box meets."""
    return {
        "doubles": elsewhere.by_double_boxes(made),
        "SQLite R*Tree": elsewhere.by_rtree(made),
        "PostGIS, &&": elsewhere.by_boxes(made),
        "mftb": elsewhere.by_mftb(made, program, "box"),
    }


def zone_answers_of(made, program):
    """What each answers to whether a leg was in a zone, at some moment or at each."""
    return {
        "shapely": elsewhere_zones.by_shapely(made),
        "GEOS, prepared": elsewhere_zones.by_prepared(made),
        "PostGIS": elsewhere_zones.by_postgis(made),
        "mftb": elsewhere_zones.by_mftb(made, program),
    }


def main():
    words = argparse.ArgumentParser(description=__doc__.split(":")[0])
    words.add_argument("--seed", type=int, default=44, help="the seed of the cases")
    words.add_argument("--count", type=int, default=200, help="so many cases of each kind")
    words.add_argument("--unproved", action="store_true", help="ask mftb on a build without proofs")
    words.add_argument("--wrong", metavar="TOOL", help="print what that one answers wrong")
    asked = words.parse_args()
    program = [ROOT / "tools" / "unproved"] if asked.unproved else [BUILT] if BUILT.exists() else None
    made = list(cases(asked.seed, asked.count))
    if asked.wrong:
        print_wrong(made, answers_of(made, program, asked.wrong)[asked.wrong])
        return
    print(
        f"Seed {asked.seed}, {asked.count} cases of each kind" + ("; mftb without proofs." if asked.unproved else ".")
    )
    by_hand = list(worked())
    print_worked(by_hand, answers_of(by_hand, program))
    title = "Was it inside at some moment of the period?"
    print_table(title, made, answers_of(made, program), [case.is_inside() for case in made])
    boxes = list(beside(asked.seed, asked.count))
    print_table("Does its least box meet?", boxes, box_answers_of(boxes, program), [meets_box(case) for case in boxes])
    zones = list(zone_kinds(asked.seed, asked.count))
    print_table("Was it in the zone?", zones, zone_answers_of(zones, program), [case.is_inside() for case in zones])
