"""Compares the program zone_cases with a plain one over fractions: tools/zone_cases PROGRAM [COUNT] [SEED].

Half of the cases are a random course, a part of it and a zone; a quarter are a leg, a period and a zone; a quarter are
a leg, a period and a gate. Coordinates are so small that corners are touched and edges run along all the time. The
plain program cuts the course where it meets an edge's line, and tests each piece in its middle by a ray to greater y,
where the proved one has a ray to greater x.
"""
import math
import random
import subprocess
import sys
from fractions import Fraction


def edges_of(rings):
    for ring in rings:
        for number, corner in enumerate(ring):
            yield ring[number - 1], corner


def cross(a, b, p):
    return (b[0] - a[0]) * (p[1] - a[1]) - (b[1] - a[1]) * (p[0] - a[0])


def is_on(a, b, p):
    if cross(a, b, p) != 0:
        return False
    return min(a[0], b[0]) <= p[0] <= max(a[0], b[0]) and min(a[1], b[1]) <= p[1] <= max(a[1], b[1])


def is_in(rings, p):
    """Whether a point is in the zone: on an edge, or below an odd number of edges."""
    odd = False
    for a, b in edges_of(rings):
        if is_on(a, b, p):
            return True
        if (a[0] <= p[0]) != (b[0] <= p[0]):
            height = a[1] + (b[1] - a[1]) * Fraction(p[0] - a[0], b[0] - a[0])
            odd ^= height > p[1]
    return odd


def point(course, s):
    (x0, y0), (x1, y1) = course
    return x0 + (x1 - x0) * s, y0 + (y1 - y0) * s


def roots(course, rings):
    """The fractions at which the course meets an edge's line, or has a corner's x or y."""
    for a, b in edges_of(rings):
        begin, end = cross(a, b, course[0]), cross(a, b, course[1])
        if begin != end:
            yield Fraction(begin, begin - end)
        for axis in (0, 1):
            if course[0][axis] != course[1][axis]:
                yield Fraction(a[axis] - course[0][axis], course[1][axis] - course[0][axis])


def plain_stays(course, first, last, rings):
    if last < first:
        return []
    marks = sorted({first, last, *(s for s in roots(course, rings) if first < s < last)})
    pieces = [(mark, mark) for mark in marks if is_in(rings, point(course, mark))]
    for lo, hi in zip(marks, marks[1:]):
        if is_in(rings, point(course, (lo + hi) / 2)):
            pieces.append((lo, hi))
    stays = []
    for lo, hi in sorted(pieces):
        if stays and lo <= stays[-1][1]:
            stays[-1] = (stays[-1][0], max(hi, stays[-1][1]))
        else:
            stays.append((lo, hi))
    return stays


def shown(stays):
    def text(s):
        return f"{s.numerator}/{s.denominator}"

    return "".join(f"{text(lo)}:{text(hi)} " for lo, hi in stays) or "-"


def ends_of(leg, period):
    """The first and last moment of a leg in a period, as fractions of the leg's duration."""
    t0, t1 = leg[:2]
    return Fraction(max(t0, period[0]) - t0, t1 - t0), Fraction(min(t1, period[1]) - t0, t1 - t0)


def moment_text(moment):
    whole = math.floor(moment)
    rest = moment - whole
    return f"{whole}+{rest.numerator}/{rest.denominator}" if rest else str(whole)


def end_text(moment, leg, period):
    return "leg" if moment == leg else "period" if moment == period else "edge"


def side_text(gate, course, s):
    """On which side of a gate the course is at a place beside a stay."""
    turn = cross(*gate, point(course, s))
    return "left" if turn > 0 else "right" if turn < 0 else "none"


def plain_leg(leg, period, rings, gate):
    """The stays of a leg as the program prints them."""
    t0, t1, course = leg
    first, last = ends_of(leg, period)
    text = ""
    for lo, hi in plain_stays(course, first, last, rings):
        enters, leaves = (t0 + (t1 - t0) * s for s in (lo, hi))
        begins, ends = end_text(enters, t0, period[0]), end_text(leaves, t1, period[1])
        before = side_text(gate, course, lo / 2) if gate and begins == "edge" else "none"
        after = side_text(gate, course, (hi + 1) / 2) if gate and ends == "edge" else "none"
        places = ":".join(",".join(str(math.floor(v)) for v in point(course, s)) for s in (lo, hi))
        text += f"{moment_text(enters)}:{moment_text(leaves)} {places} {begins}:{ends} {before}:{after} "
    return text or "-"


def random_corner(source, most):
    return source.randint(-most, most), source.randint(-most, most)


def random_rings(source, most):
    return [[random_corner(source, most) for _ in range(source.randint(1, 6))] for _ in range(source.randint(1, 3))]


def random_course(source, most, rings):
    course = (random_corner(source, most), random_corner(source, most))
    if source.random() < 0.1:
        course = (course[0], course[0])
    if source.random() < 0.3:
        a, b = source.choice(list(edges_of(rings)))
        course = (a, b) if source.random() < 0.5 else (a, course[1])
    return course


def flat(*lists):
    return " ".join(str(number) for numbers in lists for number in numbers)


def rings_text(rings):
    return " ".join(flat([len(ring)], *ring) for ring in rings)


def course_case(source, most):
    rings = random_rings(source, most)
    course = random_course(source, most, rings)
    terms = [(0, 1), (1, 1)]
    if source.random() < 0.5:
        terms = [(source.randint(0, 12), source.randint(1, 12)) for _ in range(2)]
    expected = shown(plain_stays(course, *(Fraction(*term) for term in terms), rings))
    return f"{flat(*course, *terms)} {rings_text(rings)}", expected


def random_leg(source, most, rings):
    """A leg, and a period that often begins or ends with it, or in it."""
    t0 = source.choice((0, source.randint(-20, 20), source.randint(-(10**13), 10**13)))
    t1 = t0 + source.choice((source.randint(1, 20), source.randint(1, 10**13)))
    marks = [t0 - 5, t0, t0 + 1, (t0 + t1) // 2, t1 - 1, t1, t1 + 5]
    period = sorted((source.choice(marks), source.choice(marks)))
    if source.random() < 0.4:
        period = [t0, t1]
    return (t0, t1, random_course(source, most, rings)), period


def leg_case(source, most):
    rings = random_rings(source, most)
    leg, period = random_leg(source, most, rings)
    line = f"leg {flat(leg[:2], period, *leg[2])} {rings_text(rings)}"
    return line, plain_leg(leg, period, rings, None)


def gate_case(source, most):
    gate = (random_corner(source, most), random_corner(source, most))
    if gate[0] == gate[1]:
        gate = (gate[0], (gate[0][0] + 1, gate[0][1]))
    leg, period = random_leg(source, most, [gate])
    line = f"gate {flat(leg[:2], period, *leg[2], *gate)}"
    return line, plain_leg(leg, period, [gate], gate)


def random_case(source):
    most = source.choice((2, 3, 4, 6, 10, 10**15 - 1))
    return source.choice((course_case, course_case, leg_case, gate_case))(source, most)


def main():
    program = sys.argv[1]
    count = int(sys.argv[2]) if len(sys.argv) > 2 else 100000
    source = random.Random(int(sys.argv[3]) if len(sys.argv) > 3 else 1)
    cases = [random_case(source) for _ in range(count)]
    asked = "".join(f"{line}\n" for line, _ in cases)
    answers = subprocess.run([program], input=asked, capture_output=True, text=True, check=True).stdout.split("\n")
    wrong = 0
    for (line, expected), answer in zip(cases, answers):
        if answer != expected:
            wrong += 1
            if wrong <= 10:
                print(f"{line}\n  program: {answer}\n  plain:   {expected}")
    print(f"{count} cases, {wrong} wrong")
    sys.exit(1 if wrong or len(answers) != count + 1 else 0)


if __name__ == "__main__":
    main()
