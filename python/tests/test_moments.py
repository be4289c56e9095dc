"""mftb moments, on a build without proofs: what it prints of worked rows and of random legs is what fractions say."""
import csv
import io
import random
import subprocess
from datetime import datetime, timedelta, timezone
from fractions import Fraction
from math import ceil, floor

from common import ROOT, Asked

EPOCH = datetime(1970, 1, 1, tzinfo=timezone.utc)
START = datetime(2024, 6, 3, 8, 50, tzinfo=timezone.utc)
HARBOUR = ROOT / "examples" / "harbour" / "harbour.csv"
MOUTH = ["-60.3", "0", "60.3", "0", "2024-06-03T09:00:00Z", "2024-06-03T09:05:00Z"]
ENDS = ["enters_by", "leaves_by", "edge_in", "edge_out"]
PLACES = {2: ["x", "y"], 3: ["x", "y", "z"]}
SECOND = timedelta(seconds=1)
MICRO = timedelta(microseconds=1)


def said(moment):
    """An instant as it is printed to the microsecond."""
    return moment.strftime("%Y-%m-%dT%H:%M:%S.%fZ")


def unit_below(value):
    """A coordinate, rounded down to 10^-7, as it is printed."""
    units = floor(value * 10**7)
    whole, rest = divmod(abs(units), 10**7)
    digits = f"{whole}.{rest:07}".rstrip("0").rstrip(".")
    return f"-{digits}" if units < 0 else digits


class Leg:
    """A leg of a file: its name, its first and last millisecond since the start, and its positions."""

    def __init__(self, name, t0, t1, start, end):
        self.name, self.t0, self.t1 = name, t0, t1
        self.start, self.end = start, end

    def at(self, moment):
        part = Fraction(moment - self.t0) / (self.t1 - self.t0)
        return [a + (b - a) * part for a, b in zip(self.start, self.end)]

    def stay(self, rect, period):
        """The first and the last moment inside, as fractions of milliseconds since the start; None for none."""
        first, last = max(self.t0, period[0]), min(self.t1, period[1])
        for a, b, (least, most) in zip(self.start, self.end, rect):
            if a == b:
                if not least <= a <= most:
                    return None
                continue
            over = [self.t0 + (self.t1 - self.t0) * (edge - a) / (b - a) for edge in (least, most)]
            first, last = max(first, min(over)), min(last, max(over))
        return (Fraction(first), Fraction(last)) if first <= last else None


def legs_of(text):
    """The legs of a file whose records cut their times evenly into whole milliseconds, and how many coordinates it has."""
    head, _, *records = csv.reader(io.StringIO(text))
    places = 3 if head[2] == "3D" else 2
    found = []
    for name, begin, end, numbers, *_ in records:
        numbers = [Fraction(it) for it in numbers.split()]
        points = [numbers[k : k + places] for k in range(0, len(numbers), places)]
        first, last = Fraction(begin) * 1000, Fraction(end) * 1000
        points = points * 2 if len(points) == 1 else points
        cuts = [first + floor((last - first) * k / (len(points) - 1)) for k in range(len(points))]
        found += [Leg(name, *it) for it in zip(cuts, cuts[1:], points, points[1:])]
    return found, places


def fraction(value):
    return f"{value.numerator}/{value.denominator}"


def instants(enters, leaves):
    """Both moments to the microsecond, the first rounded down and the last up."""
    return said(START + floor(enters * 1000) * MICRO), said(START + ceil(leaves * 1000) * MICRO)


def end_of(moment, leg, period):
    return "leg" if moment == leg else "period" if moment == period else "edge"


def edges_of(leg, moment, outside, rect):
    """The edges at which a leg is at a moment, of those that the end `outside` of it lies beyond."""
    names = ("left", "right"), ("bottom", "top")
    met = [
        name
        for place, far, (least, most), (below, above) in zip(leg.at(moment), outside, rect, names)
        for name, edge, is_beyond in ((below, least, far < least), (above, most, far > most))
        if is_beyond and place == edge
    ]
    return "+".join(met)


class Wanted:
    """What is to be printed of legs, a rectangle and a period."""

    def __init__(self, text, rect, period):
        self.legs, self.places = legs_of(text)
        self.rect, self.period = rect, period
        self.stays = [(leg, leg.stay(rect, period)) for leg in self.legs]
        self.stays = [(leg, *stay) for leg, stay in self.stays if stay]

    def fields(self, *others):
        names = [f"{it}_{side}" for side in ("in", "out") for it in PLACES[self.places]]
        return ["feature", "enters", "leaves", "enters_at", "leaves_at", *names, *others]

    def row(self, first, enters, last, leaves):
        places = [unit_below(it) for it in [*first.at(enters), *last.at(leaves)]]
        return [first.name, fraction(enters), fraction(leaves), *instants(enters, leaves), *places]

    def by_leg(self):
        yield self.fields(*ENDS)
        for leg, enters, leaves in self.stays:
            yield [*self.row(leg, enters, leg, leaves), *self.ends(leg, enters, leg, leaves)]

    def ends(self, first, enters, last, leaves):
        begun, ended = end_of(enters, first.t0, self.period[0]), end_of(leaves, last.t1, self.period[1])
        met = edges_of(first, enters, first.start, self.rect), edges_of(last, leaves, last.end, self.rect)
        return begun, ended, *(edges if end == "edge" else "" for end, edges in zip((begun, ended), met))

    def visits(self):
        """The stays of each feature that go on at once, in the order of their first ones."""
        made, last = [], {}
        for leg, enters, leaves in self.stays:
            run = last.get(leg.name)
            if run and run[-1][2] == enters:
                run.append((leg, enters, leaves))
            else:
                made.append([(leg, enters, leaves)])
                last[leg.name] = made[-1]
        return made

    def by_visit(self):
        yield self.fields(*ENDS, "legs")
        for run in self.visits():
            ends = run[0][0], run[0][1], run[-1][0], run[-1][2]
            yield [*self.row(*ends), *self.ends(*ends), str(len(run))]

    def dwells(self):
        """Of each feature how many visits it pays, and its milliseconds in all."""
        found = {}
        for run in self.visits():
            count, total = found.get(run[0][0].name, (0, 0))
            found[run[0][0].name] = count + 1, total + run[-1][2] - run[0][1]
        return found


class Moments(Asked):
    def records(self, *words):
        return list(csv.reader(io.StringIO(self.asked("moments", "store", *words)[0])))

    def check(self, text, corners, seconds):
        """All three outputs over a rectangle and a period, in seconds since the start."""
        rect = list(zip(corners[:2], corners[2:]))
        wanted = Wanted(text, rect, [Fraction(it) * 1000 for it in seconds])
        times = [said(START + Fraction(it).numerator * SECOND / Fraction(it).denominator) for it in seconds]
        words = [*map(str, map(float, corners)), *times]
        self.assertEqual(self.records(*words), list(wanted.by_leg()))
        self.assertEqual(self.records(*words, "--visits"), list(wanted.by_visit()))
        fields, *dwells = self.records(*words, "--dwell")
        self.assertEqual(fields, ["feature", "visits", "least", "most"])
        found = wanted.dwells()
        self.assertEqual([it[0] for it in dwells], list(found))
        for name, visits, least, most in dwells:
            count, total = found[name]
            self.assertEqual(int(visits), count)
            self.assertLessEqual(Fraction(least) * 1000, total)
            self.assertLessEqual(total, Fraction(most) * 1000)
            self.assertLessEqual(Fraction(most) - Fraction(least), Fraction(2 * count, 10**6))
        return wanted

    def test_harbour(self):
        text = HARBOUR.read_text()
        self.load(text)
        rows = self.records(*MOUTH)
        row = (
            "Ekko,5130000/7,5130000/7,2024-06-03T09:02:12.857142Z,2024-06-03T09:02:12.857143Z,"
            "-60.3,0,-60.3,0,edge,edge,left+bottom,top"
        )
        self.assertIn(row.split(","), rows)
        # Delfin is on the line at 09:05:00 alone: its last leg in the period ends there, and the next begins there.
        self.assertEqual([it[-4:-2] for it in rows if it[0] == "Delfin"], [["edge", "leg"], ["leg", "period"]])
        self.assertEqual(len(rows), 8)
        corners = [Fraction(it) for it in MOUTH[:4]]
        self.check(text, corners, [600, 900])
        self.check(text, [-500, -500, 500, 500], [600, 900])

    def test_random_legs(self):
        for seed in range(6):
            chance = random.Random(seed)
            places = 2 + seed % 2
            ends, lines = {}, []
            for _ in range(60):
                name = f"f{chance.randrange(8)}"
                begin = ends.get(name, 0) + chance.choice([0, 0, Fraction(1, 8), 3])
                count = chance.randrange(2, 6)
                end = begin + Fraction(chance.randrange(1, 40_000), 1000)
                ends[name] = end
                numbers = [
                    chance.choice([chance.randrange(-9, 10), chance.uniform(-9, 9)]) for _ in range(count * places)
                ]
                shown = " ".join(f"{it:.7f}" for it in numbers)
                lines.append(f"{name},{float(begin)},{float(end)},{shown}\n")
            head = f"@stboundedby,m,{places}D,,,2024-06-03T08:50:00Z,,sec\n@columns,mfidref,trajectory\n"
            with self.subTest(seed=seed):
                text = head + "".join(lines)
                for left in "store", "file.csv":
                    (self.folder / left).unlink(missing_ok=True)
                self.load(text)
                found = 0
                for _ in range(6):
                    x, y = sorted(chance.sample(range(-9, 10), 2)), sorted(chance.sample(range(-9, 10), 2))
                    seconds = sorted(chance.sample(range(-10, 200), 2))
                    found += len(self.check(text, [x[0], y[0], x[1], y[1]], seconds).stays)
                self.assertGreater(found, 20)

    def test_rectangles_of_a_file(self):
        """Each answers as alone, behind its name, in the order of the file."""
        self.load(HARBOUR.read_text())
        rects = {
            "mouth": MOUTH[:4],
            'the "east", far': ["400", "-500", "500", "500"],
            "all": ["-500", "-500", "500", "500"],
        }
        lines = ["Y2,x1,note,y1,X2,Name"]
        for name, (x1, y1, x2, y2) in rects.items():
            quoted = '"' + name.replace('"', '""') + '"'
            lines.append(f" {y2} ,{x1},no note,{y1},\t{x2},{quoted}")
        self.write("rects.csv", "\ufeff" + "\r\n".join(lines))
        for flags in [], ["--visits"], ["--dwell"]:
            names, *found = self.records(*MOUTH[4:], "--rects", "rects.csv", *flags)
            wanted = []
            for name, corners in rects.items():
                alone, *rows = self.records(*corners, *MOUTH[4:], *flags)
                wanted += [[name, *row] for row in rows]
            self.assertEqual(names, ["rectangle", *alone])
            self.assertEqual(found, wanted)
            self.assertGreater(len({row[0] for row in found}), 1)

    def test_a_file_of_rectangles_that_is_refused(self):
        self.load(HARBOUR.read_text())
        head = "name,x1,y1,x2,y2\n"
        cases = [
            ("", 1, "there are no columns name, x1, y1, x2 and y2"),
            ("name,x1,y1,x2\na,0,0,1\n", 1, "there are no columns name, x1, y1, x2 and y2"),
            (head + "a,0,0,1,1\n\n ,0,0,1,1\n", 3, "the name is empty, or has more than 255 bytes"),
            (head + "n" * 256 + ",0,0,1,1\n", 2, "the name is empty, or has more than 255 bytes"),
            (head + "a,0,0,1,1\nb,0,0,1,1\n a ,0,0,1,1\n", 4, "the name stands a second time"),
            (head + "a,0,0,1,1\nb,0,0,1,1e3\n", 3, "a coordinate is no number, or out of range"),
            (head + "a,0,0,1\n", 2, "a coordinate is no number, or out of range"),
            (head + "a,2,0,1,1\n", 2, "X1 is above X2, or Y1 above Y2"),
        ]
        for text, record, why in cases:
            self.write("rects.csv", text)
            out, error = self.asked("moments", "--rects", "rects.csv", "store", *MOUTH[4:], status=2)
            self.assertEqual((out, error), ("", f"mftb: record {record} of the rectangles: {why}\n"))
        (self.folder / "rects.csv").write_bytes(head.encode() + b"\xff,0,0,1,1\n")
        out, error = self.asked("moments", "--rects", "rects.csv", "store", *MOUTH[4:], status=2)
        self.assertEqual((out, error), ("", "mftb: record 2 of the rectangles: a field is not UTF-8\n"))
        out, error = self.asked("moments", "--rects", "none.csv", "store", *MOUTH[4:], status=1)
        self.assertEqual((out, error), ("", "mftb: cannot read none.csv\n"))
        # A rectangle beside the file is one word too many.
        self.asked("moments", "--rects", "rects.csv", "store", *MOUTH, status=2)

    def test_attributes_of_legs(self):
        """The walks of the standard example: the values of each one's record."""
        self.load((ROOT / "examples" / "standard" / "S1.csv").read_text())
        words = ["11.5", "2.5", "13", "4", "2012-01-17T12:33:41Z", "2012-01-17T12:37:00Z"]
        names, *rows = self.records("--columns", *words)
        plain, *others = self.records(*words)
        self.assertEqual(names, [*plain, "state", "type code"])
        self.assertEqual([row[:-2] for row in rows], others)
        self.assertEqual([row[-2:] for row in rows], [["walking", "1"], ["walking", "2"]])
        self.write("rects.csv", "name,x1,y1,x2,y2\nin,11.5,2.5,13,4\n")
        names, *rows = self.records("--columns", "--rects", "rects.csv", *words[4:])
        self.assertEqual((names[0], names[-1]), ("rectangle", "type code"))
        self.assertEqual([(row[0], *row[-2:]) for row in rows], [("in", "walking", "1"), ("in", "walking", "2")])

    def test_attributes_are_quoted_as_box_quotes_them(self):
        self.load(
            "@stboundedby,m,2D,,,2024-01-01T00:00:00Z,,sec\n"
            '@columns,mfidref,trajectory,"what, who",xsd:string,"a ""word""",xsd:string,last,xsd:string\n'
            'a,0,10,0 0 10 0,"so, so",,"""yes"""\nb,0,10,0 0 10 0,,"two\nlines",\nc,0,10,0 0 10 0\n'
        )
        words = ["0", "0", "5", "5", "2024-01-01T00:00:00Z", "2024-01-01T00:00:10Z"]
        printed = self.asked("moments", "--columns", "store", *words)[0]
        start, end = "2024-01-01T00:00:00.000000Z", "2024-01-01T00:00:05.000000Z"
        stay = f",0/1,5000/1,{start},{end},0,0,5,0,leg,edge,,right,"
        head = "feature,enters,leaves,enters_at,leaves_at,x_in,y_in,x_out,y_out,enters_by,leaves_by,edge_in,edge_out,"
        self.assertEqual(
            printed,
            f'{head}"what, who","a ""word""",last\n'
            f'a{stay}"so, so",,"""yes"""\n'
            f'b{stay},"two\nlines",\n'
            f"c{stay},,\n",
        )
        self.write("box", f"box {' '.join(words)}\n")
        boxed = self.asked("run", "store", "box")[0].split("\n", 1)[1]
        ends = [row[4:] for row in csv.reader(io.StringIO(boxed))]
        self.assertEqual(ends, [row[13:] for row in csv.reader(io.StringIO(printed))][1:])

    def test_attributes_are_those_of_a_leg(self):
        self.load(HARBOUR.read_text())
        for flag in "--visits", "--dwell":
            out, error = self.asked("moments", "--columns", flag, "store", *MOUTH, status=2)
            self.assertEqual(out, "")
            self.assertIn("'--columns' cannot be used with '--visits' or '--dwell'", error)
        # Without attribute columns there is nothing to print.
        self.write(
            "plain.csv", "@stboundedby,m,2D,,,2024-06-03T08:50:00Z,,sec\n@columns,mfidref,trajectory\na,0,900,0 0\n"
        )
        self.write("load", "load plain.csv\n")
        self.asked("run", "plain", "load", "plain.csv")
        plain = self.asked("moments", "plain", *MOUTH)[0]
        self.assertEqual(plain.count("\n"), 2)
        self.assertEqual(self.asked("moments", "--columns", "plain", *MOUTH)[0], plain)
        self.write("none", "")
        self.asked("run", "new", "none")
        plain = self.asked("moments", "new", *MOUTH)[0]
        self.assertEqual(self.asked("moments", "--columns", "new", *MOUTH)[0], plain)

    def test_nothing_is_written(self):
        self.load(HARBOUR.read_text())
        before = (self.folder / "store").read_bytes()
        names = sorted(it.name for it in self.folder.iterdir())
        self.records(*MOUTH)
        self.assertEqual((self.folder / "store").read_bytes(), before)
        self.assertEqual(sorted(it.name for it in self.folder.iterdir()), names)

    def test_refusals(self):
        self.load(HARBOUR.read_text())
        words = ["1", "2", "3", "4", "2024-06-03T09:00:00Z", "2024-06-03T09:05:00Z"]
        wrong = {
            0: [
                ("x", "a coordinate is no number, or out of range"),
                ("1 2", "X1 Y1 X2 Y2 T1 T2 are one word each"),
                ("4", "X1 is above X2, or Y1 above Y2"),
            ],
            4: [
                ("9 o'clock", "T1 or T2 is no instant, or out of range"),
                ("9:00", "T1 or T2 is no instant, or out of range"),
            ],
            5: [("2024-06-03T08:59:59Z", "T1 is after T2")],
        }
        for place, pairs in wrong.items():
            for word, why in pairs:
                tried = [*words[:place], word, *words[place + 1 :]]
                out, error = self.asked("moments", "store", *tried, status=2)
                self.assertEqual((out, error), ("", f"mftb: {why}\n"))
        self.asked("moments", "store", *words[:5], status=2)
        self.asked("moments", "store", *words, "--visits", "--dwell", status=2)
        out, error = self.asked("moments", "absent", *words, status=1)
        self.assertEqual((out, error), ("", "mftb: cannot read absent\n"))
        self.assertFalse((self.folder / "absent").exists())

    def test_an_output_that_fails(self):
        self.load(HARBOUR.read_text())
        command = [ROOT / "tools" / "unproved", "moments", "store", *MOUTH]
        with open("/dev/full", "w") as full:
            ended = subprocess.run(command, cwd=self.folder, stdout=full, stderr=subprocess.PIPE, text=True)
        self.assertEqual(ended.returncode, 1)
        self.assertTrue(ended.stderr.endswith("mftb: output\n"), ended.stderr)
