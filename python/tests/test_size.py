"""A store of 200,000 legs of 30,000 features: each command is answered as examples/check.py answers it from a list."""
import io
import random
import subprocess
import sys
import unittest

from common import BUILT, CRS, ROOT, Case

sys.path.insert(0, str(ROOT / "examples"))
import check  # noqa: E402

START = check.instant("2024-06-03T00:00:00Z")
FEATURES, LEGS = 30_000, 200_000
# Where a question asks: a rectangle of a quarter of the sides, and one of a hundredth.
LARGE, SMALL = "20 20 45.5 45", "31 30.25 32 31"
DAY = "2024-06-03T00:00:00Z 2024-06-04T00:00:00Z"
HOUR = "2024-06-03T02:00:00Z 2024-06-03T03:00:00Z"
MINUTE = "2024-06-03T11:59:00.001Z 2024-06-03T12:00:00.500Z"
# The first run loads the first file; the second one, over the store that was closed, the other.
FIRST = ["load first.csv", "count", f"features ever {SMALL} {HOUR}", f"box {SMALL} {MINUTE}"]
SECOND = [
    "load second.csv",
    "count",
    f"box {LARGE} {MINUTE}",
    f"box {SMALL} {DAY}",
    *(f"legs {word} {LARGE} {MINUTE}" for word in ("ever", "enters", "bypasses")),
    *(f"features {word} {LARGE} {MINUTE}" for word in ("ever", "always", "enters", "leaves", "crosses", "bypasses")),
    f"features crosses {SMALL} {HOUR}",
    "trajectory f0",
    f"trajectory f{FEATURES - 1}",
    "trajectory nobody",
    "write",
]


def records(source, features, legs):
    """Records of a day: each feature has one, and those in front have one leg more than the others."""
    each, more = divmod(legs, features)
    for number in range(features):
        count = each + (number < more) + 1
        places = [f"{source.randint(0, 640_000) / 10_000}" for _ in range(2 * count)]
        begin = source.randint(0, 40_000)
        yield f"f{number},{begin},{begin + source.randint(1, 40_000)},{' '.join(places)}\n"


def file_of(source, features, legs, day):
    """A file of so many legs, whose times begin at that day."""
    head = f"@stboundedby,{CRS},2D,0 0,64 64,{day}T00:00:00Z,{day}T23:59:59Z,sec\n@columns,mfidref,trajectory\n"
    return head + "".join(records(source, features, legs))


@unittest.skipUnless(BUILT.exists(), "tools/unproved has not run")
class AtSize(Case):
    def setUp(self):
        super().setUp()
        source = random.Random(76)
        self.write("first.csv", file_of(source, FEATURES, LEGS * 3 // 4, "2024-06-03"))
        self.write("second.csv", file_of(source, FEATURES, LEGS // 4, "2024-06-04"))

    def said(self, *words):
        ended = subprocess.run([BUILT, *words], cwd=self.folder, capture_output=True, text=True)
        self.assertEqual((ended.returncode, ended.stderr), (0, ""))
        return ended.stdout

    def test_each_command_answers_as_a_list(self):
        book, answers = check.Book(), ""
        for lines in (FIRST, SECOND):
            self.write("script", "\n".join(lines) + "\n")
            wanted = io.StringIO()
            book.run(self.folder, "\n".join(lines), wanted)
            answers = self.said("run", "store", "script", "first.csv", "second.csv")
            self.assertTrue(answers == wanted.getvalue(), "the answers differ")
        self.assertEqual(len(book.legs), LEGS)
        checked = self.said("check", "store").split()[-1].split(",")
        self.assertEqual(checked[1:], [str(LEGS), str(FEATURES)])


if __name__ == "__main__":
    unittest.main()
