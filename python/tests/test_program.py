"""The program, by the build without proofs: words in; the status, both outputs and the files out."""
import fcntl
import hashlib
import os
import resource
import subprocess
import time
import unittest
from pathlib import Path

from common import BUILT, Case

# The example of the standard.
STANDARD = """\
@stboundedby,urn:x-ogc:def:crs:EPSG:6.6:4326,2D,50.23 9.23,50.31 9.27,2012-01-17T12:33:41Z,2012-01-17T12:37:00Z,sec
@columns,mfidref,trajectory,state,xsd:token,"type code",xsd:integer
a,10,150,11.0 2.0 12.0 3.0,walking,1
b,10,190,10.0 2.0 11.0 3.0,walking,2
a,150,190,12.0 3.0 10.0 3.0,walking,2
c,10,190,12.0 1.0 10.0 2.0 11.0 3.0,vehicle,1
"""
SCRIPT = """\
# first
load S1.csv
count
box 11.5 2.5 13 4 2012-01-17T12:33:41Z 2012-01-17T12:37:00Z
"""
ANSWERS = """\
ok 1
4,5,3
ok 1
5,3
ok 2
a,10,150,11 2 12 3,walking,1
a,150,190,12 3 10 3,walking,2
"""
# Part 1 of 2 of the example: the features `a` and `c`.
PART = """
@stboundedby,urn:x-ogc:def:crs:EPSG:6.6:4326,2D,50.23 9.23,50.31 9.27,2012-01-17T12:33:41Z,2012-01-17T12:37:00Z,sec
@columns,mfidref,trajectory,state,xsd:token,type code,xsd:integer
a,10,150,11.0 2.0 12.0 3.0,walking,1
\x20
a,150,190,12.0 3.0 10.0 3.0,walking,2
c,10,190,12.0 1.0 10.0 2.0 11.0 3.0,vehicle,1
"""

# How page 0 of a finished store of version 1 begins into which no file was accepted: the letters, the version, the
# state, 63 legs and 72 entries, the limits of 2^24 legs and 2^20 features, no tree, and a text of one byte in page 1.
HEADER = (
    b"MFTB"
    + bytes([0, 0, 0, 1, 0, 0, 0, 1, 0, 63, 0, 72, 0, 0, 0, 0, 1, 0, 0, 0, 0, 0, 0, 0, 0, 16, 0, 0])
    + bytes(15)
    + bytes([1, 0, 0, 0, 0, 0, 0, 0, 1])
    + bytes(4)
)
# How page 1 begins: no page comes next, one byte of the text, ten zeros, and that byte, 0.
TEXT = bytes([0, 0, 0, 0, 0, 1]) + bytes(54)
# The kinds of pages.
OF_HEADER, OF_CATALOGUE = 1, 4
# Where an output begins that has room for the first line of the first answer alone, and how long that line is.
START, LINE = 1 << 20, 5


def page(number, kind, front):
    """A page of a kind that begins so, sealed."""
    sealed = number.to_bytes(4, "big") + bytes([kind, 0, 0, 0]) + front + bytes(4056 - len(front))
    return sealed + hashlib.sha256(sealed).digest()


def version_1():
    """A store of version 1."""
    return page(0, OF_HEADER, HEADER) + page(1, OF_CATALOGUE, TEXT)


def limit():
    """Ends each file that is written behind that line."""
    resource.setrlimit(resource.RLIMIT_FSIZE, (START + LINE, START + LINE))


@unittest.skipUnless(BUILT.exists(), "tools/unproved has made no build yet")
class Program(Case):
    def path(self, name):
        return Path(self.folder, name)

    def bytes_of(self, name):
        return self.path(name).read_bytes()

    def answer(self, *words):
        """What the program answers to words: its status, its output, and its faults."""
        ended = subprocess.run([BUILT, *words], cwd=self.folder, capture_output=True)
        return ended.returncode, ended.stdout.decode(), ended.stderr.decode()

    def fails(self, line, *words, status=1):
        """The program ends with a status and that line alone."""
        self.assertEqual(self.answer(*words), (status, "", line))

    def cut(self, *words):
        """The program says that its output failed, where that takes the first line of the first answer alone."""
        with open(self.path("output"), "w+b") as out:
            out.seek(START)
            # Python ignores the signal of a file that is too long, and so does the program then.
            ended = subprocess.run(
                [BUILT, *words],
                cwd=self.folder,
                stdout=out,
                stderr=subprocess.PIPE,
                preexec_fn=limit,
                restore_signals=False,
            )
        self.assertEqual((ended.returncode, ended.stderr.decode()), (1, "mftb: output\n"))
        self.assertEqual(self.bytes_of("output")[START:], b"ok 1\n")

    def write_example(self):
        self.write("S1.csv", STANDARD)
        self.write("script.txt", SCRIPT)

    def test_a_script_is_run(self):
        self.write_example()
        self.write("first.mftb", "")
        self.assertEqual(self.answer("run", "first.mftb", "script.txt", "S1.csv"), (0, ANSWERS, ""))

    def test_a_second_run_meets_what_the_first_one_loaded(self):
        self.write_example()
        self.write("count.txt", "count\n")
        self.write("again.txt", "load S1.csv\n")
        self.write("two.mftb", "")
        self.assertEqual(self.answer("run", "two.mftb", "script.txt", "S1.csv"), (0, ANSWERS, ""))
        counted = self.answer("run", "--cache-pages", "1", "two.mftb", "count.txt")
        self.assertEqual(counted, (0, "ok 1\n5,3\n", ""))
        status, out, _ = self.answer("run", "two.mftb", "again.txt", "S1.csv")
        self.assertEqual((status, out), (0, "refused F18 at 3\n"))

    def test_what_was_loaded_is_kept_where_the_output_fails(self):
        self.write_example()
        self.write("count.txt", "count\n")
        for name, words in (("copied.mftb", []), ("placed.mftb", ["--in-place"])):
            self.write(name, "")
            self.cut("run", *words, name, "script.txt", "S1.csv")
            self.assertEqual(self.answer("run", name, "count.txt"), (0, "ok 1\n5,3\n", ""))
            self.assertEqual(self.answer("check", name), (0, "ok 1\n6,5,3\n", ""))
            self.assertFalse(self.path(f"{name}.mftb-copy").exists())
            self.assertFalse(self.path(f"{name}.mftb-lock").exists())

    def test_what_was_loaded_is_kept_where_a_question_fails(self):
        """The leaf of `b` is page 2, of which a byte is altered; `d` has one leg of its own."""
        self.write_example()
        self.write("sound.mftb", "")
        self.assertEqual(self.answer("run", "sound.mftb", "script.txt", "S1.csv")[0], 0)
        altered = bytearray(self.bytes_of("sound.mftb"))
        altered[9000] = 77
        head = STANDARD.splitlines(keepends=True)[:2]
        self.write("S2.csv", "".join(head) + "d,10,20,0 0 1 1,walking,1\n")
        self.write("more.txt", "load S2.csv\ntrajectory b\nload S2.csv\n")
        self.write("count.txt", "count\n")
        for words in ([], ["--in-place"]):
            self.path("altered.mftb").write_bytes(altered)
            stopped = self.answer("run", *words, "altered.mftb", "more.txt", "S2.csv")
            self.assertEqual(stopped, (1, "ok 1\n1,1,1\n", "mftb: page 2 damaged\n"))
            self.assertEqual(self.answer("run", "altered.mftb", "count.txt"), (0, "ok 1\n6,4\n", ""))
            self.assertFalse(self.path("altered.mftb.mftb-copy").exists())

    def test_a_closing_that_fails_too_has_a_line_of_its_own(self):
        self.write_example()
        self.write("whole.mftb", "")
        self.write("short.mftb", "")
        self.assertEqual(self.answer("run", "whole.mftb", "script.txt", "S1.csv")[0], 0)
        most = len(self.bytes_of("whole.mftb")) - 4096
        with open("/dev/full", "w") as full:
            # Python ignores the signal of a file that is too long, and so does the program then.
            ended = subprocess.run(
                [BUILT, "run", "--in-place", "short.mftb", "script.txt", "S1.csv"],
                cwd=self.folder,
                stdout=full,
                stderr=subprocess.PIPE,
                preexec_fn=lambda: resource.setrlimit(resource.RLIMIT_FSIZE, (most, most)),
                restore_signals=False,
            )
        self.assertEqual((ended.returncode, ended.stderr.decode()), (1, "mftb: store\nmftb: output\n"))

    def test_a_store_is_in_use(self):
        self.write("S1.csv", STANDARD)
        self.write("again.txt", "load S1.csv\n")
        self.write("held.mftb", "")
        with open(self.path("held.mftb"), "rb") as held:
            fcntl.flock(held, fcntl.LOCK_EX | fcntl.LOCK_NB)
            line = "mftb: store in use\n"
            self.fails(line, "run", "held.mftb", "again.txt", "S1.csv")
            self.fails(line, "check", "held.mftb")
        self.assertEqual(self.bytes_of("held.mftb"), b"")

    def test_a_file_that_is_no_store_is_not_touched(self):
        self.write("count.txt", "count\n")
        self.write("letter.txt", "Dear captain")
        self.fails("mftb: store malformed\n", "run", "letter.txt", "count.txt")
        self.assertEqual(self.bytes_of("letter.txt"), b"Dear captain")
        status, _, faults = self.answer("run", "--cache-pages", "0", "letter.txt", "count.txt")
        self.assertEqual(status, 2)
        self.assertNotEqual(faults, "")

    def test_a_store_is_checked(self):
        self.write_example()
        self.write("sound.mftb", "")
        self.assertEqual(self.answer("run", "sound.mftb", "script.txt", "S1.csv")[0], 0)
        made = bytearray(self.bytes_of("sound.mftb"))
        self.assertEqual(self.answer("check", "sound.mftb"), (0, "ok 1\n6,5,3\n", ""))
        self.assertEqual(self.bytes_of("sound.mftb"), made)

        # A byte of page 2.
        made[9000] = 77
        self.path("altered.mftb").write_bytes(made)
        self.fails("mftb: page 2 damaged\n", "check", "--cache-pages", "1", "altered.mftb")
        self.assertEqual(self.bytes_of("altered.mftb"), made)

    def test_a_store_of_version_1_is_brought_over(self):
        self.path("old.mftb").write_bytes(version_1())
        self.write("count.txt", "count\n")
        self.assertEqual(self.answer("migrate", "old.mftb", "new.mftb"), (0, "ok 0\n", ""))
        self.assertEqual(self.bytes_of("old.mftb"), version_1())
        self.assertEqual(self.answer("run", "new.mftb", "count.txt"), (0, "ok 1\n0,0\n", ""))

        # The new store is there now, and stays.
        made = self.bytes_of("new.mftb")
        self.fails("mftb: new store not empty\n", "migrate", "old.mftb", "new.mftb")
        self.assertEqual(self.bytes_of("new.mftb"), made)

    def test_only_a_store_of_version_1_is_brought_over(self):
        self.write_example()
        self.write("present.mftb", "")
        self.write("other.mftb", "")
        self.assertEqual(self.answer("run", "present.mftb", "script.txt", "S1.csv")[0], 0)
        self.fails("mftb: store version\n", "migrate", "present.mftb", "other.mftb")
        self.assertEqual(self.bytes_of("other.mftb"), b"")

        # A file that is not there is not made.
        self.fails("mftb: store malformed\n", "migrate", "nothing.mftb", "other.mftb")
        self.assertFalse(self.path("nothing.mftb").exists())

    def test_a_store_of_version_1_may_be_unfinished_or_damaged(self):
        unfinished = HEADER[:11] + bytes(1) + HEADER[12:]
        self.path("left.mftb").write_bytes(page(0, OF_HEADER, unfinished))
        self.write("over.mftb", "")
        self.fails("mftb: store unfinished\n", "migrate", "left.mftb", "over.mftb")

        # A byte of page 1.
        bent = bytearray(version_1())
        bent[5000] = 77
        self.path("bent.mftb").write_bytes(bent)
        self.fails("mftb: page 1 damaged\n", "migrate", "bent.mftb", "over.mftb")
        self.assertEqual(self.bytes_of("over.mftb"), b"")

    def test_a_store_of_version_1_is_said(self):
        self.path("former.mftb").write_bytes(version_1())
        self.write("count.txt", "count\n")
        self.fails("mftb: store version\n", "run", "former.mftb", "count.txt")
        self.fails("mftb: store version\n", "check", "former.mftb")
        self.assertEqual(self.bytes_of("former.mftb"), version_1())

    def test_a_file_without_a_page_is_no_store(self):
        self.write("letter.txt", "Dear captain")
        for name in ("letter.txt", "absent.mftb"):
            self.fails("mftb: store malformed\n", "check", name)
        self.assertEqual(self.bytes_of("letter.txt"), b"Dear captain")
        self.assertEqual(self.bytes_of("absent.mftb"), b"")

    def test_what_cannot_be_read_has_a_line(self):
        self.fails("mftb: cannot read no such script\n", "run", "store", "no such script")

    def test_a_file_that_is_too_long_is_refused_unread(self):
        self.write("count.txt", "count\n")
        with open(self.path("long.csv"), "wb") as long:
            long.truncate((1 << 30) + 1)
        begin = time.monotonic()
        self.fails("mftb: cannot read long.csv\n", "run", "made.mftb", "count.txt", "long.csv")
        self.assertLess(time.monotonic() - begin, 10)

    def test_all_is_read_before_the_store_is_made(self):
        self.write("count.txt", "count\n")
        self.fails("mftb: cannot read absent.txt\n", "run", "made.mftb", "absent.txt")
        self.fails("mftb: cannot read absent.csv\n", "run", "made.mftb", "count.txt", "absent.csv")
        self.assertFalse(self.path("made.mftb").exists())

    def test_a_cache_has_256_pages(self):
        """As help says it."""
        for command in ("run", "check", "moments"):
            status, said, _ = self.answer(command, "--help")
            self.assertEqual(status, 0)
            self.assertRegex(" ".join(said.split()), r"--cache-pages <N> [^\[]*\[default: 256\]")

    def test_a_store_takes_as_many_legs_and_features_as_it_is_told(self):
        """The example has 5 legs, of which record 6 has 2, and 3 features, of which that record is the third."""
        self.write("S1.csv", STANDARD)
        self.write("load.txt", "load S1.csv\n")
        for words, answer in (
            (["--most-legs", "4"], "refused F19 at 6\n"),
            (["--most-features", "2"], "refused F20 at 6\n"),
            (["--most-legs", "5", "--most-features", "3"], "ok 1\n4,5,3\n"),
            (["--most-legs", "2147483648", "--most-features", "2147483648"], "ok 1\n4,5,3\n"),
        ):
            self.write("sized.mftb", "")
            said = self.answer("run", "-q", *words, "sized.mftb", "load.txt", "S1.csv")
            self.assertEqual(said, (0, answer, ""))

        # The limits stand in page 0, behind 24 bytes.
        limits = self.bytes_of("sized.mftb")[24:40]
        self.assertEqual(limits, (1 << 31).to_bytes(8, "big") * 2)

    def test_limits_are_from_1_to_2_to_the_31(self):
        self.write("count.txt", "count\n")
        for name in ("--most-legs", "--most-features"):
            for number in ("0", "2147483649", "-1", "many"):
                status, out, faults = self.answer("run", f"{name}={number}", "sized.mftb", "count.txt")
                self.assertEqual((status, out), (2, ""))
                self.assertIn(name, faults)
        self.assertFalse(self.path("sized.mftb").exists())

    def test_a_store_that_is_there_keeps_its_limits(self):
        self.write_example()
        self.write("count.txt", "count\n")
        five = ["--most-legs", "5"]
        self.write("sized.mftb", "")
        self.assertEqual(self.answer("run", *five, "sized.mftb", "script.txt", "S1.csv"), (0, ANSWERS, ""))
        made = self.bytes_of("sized.mftb")
        counted = (0, "ok 1\n5,3\n", "")
        for words in ([], five, ["--most-features", "1048576"]):
            self.assertEqual(self.answer("run", *words, "sized.mftb", "count.txt"), counted)
        line = "mftb: other limits: the store takes 5 legs and 1048576 features\n"
        for words in (["--most-legs", "6"], ["--most-features", "4"]):
            self.fails(line, "run", *words, "sized.mftb", "count.txt", status=2)
            self.fails(line, "run", *words, "sized.mftb", "script.txt", "S1.csv", status=2)
        self.assertEqual(self.bytes_of("sized.mftb"), made)

    def test_a_part_of_a_file_is_printed(self):
        self.write("whole.csv", STANDARD)
        status, out, _ = self.answer("part", "1", "2", "whole.csv")
        self.assertEqual((status, out), (0, PART))
        line = "mftb: no part 2 of 2: parts are numbered from 0\n"
        self.fails(line, "part", "2", "2", "whole.csv", status=2)

    def test_all_parts_of_a_file_are_written(self):
        self.write("whole.csv", STANDARD)
        status, out, _ = self.answer("parts", "2", "whole.csv", ".")
        self.assertEqual((status, out), (0, ""))
        self.assertEqual(self.bytes_of("part-1.csv"), PART.encode())
        status, _, faults = self.answer("parts", "2", "whole.csv", "none")
        self.assertEqual((status, faults), (1, "mftb: cannot write none\n"))
        words = ["parts", "2", "whole.csv", ".", "--first", "1", "--count", "2"]
        self.assertEqual(self.answer(*words)[0], 2)

    def test_a_terminal_is_told_why_a_part_is_not_written(self):
        self.write("whole.csv", STANDARD)
        ours, theirs = os.openpty()
        ended = subprocess.run([BUILT, "parts", "2", "whole.csv", "none"], cwd=self.folder, stderr=theirs)
        os.close(theirs)
        with open(ours, "rb", buffering=0) as terminal:
            said = terminal.read(1000).decode().splitlines()
        self.assertEqual(ended.returncode, 1)
        self.assertEqual(said, ["mftb: cannot write none", "mftb: none: there is no such file or folder"])

    def test_other_words_are_refused(self):
        status, out, faults = self.answer("chart", "store")
        self.assertEqual((status, out), (2, ""))
        self.assertNotEqual(faults, "")
        for words in (["--help"], ["help"], ["help", "run"]):
            status, out, _ = self.answer(*words)
            self.assertEqual(status, 0)
            self.assertNotEqual(out, "")
        status, out, faults = self.answer("help", "chart")
        self.assertEqual((status, out), (2, ""))
        self.assertNotEqual(faults, "")

    def test_the_version_is_printed(self):
        self.assertEqual(self.answer("--version"), (0, "mftb 0.1.0\n", ""))
