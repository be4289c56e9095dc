"""What `mftb` says in words on standard error, by the build without proofs."""
import hashlib
import os
import pty
import resource
import shutil
import subprocess
import unittest
from pathlib import Path

from common import ROOT, Case

BUILT = ROOT / "tools" / "out" / "mftb-unproved"
BOUNDS = "@stboundedby,local,2D,0 0,0 0,2020-01-01T00:00:00Z,2020-01-02T00:00:00Z,sec\n"
COLUMNS = "@columns,mfidref,trajectory\n"
HEAD = BOUNDS + COLUMNS
WALK = HEAD + "a,0,10,0 0 10 4\n"
PERIOD = "2020-01-01T00:00:00Z 2020-01-01T00:00:10Z"

# Of each code of a file: the file, its answer, and what is said of it.
FILES = [
    (HEAD.encode() + b"x,0,1,\xff\n", "F1 at 3", " line 3, record 3, feature x: field 4 is not UTF-8"),
    (HEAD + COLUMNS, "F2 at 3", " line 3, record 3: a second @columns; the first is on line 2"),
    (
        BOUNDS + "\n" + BOUNDS + COLUMNS,
        "F2 at 2",
        " line 3, record 2: a second @stboundedby; the first is on line 1",
    ),
    (
        "@stboundedby,local,2D,0 0,0 0,2020-01-01T00:00:00Z\n" + COLUMNS,
        "F3 at 1",
        " line 1, record 1: @stboundedby has 6 fields, and at least 7 are needed",
    ),
    (HEAD.replace("2D", "4D"), "F4 at 1", " line 1, record 1: the dimension '4D' is neither 2D nor 3D"),
    (
        HEAD.replace("T00:00:00Z,2", "T00:00:00,2"),
        "F5 at 1",
        " line 1, record 1: the start instant '2020-01-01T00:00:00' names no instant: it has no offset and no Z",
    ),
    (
        HEAD.replace("2020-01-01T00:00:00Z,", "9999-06-01T00:00:00Z,"),
        "F5 at 1",
        " line 1, record 1: the start instant '9999-06-01T00:00:00Z' is out of range: from the year 1 to 9998",
    ),
    (
        HEAD.replace(",sec", ",hour"),
        "F6 at 1",
        " line 1, record 1: the time unit 'hour' is none of sec, minute and absolute",
    ),
    (
        BOUNDS + "@columns,trajectory,mfidref\n",
        "F7 at 2",
        " line 2, record 2: @columns is followed by 'trajectory' and 'mfidref', not by mfidref and trajectory",
    ),
    (
        BOUNDS + "x,0,1,0 0\n" + COLUMNS,
        "F8 at 2",
        " line 2, record 2, feature x: a data record before the line @columns",
    ),
    (COLUMNS, "F8 at 0", ": the file ends without the line @stboundedby"),
    ("", "F8 at 0", ": the file ends without the lines @stboundedby and @columns"),
    (HEAD + "x,0,1\n", "F11 at 3", " line 3, record 3, feature x: it has 3 fields, and at least 4 are needed"),
    (
        BOUNDS + "@columns,mfidref,trajectory,state,xsd:token,,\nx,0,1,0 0,walking,y\n",
        "F11 at 3",
        " line 3, record 3, feature x: field 6, 'y', is past the last attribute column",
    ),
    (HEAD + " ,0,1,0 0\n", "F12 at 3", " line 3, record 3: the feature's name, mfidref, is empty"),
    (
        HEAD + "x" * 256 + ",0,1,0 0\n",
        "F12 at 3",
        f" line 3, record 3, feature {'x' * 60}...: the feature's name, mfidref, has 256 bytes,"
        " and at most 255 are allowed",
    ),
    (
        HEAD + "x,0,1e3,0 0\n",
        "F13 at 3",
        " line 3, record 3, feature x: the end time '1e3' is no plain decimal number",
    ),
    (
        HEAD + "x,0,1000000000000,0 0\n",
        "F13 at 3",
        " line 3, record 3, feature x: the end time '1000000000000' is out of range, or names a moment that is",
    ),
    (
        HEAD.replace(",sec", ",absolute") + "x,noon,2,0 0\n",
        "F13 at 3",
        " line 3, record 3, feature x: the start time 'noon' is no instant, as 2024-01-31T12:00:00Z is",
    ),
    (
        HEAD + "x,1,1.0,0 0\n",
        "F14 at 3",
        " line 3, record 3, feature x: the end time '1.0' is not after the start time '1'",
    ),
    (
        HEAD + "n,0,1,0 0 0 100000000.0000001\n",
        "F15 at 3",
        " line 3, record 3, feature n: coordinate 4, '100000000.0000001', is out of range:"
        " at most 100000000 either way",
    ),
    (
        HEAD + "n,0,1,0 ten 0 0\n",
        "F15 at 3",
        " line 3, record 3, feature n: coordinate 2, 'ten', is no plain decimal number",
    ),
    (HEAD + "x,0,1,\n", "F16 at 3", " line 3, record 3, feature x: its trajectory has no position"),
    (
        HEAD + "x,0,1,0 0 1\n",
        "F16 at 3",
        " line 3, record 3, feature x: its trajectory has 3 coordinates, no multiple of 2",
    ),
    (
        HEAD + "q,0,0.002,0 0 1 1 2 2 3 3\n",
        "F17 at 3",
        " line 3, record 3, feature q: it lasts 2 milliseconds, fewer than its 3 legs",
    ),
    (
        HEAD + "a,0,540,0 0 1 1\nb,0,1,0 0 1 1\na,218,600,1 1 2 2\n",
        "F18 at 5",
        " line 5, record 5, feature a: begins at 2020-01-01T00:03:38Z, before its last leg ends at 00:09:00Z",
    ),
    (
        HEAD + "a,0,86400.5,0 0 1 1\na,86400.25,90000,1 1 2 2\n",
        "F18 at 4",
        " line 4, record 4, feature a: begins at 2020-01-02T00:00:00.250Z,"
        " before its last leg ends at 00:00:00.500Z",
    ),
]

NEXT = "; load it into a new store with more {}, or into the parts of a fleet"
KNOWN = "there are ever, always, enters, leaves, crosses and bypasses"

# Of each code of a line: the line, its code, and what is said of it.
LINES = [
    (b"box 0 0 1 1 \xff", "Q1", "the line is not UTF-8"),
    (b"COUNT", "Q2", "unknown command 'COUNT'"),
    (b"count 1", "Q3", "count takes no word behind it, found 1"),
    (b"load", "Q3", "load takes a name, found none"),
    (b"box 1 2 3", "Q3", "box takes 6 words, X1 Y1 X2 Y2 T1 T2, found 3"),
    (b"legs ever 1 2 3", "Q3", "legs takes 7 words, PRED X1 Y1 X2 Y2 T1 T2, found 4"),
    (f"legs inside 0 0 1 1 {PERIOD}".encode(), "Q4", f"unknown predicate 'inside'; {KNOWN}"),
    (f"box 0 0 x 1 {PERIOD}".encode(), "Q5", "X2 'x' is no plain decimal number"),
    (
        f"features ever 0 -100000001 1 1 {PERIOD}".encode(),
        "Q5",
        "Y1 '-100000001' is out of range: at most 100000000 either way",
    ),
    (f"box 1 0 0 1 {PERIOD}".encode(), "Q6", "X1 1 is above X2 0"),
    (f"legs ever 0 2 1 1 {PERIOD}".encode(), "Q6", "Y1 2 is above Y2 1"),
    (b"box 0 0 1 1 2020-01-01T00:00:00Z noon", "Q7", "T2 'noon' is no instant, as 2024-01-31T12:00:00Z is"),
    (
        b"box 0 0 1 1 2012-01-17T12:33:41 2020-01-01T00:00:00Z",
        "Q7",
        "T1 '2012-01-17T12:33:41' names no instant: it has no offset and no Z",
    ),
    (
        b"box 0 0 1 1 2020-01-01T00:00:01Z 2020-01-01T00:00:00Z",
        "Q8",
        "T1 2020-01-01T00:00:01Z is after T2 2020-01-01T00:00:00Z",
    ),
    (b"load none", "Q9", "no file 'none' on the command line"),
    (b"write", "Q10", "there is nothing to write: no file was accepted"),
]


@unittest.skipUnless(BUILT.exists(), "tools/unproved has made no build yet")
class Explained(Case):
    def put(self, name, text):
        Path(self.folder, name).write_bytes(text if isinstance(text, bytes) else text.encode())
        return name

    def run_mftb(self, *words, status=0):
        """What `mftb` prints and what it says, where it ends with a status."""
        ended = subprocess.run([BUILT, *words], cwd=self.folder, capture_output=True)
        self.assertEqual(ended.returncode, status, ended.stderr)
        return ended.stdout.decode(), ended.stderr.decode()

    def ask(self, script, *files, options=("--explain",), store="store", status=0):
        self.put("script.txt", script)
        return self.run_mftb("run", *options, store, "script.txt", *files, status=status)

    def loaded(self, store="store"):
        self.put("walk.csv", WALK)
        self.ask("load walk.csv\n", "walk.csv", options=(), store=store)

    def test_each_code_of_a_file(self):
        for number, (text, code, words) in enumerate(FILES):
            with self.subTest(code=code, number=number):
                self.put("day.csv", text)
                out, said = self.ask("load day.csv\n", "day.csv", store=f"store{number}")
                self.assertEqual(out, f"refused {code}\n")
                made = f"mftb: there was no store store{number}: an empty one was made\n"
                self.assertEqual(said, f"{made}mftb: day.csv{words} ({code.split()[0]})\n")

    def test_raw_feeds_name_their_tool(self):
        """A file of another form is told what makes one to load of it."""
        feeds = {
            "AIS reports, of which tools/from_ais": [
                "MMSI,BaseDateTime,LAT,LON",
                "# Timestamp,Type of mobile,MMSI,Latitude",
            ],
            "a Movebank download, of which tools/from_movebank": [
                "event-id,visible,timestamp,location-long,location-lat"
            ],
            "GPX, of which tools/from_gpx": ['<?xml version="1.0"?>', "<gpx>"],
        }
        for name, heads in feeds.items():
            for head in heads:
                self.put("day.csv", head + "\n1,2,3,4\n")
                out, said = self.ask("load day.csv\n", "day.csv")
                self.assertEqual(out, "refused F8 at 1\n")
                self.assertIn(f"@columns; it looks like {name} makes a file to load (F8)\n", said)
                self.assertEqual(self.ask("load day.csv\n", "day.csv", options=("-q",))[1], "")
                self.assertEqual(self.ask("count\n", "day.csv", options=())[1], "")
                hint = f"it looks like {name} makes a file to load\n"
                out, said = self.ask("load day.csv\n", "day.csv", options=())
                self.assertEqual((out, said), ("refused F8 at 1\n", f"mftb: day.csv: {hint}"))
                os.mkfifo(Path(self.folder, "pipe"))
                with subprocess.Popen(["cp", "day.csv", "pipe"], cwd=self.folder):
                    out, said = self.ask("load pipe\n", "pipe", options=())
                os.unlink(Path(self.folder, "pipe"))
                self.assertEqual((out, said), ("refused F8 at 1\n", f"mftb: pipe: {hint}"))

    def test_each_code_of_a_line(self):
        for number, (line, code, words) in enumerate(LINES):
            with self.subTest(code=code, line=line):
                script = b"# first\n\n \t" + line + b" \r\n"
                out, said = self.ask(script, store=f"store{number}")
                self.assertEqual(out, f"refused {code}\n")
                made = f"mftb: there was no store store{number}: an empty one was made\n"
                self.assertEqual(said, f"{made}mftb: script.txt line 3: {words}\n")

    def test_a_file_that_does_not_join(self):
        """What the store has is said, too: a CRS, a dimension, columns, and the end of a last leg."""
        typed = HEAD.replace("trajectory\n", "trajectory,state,xsd:token\n")
        self.put("first.csv", typed + "a,0,10,0 0 10 4,walking\n")
        self.ask("load first.csv\n", "first.csv", options=())
        cases = [
            (typed.replace("local", "other"), "F9 at 1", "the CRS 'other' is not that of the store, 'local'"),
            (typed.replace("2D", "3d"), "F9 at 1", "the dimension '3d' is not that of the store"),
            (HEAD, "F10 at 2", "there are 0 attribute columns, and the store has 1"),
            (
                typed.replace("xsd:token", "xsd:token,speed,xsd:decimal"),
                "F10 at 2",
                "attribute column 2, 'speed', is none of the store's",
            ),
            (
                typed.replace("state", "mode"),
                "F10 at 2",
                "attribute column 1 is 'mode' of type 'xsd:token', and the store's is 'state' of type 'xsd:token'",
            ),
            (
                typed + "b,0,1,0 0 1 1\na,9.5,11,0 0 1 1\n",
                "F18 at 4",
                "begins at 2020-01-01T00:00:09.500Z, before its last leg ends at 00:00:10Z",
            ),
        ]
        for text, code, words in cases:
            with self.subTest(words):
                self.put("day.csv", text)
                out, said = self.ask("load day.csv\n", "day.csv")
                self.assertEqual(out, f"refused {code}\n")
                line = code.split()[-1]
                feature = ", feature a" if code == "F18 at 4" else ""
                self.assertEqual(
                    said,
                    f"mftb: day.csv line {line}, record {line}{feature}: {words} ({code.split()[0]})\n",
                )

    def limit(self, store, legs, features):
        """Gives a store other limits: those of page 0, which is sealed anew."""
        path = Path(self.folder, store)
        data = bytearray(path.read_bytes())
        data[24:40] = legs.to_bytes(8, "big") + features.to_bytes(8, "big")
        data[4064:4096] = hashlib.sha256(data[:4064]).digest()
        path.write_bytes(data)

    def test_a_full_store(self):
        self.put("S1.csv", (ROOT / "examples" / "standard" / "S1.csv").read_bytes())
        for limits, code, words in (
            ((4, 2), "F19", f"with its legs the store would have more than 4{NEXT.format('--most-legs')}"),
            ((5, 2), "F20", f"with it the store would have more than 2 features{NEXT.format('--most-features')}"),
        ):
            self.ask("count\n", options=("-q",), store=code)
            self.limit(code, *limits)
            out, said = self.ask("load S1.csv\n", "S1.csv", store=code)
            self.assertEqual(out, f"refused {code} at 6\n")
            self.assertEqual(said, f"mftb: S1.csv line 6, record 6, feature c: {words} ({code})\n")

    def test_lines_are_those_of_the_file(self):
        """Marks, line ends of two bytes, empty lines and line ends in quotes."""
        marked = b"\xef\xbb\xbf" + HEAD.encode()
        cases = {
            "marked": (marked + b"x,0,1\n", 3, 3),
            "returns": (HEAD.replace("\n", "\r\n").encode() + b"\r\n\r\nx,0,1\r\n", 5, 3),
            "empty": (b"\n\n" + HEAD.encode() + b"\nx,0,1\n", 6, 3),
            "quoted": (HEAD.encode() + b'y,0,1,"0 0\n1 1"\n\nx,0,1\n', 6, 4),
            "blank": (HEAD.encode() + b" \n@more,1\nx,0,1\n", 5, 5),
        }
        for name, (text, line, record) in cases.items():
            with self.subTest(name):
                self.put("day.csv", text)
                _, said = self.ask("load day.csv\n", "day.csv", store=name)
                made = f"mftb: there was no store {name}: an empty one was made\n"
                self.assertEqual(
                    said,
                    f"{made}mftb: day.csv line {line}, record {record}, feature x: it has 3 fields, and at least 4"
                    " are needed (F11)\n",
                )

    def test_values_are_no_commands_of_a_terminal(self):
        _, said = self.ask(b"\x1b[31mred\n" + b"y" * 70 + b"\n")
        self.assertIn("line 1: unknown command '\ufffd[31mred'\n", said)
        self.assertIn(f"line 2: unknown command '{'y' * 60}...'\n", said)
        self.assertNotIn("\x1b", said)
        _, said = self.ask("\ufeffcount\nco\u00a0unt\n".encode())
        self.assertIn("line 1: the line begins with a byte order mark; save the script without one\n", said)
        self.assertIn("line 2: unknown command 'co\ufffdunt'\n", said)

    def test_a_last_leg_that_ended_otherwise_then(self):
        """The end of the last leg is named only if the run loaded no leg after the refused file."""
        self.put("first.csv", HEAD + "a,0,10,0 0 10 4\n")
        self.put("late.csv", HEAD + "a,5,11,0 0 1 1\n")
        self.put("more.csv", HEAD + "a,20,30,0 0 1 1\n")
        out, said = self.ask("load first.csv\nload late.csv\nload more.csv\n", "first.csv", "late.csv", "more.csv")
        self.assertEqual(out, "ok 1\n1,1,1\nrefused F18 at 3\nok 1\n1,1,1\n")
        begun = "mftb: late.csv line 3, record 3, feature a: begins at 2020-01-01T00:00:05Z, before its last leg"
        self.assertEqual(said, f"{begun} in the store ends (F18)\n")
        out, said = self.ask("load late.csv\n", "late.csv")
        self.assertEqual((out, said), ("refused F18 at 3\n", f"{begun} ends at 00:00:30Z (F18)\n"))

    def test_the_answers_stay_as_they_are(self):
        """With the words and without, also where the store is a new one; and all of it is silent without."""
        script = b"".join(line + b"\n" for line, _, _ in LINES) + b"load walk.csv\nload walk.csv\ncount\n"
        self.put("walk.csv", WALK)
        plain, silent = self.ask(script, "walk.csv", options=(), store="plain")
        told, said = self.ask(script, "walk.csv", store="told")
        self.assertEqual((plain, silent), (told, ""))
        self.assertEqual(said.count("\n"), len(LINES) + 1)
        quiet = self.ask(script, "walk.csv", options=("-q",), store="quiet")
        self.assertEqual(quiet, (plain, ""))
        stores = {Path(self.folder, name).read_bytes() for name in ("plain", "told", "quiet")}
        self.assertEqual(len(stores), 1)

    def test_strict(self):
        self.put("walk.csv", WALK)
        good, bad = "load walk.csv\n", "load walk.csv\ncount\n"
        self.assertEqual(self.ask(good, "walk.csv", options=("--strict",)), ("ok 1\n1,1,1\n", ""))
        out, said = self.ask(bad, "walk.csv", options=("--strict",), status=3)
        self.assertEqual((out, said), ("refused F18 at 3\nok 1\n1,1\n", ""))
        out, said = self.ask("COUNT\n", options=("--strict", "--explain"), status=3)
        self.assertEqual((out, said), ("refused Q2\n", "mftb: script.txt line 1: unknown command 'COUNT'\n"))
        # A file of that name is no option.
        self.put("--strict", WALK)
        self.put("script.txt", "COUNT\n")
        self.run_mftb("run", "store", "script.txt", "--", "--strict", status=0)
        # What was accepted before is kept.
        self.put("more.csv", HEAD + "b,0,1,0 0 1 1\n")
        out, _ = self.ask("load more.csv\nCOUNT\n", "more.csv", options=("--strict",), status=3)
        self.assertEqual(out, "ok 1\n1,1,1\nrefused Q2\n")
        self.assertEqual(self.ask("count\n")[0], "ok 1\n2,2\n")

    def test_words_that_contradict(self):
        for command in (["run", "store", "script.txt"], ["check", "store"]):
            out, said = self.run_mftb(*command, "-q", "--explain", status=2)
            self.assertEqual(out, "")
            self.assertIn("cannot be used with", said)
        self.assertFalse(Path(self.folder, "store").exists())

    def test_a_store_that_is_made(self):
        out, said = self.ask("count\n", store="mistyped")
        self.assertEqual(out, "ok 1\n0,0\n")
        self.assertEqual(
            said,
            "mftb: there was no store mistyped: an empty one was made\n"
            "mftb: script.txt line 1: the store has no legs\n",
        )
        # It is there now, and has no legs on the next day either; that is said once.
        out, said = self.ask(f"count\nbox 0 0 1 1 {PERIOD}\ntrajectory a\n", store="mistyped")
        self.assertEqual(out, "ok 1\n0,0\nok 0\nok 0\n")
        self.assertEqual(said, "mftb: script.txt line 1: the store has no legs\n")
        # In a pipe that is said too, and so it is where no file was accepted, but not to who wants no words.
        self.put("bad.csv", "x,0,1,0 0\n")
        for number, (script, options) in enumerate([("count\n", ()), ("load bad.csv\n", ()), ("count\n", ("-q",))]):
            name = f"other{number}"
            made = "" if options else f"mftb: there was no store {name}: an empty one was made\n"
            self.assertEqual(self.ask(script, "bad.csv", options=options, store=name)[1], made)
        # A script with a load makes one on purpose.
        self.put("walk.csv", WALK)
        self.assertEqual(self.ask("load walk.csv\n", "walk.csv", store="new"), ("ok 1\n1,1,1\n", ""))

    def test_existing(self):
        self.put("walk.csv", WALK)
        for script in ("count\n", "load walk.csv\n"):
            for options in (("--existing",), ("--existing", "--explain"), ("--existing", "-q")):
                out, said = self.ask(script, "walk.csv", options=options, status=1)
                why = "mftb: store: there is no such file, or one without a byte; --existing makes none\n"
                told = why if "--explain" in options else ""
                self.assertEqual((out, said), ("", "mftb: no such store\n" + told))
        self.put("empty", "")
        self.assertEqual(self.ask("count\n", options=("--existing",), store="empty", status=1)[0], "")
        self.assertEqual(Path(self.folder, "empty").read_bytes(), b"")
        self.assertEqual(sorted(os.listdir(self.folder)), ["empty", "script.txt", "walk.csv"])
        self.loaded()
        self.assertEqual(self.ask("count\n", options=("--existing",)), ("ok 1\n1,1\n", ""))

    def test_a_question_of_elsewhere(self):
        """The legs lie in x from 0 to 10, y from 0 to 4, and the first ten seconds of 2020."""
        self.loaded()
        where = "the rectangle does not meet x 0 to 10, y 0 to 4, where the store has legs"
        when = "the period does not meet 2020-01-01T00:00:00Z to 00:00:10Z, when the store has legs"
        cases = [
            (f"box 1 6 3 8 {PERIOD}", "ok 0\n", where + "; with x and y exchanged it would"),
            (f"box 11 11 12 12 {PERIOD}", "ok 0\n", where),
            (f"features bypasses 11 11 12 12 {PERIOD}", "ok 1\na\n", where),
            ("legs ever 0 0 1 1 2021-01-01T00:00:00Z 2021-01-02T00:00:00Z", "ok 0\n", when),
            ("trajectory b", "ok 0\n", "the store has no feature 'b'"),
            (f"box 0 3 1 4 {PERIOD}", "ok 1\na,0,10,0 0 10 4\n", None),
            (f"legs ever 0 3 1 4 {PERIOD}", "ok 0\n", None),
            (f"legs bypasses 0 3 1 4 {PERIOD}", "ok 1\na,0,10,0 0 10 4\n", None),
            ("trajectory a", "ok 1\na,0,10,0 0 10 4\n", None),
        ]
        for line, answer, words in cases:
            with self.subTest(line):
                out, said = self.ask(line + "\n")
                self.assertEqual(out, answer)
                self.assertEqual(said, f"mftb: script.txt line 1: {words}\n" if words else "")

    def test_moments_of_elsewhere(self):
        """Where no leg is inside, the rectangle or the period may lie beside all legs; that is said in words alone."""
        self.loaded()
        none = "feature,visits,least,most\n"
        cases = [
            (
                ["0", "5", "4", "10"],
                PERIOD,
                "the rectangle does not meet x 0 to 10, y 0 to 4, where the store has legs; with x and y exchanged it would",
            ),
            (
                ["50", "50", "60", "60"],
                PERIOD,
                "the rectangle does not meet x 0 to 10, y 0 to 4, where the store has legs",
            ),
            (
                ["0", "0", "1", "1"],
                "2021-01-01T00:00:00Z 2021-01-02T00:00:00Z",
                "the period does not meet 2020-01-01T00:00:00Z to 00:00:10Z, when the store has legs",
            ),
        ]
        for corners, period, words in cases:
            asked = ["moments", "--dwell", "store", *corners, *period.split(" ")]
            self.assertEqual(self.run_mftb(*asked), (none, ""))
            self.assertEqual(self.run_mftb(*asked, "--explain"), (none, f"mftb: {words}\n"))
            self.assertEqual(self.run_mftb(*asked, "-q"), (none, ""))
        _, said = self.run_mftb("moments", "--explain", "store", "a", "0", "1", "1", *PERIOD.split(" "), status=2)
        self.assertIn("X1 'a' is no plain decimal number\n", said)

    def test_where_many_legs_lie(self):
        """A store whose root is an inner page."""
        legs = "".join(f"f{k},0,{k + 1},{k} {-k} {k + 1} {-k}\n" for k in range(300))
        self.put("many.csv", HEAD + legs)
        script = f"load many.csv\nbox 0 1 1 2 {PERIOD}\n"
        out, said = self.ask(script, "many.csv")
        self.assertEqual(out, "ok 1\n300,300,300\nok 0\n")
        self.assertEqual(
            said,
            "mftb: script.txt line 2: the rectangle does not meet x 0 to 300, y -299 to 0, where the store has"
            " legs; with x and y exchanged it would\n",
        )

    def test_no_more_than_a_thousand_are_told(self):
        out, said = self.ask("COUNT\n" * 1500, store="many")
        self.assertEqual(out, "refused Q2\n" * 1500)
        lines = said.splitlines()
        self.assertEqual(len(lines), 1002)
        self.assertEqual(lines[1000], "mftb: script.txt line 1000: unknown command 'COUNT'")
        self.assertEqual(lines[1001], "mftb: and 500 more of these")

    def test_questions_take_no_room_of_refusals(self):
        self.put("walk.csv", WALK)
        self.ask("load walk.csv\n", "walk.csv")
        _, said = self.ask(f"legs bypasses 0 0 1 1 {PERIOD}\n" * 1001 + "count it\n")
        self.assertTrue(said.startswith("mftb: script.txt line 1002: "), said)
        self.assertEqual(said.count("\n"), 1)

    def test_why_a_file_is_not_read(self):
        self.put("script.txt", "count\n")
        Path(self.folder, "folder").mkdir()
        no_such = "there is no such file or folder"
        for words, name, why in (
            (("store", "none"), "none", no_such),
            (("store", "script.txt", "none.csv"), "none.csv", no_such),
            (("store", "folder"), "folder", "it is a folder"),
        ):
            _, said = self.run_mftb("run", "--explain", *words, status=1)
            self.assertEqual(said, f"mftb: cannot read {name}\nmftb: {name}: {why}\n")
            _, said = self.run_mftb("run", *words, status=1)
            self.assertEqual(said, f"mftb: cannot read {name}\n")
        self.assertFalse(Path(self.folder, "store").exists())

    def test_why_a_store_is_not_opened(self):
        Path(self.folder, "folder").mkdir()
        self.put("file", "")
        for store, why in (
            ("folder", "it is a folder"),
            ("none/store", "there is no such file or folder"),
            ("file/store", "what stands before its name is no folder"),
        ):
            with self.subTest(store):
                _, said = self.ask("count\n", store=store, status=1)
                self.assertEqual(said, f"mftb: store\nmftb: {store}: {why}\n")
                self.assertEqual(self.ask("count\n", options=(), store=store, status=1)[1], "mftb: store\n")
                _, said = self.run_mftb("check", "--explain", store, status=1)
                self.assertEqual(said, f"mftb: store\nmftb: {store}: {why}\n")

    def test_a_file_that_is_no_store(self):
        self.put("walk.csv", WALK)
        why = "mftb: walk.csv: its pages are not those of a store; is it a file of another kind?\n"
        _, said = self.ask("count\n", store="walk.csv", status=1)
        self.assertEqual(said, "mftb: store malformed\n" + why)
        self.assertEqual(self.ask("count\n", options=(), store="walk.csv", status=1)[1], "mftb: store malformed\n")

    def test_which_word_of_a_rectangle(self):
        self.loaded()
        words = ["store", "0", "0", "1,5", "1", *PERIOD.split()]
        _, shown = self.shown("moments", *words)
        self.assertEqual(
            shown,
            "mftb: a coordinate is no number, or out of range\r\nmftb: X2 '1,5' is no plain decimal number\r\n",
        )
        _, said = self.run_mftb("moments", *words, status=2)
        self.assertEqual(said, "mftb: a coordinate is no number, or out of range\n")
        for word in ("", "1 5", "1\t5"):
            _, said = self.run_mftb("moments", "store", "0", "0", word, "1", *PERIOD.split(), status=2)
            self.assertEqual(said, "mftb: X1 Y1 X2 Y2 T1 T2 are one word each\n")

    def test_a_line_of_a_script_is_no_subcommand(self):
        """Who types a line of a script is told how one is run; who mistypes a subcommand is not."""
        for word in "load", "count", "box", "legs", "features", "trajectory", "write":
            out, said = self.run_mftb(word, "day.csv", status=2)
            self.assertEqual(out, "")
            self.assertIn(f"unrecognized subcommand '{word}'", said)
            hint = f"\n'{word}' begins a line of a script. Write the lines into a file SCRIPT, and run:\n"
            self.assertTrue(said.endswith(f"{hint}\n  mftb run STORE SCRIPT [FILES]...\n"), said)
        self.assertNotIn("SCRIPT", self.run_mftb("zone", "day.csv", status=2)[1])
        # A word behind a subcommand is none of these.
        self.assertNotIn("line of a script", self.run_mftb("info", "load", "count", status=2)[1])

    def as_nobody(self, *words):
        """What `mftb` says to a user without rights."""
        self.folder.chmod(0o755)
        program = Path(self.folder, "mftb")
        shutil.copy(BUILT, program)
        program.chmod(0o755)
        user = 65534 if os.geteuid() == 0 else None
        ended = subprocess.run([program, *words], cwd=self.folder, capture_output=True, user=user)
        self.assertEqual(ended.returncode, 1)
        return ended.stderr.decode()

    def test_what_there_is_no_right_to_do(self):
        self.put("walk.csv", WALK)
        self.put("script.txt", "load walk.csv\n")
        self.put("secret", "count\n")
        Path(self.folder, "secret").chmod(0)
        Path(self.folder, "shut").mkdir(mode=0o555)
        why = "there is no right to do so"
        said = self.as_nobody("run", "--explain", "store", "secret")
        self.assertEqual(said, f"mftb: cannot read secret\nmftb: secret: {why}\n")
        said = self.as_nobody("run", "--explain", "shut/store", "script.txt", "walk.csv")
        self.assertEqual(said, f"mftb: store\nmftb: shut/store: {why}\n")
        said = self.as_nobody("check", "--explain", "secret")
        self.assertEqual(said, f"mftb: store\nmftb: secret: {why}\n")

    def test_a_full_disk(self):
        disk = Path(self.folder, "disk")
        disk.mkdir()
        mount = ["mount", "-t", "tmpfs", "-o", "size=100k", "tmpfs", disk]
        if subprocess.run(mount, capture_output=True).returncode != 0:
            self.skipTest("there is no right to mount a small disk")
        try:
            legs = "".join(f"f{k},0,1,0 0 1 1\n" for k in range(100))
            self.put("many.csv", HEAD + legs)
            for options in (("--explain",), ("--explain", "--in-place")):
                _, said = self.ask("load many.csv\n", "many.csv", options=options, store="disk/store", status=1)
                self.assertEqual(said, "mftb: store\nmftb: disk/store: the disk is full\n")
        finally:
            subprocess.run(["umount", disk], check=True)

    def test_a_limit_of_files(self):
        self.put("many.csv", HEAD + "".join(f"f{k},0,1,0 0 1 1\n" for k in range(100)))
        self.put("script.txt", "load many.csv\n")
        words = [BUILT, "run", "--explain", "store", "script.txt", "many.csv"]
        limit = 100_000, 100_000
        # Python ignores the signal of a file that is too long, and so does the program then.
        ended = subprocess.run(
            words,
            cwd=self.folder,
            capture_output=True,
            preexec_fn=lambda: resource.setrlimit(resource.RLIMIT_FSIZE, limit),
            restore_signals=False,
        )
        why = "it would be longer than the system lets it be"
        self.assertEqual((ended.returncode, ended.stderr.decode()), (1, f"mftb: store\nmftb: store: {why}\n"))

    def test_a_check_that_makes_a_file(self):
        _, said = self.run_mftb("check", "--explain", "absent", status=1)
        self.assertEqual(said, "mftb: store malformed\nmftb: there was no file absent: an empty one was made\n")
        _, said = self.run_mftb("check", "--explain", "absent", status=1)
        self.assertNotIn("was made", said)
        _, said = self.run_mftb("check", "other", status=1)
        self.assertEqual(said, "mftb: store malformed\n")

    def shown(self, *words):
        """What `mftb` says where standard error is a terminal."""
        ours, theirs = pty.openpty()
        ended = subprocess.run([BUILT, *words], cwd=self.folder, stdout=subprocess.PIPE, stderr=theirs)
        os.close(theirs)
        shown = b""
        with open(ours, "rb", buffering=0) as end:
            try:
                while part := end.read(1000):
                    shown += part
            except OSError:
                pass
        return ended.stdout.decode(), shown.decode()

    def test_on_a_terminal(self):
        self.loaded()
        self.put("script.txt", "COUNT\ncount\n")
        answer = "refused Q2\nok 1\n1,1\n"
        words = "mftb: script.txt line 1: unknown command 'COUNT'\r\n"
        self.assertEqual(self.shown("run", "store", "script.txt"), (answer, words))
        self.assertEqual(self.shown("run", "-q", "store", "script.txt"), (answer, ""))
        _, shown = self.shown("check", "absent")
        self.assertIn("there was no file absent: an empty one was made", shown)
        self.assertEqual(self.shown("check", "-q", "other"), ("", "mftb: store malformed\r\n"))
