"""Day after day: what comes in is packed, cut and seamed, and what goes out is whole or absent."""
import csv
import gzip
import io
import random
import signal
import subprocess
import time
import zipfile
from datetime import datetime, timedelta
from pathlib import Path

from common import ROOT, US, Case

START = datetime(2024, 6, 3)
LINE = "{},2024-06-03T09:00:{:02},1,2,0,\n"


def reports(day):
    """The lines of a day's file: from its midnight to ten seconds after the next one.

    Ship 3 is silent for hours over each midnight, ship 4 is heard on every other day, ship 5 once
    a day, and ship 6 at each midnight.
    """
    first = START + timedelta(days=day)
    for second in sorted([*range(0, 86_411, 240), 3, 86_403]):
        for ship in range(7):
            silent = second < 9000 or second > 80_000
            if ship == 3 and silent or ship == 4 and day % 2 or ship == 5 and second != 43_200:
                continue
            if ship == 6 and second % 86_400:
                continue
            moment = first + timedelta(seconds=second + ship)
            if ship == 6 or moment <= first + timedelta(days=1, seconds=10):
                along = (day * 86_400 + second) / 1_000_000
                place = f"{10 + along + ship:.6f},{20 + along / 2:.6f}"
                yield f"{ship},{moment.isoformat()},{place},0,S{day}\n"


def legs(texts):
    """The legs of converted files, with their moments."""
    found = []
    for text in texts:
        head, _, *records = csv.reader(io.StringIO(text))
        start = datetime.fromisoformat(head[5])
        for name, begin, end, places, *values in records:
            times = (start + timedelta(seconds=float(it)) for it in (begin, end))
            found.append((name, *times, places, *values))
    return sorted(found)


class Days(Case):
    def setUp(self):
        super().setUp()
        self.days = [list(reports(day)) for day in range(7)]
        for number, lines in enumerate(self.days):
            if number == 4:
                random.Random(46).shuffle(lines)
            self.write(f"day{number}", US + "".join(lines))
        self.names = [f"day{number}" for number in range(7)]

    def week(self, gap, after, *words):
        """The legs of all days, each converted after the one before."""
        made = []
        for number, name in enumerate(self.names):
            seam = [word.format(number - 1) for word in after] if number or "--state" in after else []
            self.ends("from_ais", *seam, *words, "--gap", gap, name, "-o", f"l{number}")
            made.append(self.read(f"l{number}"))
        return legs(made)

    def at_once(self, gap, *words):
        return legs([self.made("from_ais", "--gap", gap, *words, *self.names)])

    def test_a_week_by_its_states_is_the_week_at_once(self):
        for gap in "10m", "50h":
            wanted = self.at_once(gap, "--columns", "VesselName")
            self.assertGreater(len(wanted), 8000)
            state = ["--after", f"state{gap}", "--state", f"state{gap}"]
            self.assertTrue(self.week(gap, state, "--columns", "VesselName") == wanted, gap)

    def test_a_week_by_its_feeds(self):
        self.assertTrue(self.week("10m", ["--after", "day{}"]) == self.at_once("10m"))

    def test_a_week_by_its_files_of_legs(self):
        """A file of legs knows no last position that is in no leg, nor the days before."""
        wanted, made = self.at_once("26h"), self.week("26h", ["--after", "l{}"])
        lost = set(wanted) - set(made)
        self.assertEqual((len(lost), {leg[0] for leg in lost}), (9, {"4", "5"}))
        self.assertEqual(len(wanted), len(made) + 9)

    def test_what_is_said_of_a_seam(self):
        self.ends("from_ais", "day0", "--state", "s", "-o", "a")
        said = self.ends("from_ais", "--after", "s", "day1", "-o", "b")
        self.assertIn("left out: 7 not later than s", said)
        self.assertNotIn("already loaded?", said)

    def test_a_day_that_was_loaded(self):
        self.ends("from_ais", "day0", "--state", "s", "-o", "a")
        self.write("b", "as it was")
        said = self.ends("from_ais", "--after", "s", "day0", "-o", "b", status=1)
        self.assertEqual(
            said,
            "from_ais: nothing here is later than s; already loaded? '0' is here from "
            "2024-06-03T00:00:00Z to 2024-06-04T00:00:03Z, and ended at 2024-06-04T00:00:03Z; "
            "nothing is written\n",
        )
        self.assertEqual(self.read("b"), "as it was")
        said = self.ends("from_ais", "--after", "s", "day0", "day1", "-o", "b")
        self.assertIn("already loaded? '0' is here from 2024-06-03T00:00:00Z", said)

    def test_states_that_do_not_fit(self):
        self.ends("from_ais", "day0", "--columns", "SOG", "--state", "s", "-o", "a")
        said = self.ends("from_ais", "--after", "s", "day1", status=1)
        self.assertIn("from_ais: s was made with another --columns: 'SOG'", said)
        said = self.ends("from_ais", "--after", "a", "--crs", "x", "day1", status=1)
        self.assertIn("from_ais: a was made with another --crs", said)
        self.write("s", '{"mftb feed state": 1}')
        said = self.ends("from_ais", "--after", "s", "day1", status=1)
        self.assertEqual(said, "from_ais: s is no state that --state left\n")
        self.assertIn("cannot use t", self.ends("from_ais", "--after", "t", "day1", status=1))
        said = self.ends("from_ais", "--after", "t", "--state", "t", "day0", "-o", "a")
        self.assertIn("t is not there yet: nothing came before\n", said)


class Inputs(Case):
    def setUp(self):
        super().setUp()
        self.text = US + LINE.format(1, 0) + LINE.format(1, 1)
        self.legs = self.made("from_ais", self.write("plain", self.text))

    def test_packed_files_and_standard_input(self):
        Path(self.folder, "a.gz").write_bytes(gzip.compress(self.text.encode()))
        with zipfile.ZipFile(self.folder / "a.zip", "w") as archive:
            archive.writestr("folder/a.csv", self.text)
            archive.writestr("__MACOSX/folder/a.csv", "x")
        for name in "a.gz", "a.zip":
            self.assertEqual(self.made("from_ais", name), self.legs)
            packed = Path(self.folder, name).read_bytes()
            piped = subprocess.run([ROOT / "tools" / "from_ais", "-"], input=packed, capture_output=True)
            self.assertEqual(piped.stdout.decode(), self.legs, piped.stderr)
        self.ends("from_ais", "-", "-o", "b", given=self.text)
        self.assertEqual(self.read("b"), self.legs)

    def test_packed_files_that_are_none(self):
        Path(self.folder, "a.gz").write_bytes(gzip.compress(self.text.encode())[:-12])
        with zipfile.ZipFile(self.folder / "a.zip", "w") as archive:
            archive.writestr("a.csv", self.text)
            archive.writestr("b.csv", self.text)
        Path(self.folder, "b.zip").write_bytes(b"PK\x03\x04")
        for name, said in [
            ("a.gz", "a.gz cannot be unpacked: Compressed file ended before"),
            ("a.zip", "a.zip has 2 files; a .zip with one is read"),
            ("b.zip", "b.zip cannot be unpacked: File is not a zip file"),
        ]:
            self.assertIn(f"from_ais: {said}", self.ends("from_ais", name, "-o", "b", status=1))
            self.assertFalse(Path(self.folder, "b").exists())

    def test_empty_files_are_passed_over(self):
        for name, text in ("none", ""), ("blank", "\n\n"), ("head", US):
            self.write(name, text)
            ended = self.ends("from_ais", name, "plain", "-o", "b")
            self.assertIn(f"from_ais: {name} has nothing to convert; it is passed over\n", ended)
            self.assertEqual(self.read("b"), self.legs)

    def test_twenty_bad_lines_are_named(self):
        bad = "".join(f"1,2024-06-03T09:00:02,x{number},2,0,\n" for number in range(30))
        said = self.ends("from_ais", "--skip-bad", self.write("a", self.text + bad), "-o", "b")
        self.assertEqual(said.count("is not a plain decimal"), 20)
        self.assertIn("further lines that cannot be read are only counted\n", said)
        self.assertIn("left out: 30 that cannot be read", said)

    def test_words_that_are_refused(self):
        for words, said in [
            (["--bbox", "1", "0", "0", "1"], "X1 is above X2, or Y1 above Y2"),
            (["--from", "noon"], "'noon' is no instant such as 2024-06-03T09:00:00Z, nor a day"),
            (["--from", "2024-06-04", "--to", "2024-06-03"], "--from is after --to"),
            (["--max-speed", "9"], "'9' is no speed such as 50kn"),
            (["--after", "-"], "--after and --state take files"),
            (["--state", "plain"], "plain is both read and written"),
            (["--state", "b", "-o", "b"], "b is written twice"),
            (["--rename", "a"], "a column has no new name"),
        ]:
            self.assertIn(said, self.ends("from_ais", *words, "plain", status=2))


class Outputs(Case):
    def test_an_output_is_whole_or_as_it_was(self):
        self.write("b", "as it was")
        self.write("a", US + LINE.format(1, 0) + "x\n")
        self.ends("from_ais", "a", "-o", "b", "--state", "s", status=1)
        self.assertEqual(self.read("b"), "as it was")
        self.assertEqual(sorted(it.name for it in self.folder.iterdir()), ["a", "b"])

    def test_stopped_by_a_key(self):
        self.write("b", "as it was")
        tool = subprocess.Popen(
            [ROOT / "tools" / "from_ais", "-", "-o", "b"],
            cwd=self.folder,
            stdin=subprocess.PIPE,
            stderr=subprocess.PIPE,
            # Where the tests run in the background, the key would be ignored.
            preexec_fn=lambda: signal.signal(signal.SIGINT, signal.SIG_DFL),
        )
        tool.stdin.write((US + LINE.format(1, 0) * 20_000).encode())
        tool.stdin.flush()
        time.sleep(1)
        tool.send_signal(signal.SIGINT)
        _, said = tool.communicate()
        self.assertEqual(said.decode(), "from_ais: stopped; no file is written\n")
        self.assertEqual(tool.returncode, 130)
        self.assertEqual([it.name for it in self.folder.iterdir()], ["b"])
        self.assertEqual(self.read("b"), "as it was")

    def test_who_reads_the_output_wants_no_more(self):
        lines = (LINE.format(ship, second) for second in range(2) for ship in range(20_000))
        self.write("a", US + "".join(lines))
        command = f"set -o pipefail; {ROOT}/tools/from_ais a | head -n 1"
        ended = subprocess.run(["bash", "-c", command], cwd=self.folder, capture_output=True, text=True)
        self.assertEqual((ended.returncode, ended.stderr), (1, ""))
