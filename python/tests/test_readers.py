"""The readers of feeds over texts and samples whose outcome was written apart from them.

That the samples' files load, with the counts wanted, is tested by examples/run, which runs a
script over each of them on the program; here each is compared, byte by byte, with what the tools
make.
"""
import random
import shlex
import subprocess
import sys
from pathlib import Path

from common import FEEDS, ROOT, US, Case, cases, measure, run

MILLION, SECONDS, MEGABYTES = 1_000_000, 60, 200
FULL = (
    "MMSI,BaseDateTime,LAT,LON,SOG,COG,Heading,VesselName,IMO,CallSign,VesselType,Status,"
    "Length,Width,Draft,Cargo,TransceiverClass\n"
)


class Readers(Case):
    def test_cases(self):
        for path in sorted((ROOT / "python" / "tests" / "cases").glob("*.txt")):
            for name, command, texts in cases(path):
                with self.subTest(f"{path.name}: {name}"):
                    self.follow(command, texts)

    def follow(self, command, texts):
        output, error = texts.pop("output", ""), texts.pop("error")
        for name, text in texts.items():
            self.write(name, text)
        ended = run(*shlex.split(command), folder=self.folder)
        self.assertEqual((ended.stdout, ended.stderr), (output, error))
        self.assertEqual(ended.returncode, 0 if output else 1)

    def test_a_mark_and_other_line_ends(self):
        text = "\ufeff" + US + "\n1,2024-06-03T09:00:00,1,2,0,\n\n1,2024-06-03T09:00:01,1,2,0,\n"
        made = self.made("from_ais", self.write("a", text.replace("\n", "\r\n")))
        self.assertEqual(made.splitlines()[2:], ["1,0,1,2 1 2 1"])

    def test_several_jobs_make_the_same_of_the_same_lines(self):
        chance, lines = random.Random(4), []
        for n in range(35_000):
            second, name = n // 10, chance.choice(["SHIP", '"A, B"', "", '"A\nB"' if n % 900 == 0 else "X"])
            place = chance.choice(["91,181", "north,1"]) if n % 500 == 0 else f"{n % 50 / 7000:.5f},{n % 90 / 7000:.5f}"
            clock = f"2024-06-03T{second // 3600:02}:{second // 60 % 60:02}:{second % 60:02}"
            lines.append(f"{n % 10},{clock},{place},0,{name}\n")
        # From the middle on a day is told again, so that features go back in time.
        self.write("a", US + "".join(lines[:20_000] + lines[:9000] + lines[20_000:]))
        self.write("b", US + "".join(lines))
        words = ["--columns", "VesselName", "--skip-bad", "--max-speed", "off"]
        said = self.ends("from_ais", *words, "a", "-o", "one", "--state", "ends")
        self.assertEqual(self.ends("from_ais", *words, "--jobs", "3", "a", "-o", "three"), said)
        self.assertEqual(self.read("three"), self.read("one"))
        self.assertIn("goes back in time", said)
        later = [*words, "--after", "ends", "--from", "2024-06-03T00:10:00Z", "b"]
        said = self.ends("from_ais", *later, status=1)
        self.assertIn("already loaded?", said)
        self.assertEqual(self.ends("from_ais", *later, "--jobs", "2", status=1), said)

    def test_what_stops_several_jobs_is_said_with_its_line(self):
        self.write("a", US + "1,2024-06-03T09:00:00,1,2,0,A\n" * 12_000 + "1,today,1,2,0,A\n")
        said = self.ends("from_ais", "--jobs", "2", "a", status=1)
        self.assertIn("a line 12002: BaseDateTime 'today' is no instant", said)
        self.assertIn("from 1 to 256", self.ends("from_ais", "--jobs", "0", "a", status=2))

    def test_line_ends_within_a_value(self):
        text = US + '1,2024-06-03T09:00:00,1,2,0,"A\rB"\n1,2024-06-03T09:00:01,1,2,0,"A\nB"\n'
        made = self.made_bytes("from_ais", "--columns", "VesselName", self.write("a", text))
        self.assertTrue(made.endswith(b'1,0,1,2 1 2 1,"A\rB"\n'))

    def test_bytes_that_are_no_text(self):
        Path(self.folder, "a").write_bytes(US.encode() + b"1,2024-06-03T09:00:00,1,2,0,\xff\n")
        ended = run("from_ais", "--columns", "VesselName", "a", folder=self.folder)
        self.assertIn("from_ais: a line 2: VesselName is not UTF-8", ended.stderr)
        self.assertEqual(self.made("from_ais", "a").splitlines()[1:], ["@columns,mfidref,trajectory"])

    def test_another_encoding(self):
        line = "1,2024-06-03T09:00:0{},1,2,0,Mårten\n"
        Path(self.folder, "a").write_bytes((US + line.format(0) + line.format(1)).encode("latin-1"))
        said = self.ends("from_ais", "--columns", "VesselName", "a", status=1)
        self.assertIn("VesselName is not UTF-8 (see --encoding)", said)
        made = self.made("from_ais", "--encoding", "latin-1", "--columns", "VesselName", "a")
        self.assertEqual(made.splitlines()[2:], ["1,0,1,2 1 2 1,Mårten"])
        said = self.ends("from_ais", "--encoding", "utf-16", "a", status=1)
        self.assertIn("a is in another encoding (see --encoding)", said)

    def test_a_table_with_all_that_takes_more_than_a_line(self):
        """Lines are counted as they stand, over values with line ends, blank lines and wrong rows."""
        rows = ['1,2024-06-03T09:00:00,1,2,0,"A\r\nB"', "", "x,y", '1,2024-06-03T09:00:01,1,2,0,"A\n\nB"', "1,z,1,2,0,"]
        said = self.ends("from_ais", "--skip-bad", self.write("a", US + "\n".join(rows * 1500) + "\n"), status=0)
        self.assertIn("from_ais: a line 5: 2 fields, where the header line has 6\n", said)
        self.assertIn("from_ais: a line 9: BaseDateTime 'z' is no instant", said)
        self.assertIn("from_ais: a line 13: 2 fields", said)
        self.assertIn("1 leg from 6000 lines", said)

    def test_statuses(self):
        good = self.write("a", US + "1,2024-06-03T09:00:00,1,2,0,\n")
        for words, status, said in [
            (["none"], 1, "from_ais: cannot use none: No such file or directory"),
            (["--columns", "Draft", good], 1, "from_ais: a line 1: there is no column 'Draft'"),
            (
                [good, "-o", "no/where"],
                1,
                "from_ais: cannot use no/where: No such file or directory",
            ),
            ([good, "-o", good], 2, "from_ais: a is both read and written"),
            (
                [self.write("b", US)],
                1,
                "from_ais: there is no position in these files; nothing is written",
            ),
            ([good, "--gap", "0"], 2, "'0' is no time such as 90, 90s, 10m, 6h or 1d"),
            ([], 2, "usage: from_ais"),
        ]:
            with self.subTest(said):
                ended = run("from_ais", *words, folder=self.folder)
                self.assertIn(said, ended.stderr)
                self.assertEqual((ended.returncode, ended.stdout), (status, ""))

    def test_help_has_an_example(self):
        for tool in "from_ais", "from_csv", "from_movebank", "from_gpx", "draw":
            self.assertIn(f"example:\n  tools/{tool} ", self.made(tool, "--help"))


class Samples(Case):
    WORDS = {
        "ais-us": (
            "us-ships.csv",
            "from_ais",
            "--columns",
            "VesselName,Status=xsd:integer",
            "us-positions.csv",
        ),
        "ais-dk": ("dk-ships.csv", "from_ais", "dk-positions.csv"),
        "taxis": (
            "cabs.csv",
            "from_csv",
            *"--id taxi --x lon --y lat --tz Europe/Berlin --gap 5m --columns state".split(),
            "--time",
            "local time",
            "trips.csv",
        ),
        "movebank": (
            "animals.csv",
            "from_movebank",
            "--columns",
            "individual-taxon-canonical-name",
            "tracking.csv",
        ),
        "gpx": ("rides.csv", "from_gpx", "--columns", "type", "morning.gpx", "evening.gpx"),
    }

    def test_outputs(self):
        for name, (wanted, tool, *words) in self.WORDS.items():
            with self.subTest(name):
                ended = run(tool, "--skip-bad", *words, folder=FEEDS / name)
                self.assertEqual(ended.stdout, (FEEDS / name / wanted).read_text())

    def test_any_order_gives_the_same_legs(self):
        header, *lines = (FEEDS / "ais-us" / "us-positions.csv").read_text().splitlines(keepends=True)
        # Without the line that cannot be read, and the instant whose position the order decides.
        lines = [line for line in lines if line.count(",") > 10 and not line.startswith("200000001,2024-06-03T09:02")]
        straight = self.made("from_ais", self.write("a", header + "".join(lines)))
        random.Random(24).shuffle(lines)
        ended = run("from_ais", self.write("b", header + "".join(lines)), folder=self.folder)
        self.assertEqual(sorted(ended.stdout.splitlines()), sorted(straight.splitlines()))
        self.assertIn("goes back in time; sorting by time, in a temporary file on disk", ended.stderr)

    def test_files_are_what_generate_prints(self):
        for path in FEEDS.glob("*/*.[cg][sp][vx]"):
            made = subprocess.run([FEEDS / "generate", path.name], capture_output=True, text=True, check=True)
            self.assertEqual(made.stdout, path.read_text(), path.name)

    def test_a_million_lines(self):
        with open(self.folder / "a", "w") as file:
            write_million(file)
        # Of the two times, that of the processor does not depend on what else the machine does.
        status, clock, processor, most = measure(
            "from_ais", "--columns", "VesselName", "a", "-o", "b", folder=self.folder
        )
        print(
            f"a million lines: {clock:.1f} s ({processor:.1f} s of a processor), {most:.0f} MB",
            file=sys.stderr,
        )
        self.assertEqual(status, 0)
        with open(self.folder / "b") as made:
            self.assertEqual(sum(1 for _ in made), 2 + MILLION - 5000)
        self.assertLess(processor, SECONDS)
        self.assertLess(most, MEGABYTES)


def write_million(file):
    """A million reports of 5000 ships, a round of all of them each minute."""
    file.write(FULL)
    for number in range(MILLION):
        step, ship = divmod(number, 5000)
        minute, second = divmod(step * 60 + ship % 60, 60)
        place = f"{30 + ship / 1000 + step / 800:.5f},{-70 - ship / 2000 + step / 500:.5f}"
        clock = f"{minute // 60:02}:{minute % 60:02}:{second:02}"
        about = f"12.3,231.4,230.0,SHIP {ship},IMO1234567,WDA1234,70,0,120,20,6.5,70,A"
        file.write(f"{200000000 + ship},2024-06-03T{clock},{place},{about}\n")
