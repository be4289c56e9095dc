"""A fleet of four parts: its answers beside one store's, what it refuses, and what it leaves where it is broken off.

The program is the one that MFTB_PROGRAM of the environment names, else the repository's where it is built, else a stand-in.
"""
import csv
import importlib.util
import io
import json
import os
import signal
import subprocess
import sys
import time
import unittest
from contextlib import contextmanager, redirect_stderr
from decimal import Decimal
from pathlib import Path
from unittest import mock

from common import ROOT, Case, run

import mftb_fleetpart as fleetpart
import random_scripts
from mftb.fleet import command, crew, manifest, merging
from mftb.texts import Refused

HERE = Path(__file__).resolve().parent
HEAD = "@stboundedby,local,2D,0 0,9 9,2024-01-01T00:00:00Z,2024-01-01T00:01:00Z,{}\n@columns,mfidref,trajectory\n"
# One leg of each of d, a, ac and c, which are of the parts 0 to 3.
FIRST = HEAD.format("sec") + "d,0,10,0 0 1 1\na,0,10,1 0 2 0\nac,5,15,2 0 3 0\nc,-1.5,20,3 0 -4 0.25\n"
CLUSTER = """
import sys, distributed
if __name__ == "__main__":
    with distributed.LocalCluster(n_workers=2, threads_per_worker=1, dashboard_address=":0", silence_logs=50) as cluster:
        print(cluster.scheduler_address, flush=True)
        sys.stdin.read()
"""
# A program that is found at work on part 1, once.
WAITS = """#!/bin/sh
if [ "$1 $2" = "run --in-place" ] && [ ! -e {mark} ] && [ "${{3#*part-1-}}" != "$3" ]; then
    echo $PPID $$ > {mark}.new && mv {mark}.new {mark}
    sleep 60
    exit 1
fi
exec {program} "$@"
"""


def python():
    """A Python that has `distributed`, if there is one."""
    if importlib.util.find_spec("distributed"):
        return sys.executable
    return crew.DEBIAN if os.path.isdir(crew.PACKAGE) else None


def program():
    """The program, or what stands in for it."""
    for path in [os.environ.get("MFTB_PROGRAM"), ROOT / "crates" / "mftb" / "out" / "mftb"]:
        if (
            path
            and os.path.exists(path)
            and not subprocess.run([path, "parts", "--help"], capture_output=True).returncode
        ):
            return str(path)
    return str(HERE / "standin")


PYTHON, PROGRAM = python(), program()
if not PYTHON:
    print(f"test_fleet: fleets on a cluster are not tested: {crew.MISSING}", file=sys.stderr)


def answers(text):
    """The answers of a text: the first line of each, and its records."""
    rows, found = csv.reader(io.StringIO(text)), []
    for head in rows:
        count = int(head[0][3:]) if head[0].startswith("ok") else 0
        found.append((head[0], [next(rows) for _ in range(count)]))
    return found


def in_order(line, rows):
    """The records of one store's answer in the order of a fleet's."""
    if line.startswith("count"):
        return rows
    if line.startswith("features"):
        return sorted(rows)
    ahead = 2 * line.startswith("write")
    legs = sorted(rows[ahead:], key=lambda row: (Decimal(row[1]), row[0].encode(), Decimal(row[2])))
    return rows[:ahead] + legs


class Small(Case):
    """What needs neither a program nor a cluster."""

    def test_the_part_of_a_name_is_the_function_of_the_manual(self):
        prime = 4294967291
        for name in [b"", b"a", b"235098765", "Zoë".encode(), b"\xff" * 255]:
            number = sum(b * pow(257, i, prime) for i, b in enumerate(reversed(name)))
            self.assertEqual(fleetpart.part_of(name, 7), pow(number, 3, prime) % 7)
        self.assertEqual([fleetpart.part_of(name, 4) for name in (b"d", b"a", b"ac", b"c")], [0, 1, 2, 3])

    def test_lines_are_legs_by_start_and_name(self):
        names = [
            b"",
            b"\0",
            b"\n",
            b"\n\n",
            b"\x0b",
            b" ",
            b"a",
            b"a\0",
            b"a\1",
            b"a\x0a",
            b'a"b,c',
            b"ab",
            b"\xc3\xab",
        ]
        records = []
        for start in (b"-10.25", b"-9", b"0", b"0.001", b"9", b"10", b"315537811199.999"):
            for name in sorted(names):
                quoted = b'"%b"' % name.replace(b'"', b'""') if name else b""
                records.append(b'%b,%b,400000000000,0 0 1 1,"x\ny"' % (quoted, start))
        lines = [fleetpart.leg_line(text) for text in records]
        self.assertEqual(lines, sorted(lines))
        self.assertEqual([fleetpart.text_of(line) for line in lines], records)
        self.assertTrue(all(line.count(b"\n") == 1 for line in lines))

    def test_many_lines_are_sorted_on_disk(self):
        lines = [b"%04d\1x\n" % (number * 37 % 1000) for number in range(1000)]
        with mock.patch.object(fleetpart, "BATCH", 10), open(self.folder / "out", "w+b") as out:
            out.write(b"before\n")
            fleetpart.sort_into(out, iter(lines), str(self.folder))
            fleetpart.sort_into(out, iter([b"b\n", b"a\n"]), str(self.folder))
        self.assertEqual((self.folder / "out").read_bytes(), b"".join([b"before\n", *sorted(lines), b"a\n", b"b\n"]))

    def test_the_head_of_a_written_file_is_that_of_all_parts_with_legs(self):
        line = b'@stboundedby,"urn,x",2D,%b,%b,2024-01-01T00:00:00.000Z,%b,sec'
        ends = [b"2024-01-01T00:00:05.000Z", b"2024-01-01T00:00:00.000Z", b"2024-01-01T00:00:07.500Z"]
        corners = [(b"-9.5 2", b"10 30"), (b"0 0", b"0 0"), (b"-10 20", b"9.75 40")]
        parts = [
            fleetpart.Said("", [line % (*both, end), b"@columns"], count, 0)
            for both, end, count in zip(corners, ends, (3, 0, 1))
        ]
        self.assertEqual(merging.head_of(parts), [line % (b"-10 2", b"10 40", ends[2]), b"@columns"])
        self.assertEqual(merging.head_of(parts[1:2]), parts[1].first)

    def test_a_slow_part_and_a_lost_worker_are_said_once(self):
        workers = mock.Mock(names=mock.Mock(side_effect=[{"a", "b"}, {"a"}, {"a", "c"}]))
        progress = crew.Progress(workers, "load", 4)
        progress.begun -= 40
        progress.took = [9, 11, 12]
        with redirect_stderr(io.StringIO()) as said:
            for _ in range(3):
                progress.look({3})
        lost = "fleet: 1 worker lost; what was at work there runs again elsewhere\n"
        self.assertEqual(
            said.getvalue(), f"fleet: part 3 is slow: 40 s so far; half of the parts took under 11 s\n{lost}"
        )

    def test_a_manifest_that_is_cut_short_or_altered_is_named(self):
        held = [manifest.Held(f"part-{number}-new.mftb", 0, 0) for number in range(2)]
        manifest.write(self.folder, manifest.Manifest(held, ["a"]))
        path = self.folder / "fleet.json"
        whole = path.read_text()
        self.assertEqual(manifest.read(self.folder), manifest.Manifest(held, ["a"]))
        others = [whole.replace(*pair) for pair in [("part-0", "../0"), (": 0", ": -1"), ('"fleet": 2', '"fleet": 3')]]
        for text in [*(whole[:length] for length in range(len(whole) - 2)), *others, "[]", '{"fleet": 2, "parts": []}']:
            path.write_text(text)
            with self.assertRaisesRegex(Refused, "fleet.json is no manifest"):
                manifest.read(self.folder)
        self.assertIn("cut short", run("fleet", "status", self.folder, folder=self.folder).stderr)

    def test_a_fleet_of_another_function_of_names_is_refused(self):
        held = [manifest.Held("part-0-new.mftb", 0, 0)]
        manifest.write(self.folder, manifest.Manifest(held, []))
        path = self.folder / "fleet.json"
        said = json.loads(path.read_text())
        for older in {**said, "fleet": 1}, {**said, "names": "numbers"}:
            path.write_text(json.dumps(older))
            with self.assertRaisesRegex(Refused, "deals names out by numbers.*make a new fleet"):
                manifest.read(self.folder)

    def test_a_refusal_is_of_the_text_first_and_then_of_the_least_record(self):
        refusals = [f"refused {what}" for what in ("F13 at 9", "F8 at 0", "F18 at 3", "F10 at 7")]
        self.assertEqual(sorted(reversed(refusals), key=command.place_of), [refusals[i] for i in (0, 1, 2, 3)])


class Fleet(Case):
    def setUp(self):
        super().setUp()
        self.where = ["--workers", "2"]
        self.write("first.csv", FIRST)

    def fleet(self, command, *words, status=0, used=PROGRAM):
        """What a command prints, and what it says, where it ends with a status."""
        given = [] if command == "status" else ["--program", used]
        given += self.where if command in ("load", "ask", "check") else []
        ended = run("fleet", command, "ships", *given, *words, folder=self.folder)
        self.assertEqual(ended.returncode, status, ended.stdout + ended.stderr)
        return ended.stdout if status == 0 else (ended.stdout, ended.stderr)

    def made(self):
        """A fleet of four parts with the first file."""
        self.fleet("new", "--parts", "4")
        self.assertEqual(self.fleet("load", "first.csv"), "ok 1\n4,4,4\n")

    def one_store(self, lines):
        """What one store answers."""
        self.write("lines", "".join(line + "\n" for line in lines))
        files = sorted({line[5:] for line in lines if line.startswith("load ")})
        ended = subprocess.run(
            [PROGRAM, "run", "one", "lines", *files], cwd=self.folder, capture_output=True, text=True, check=True
        )
        return ended.stdout

    def agrees(self, lines):
        """A fleet answers as one store does, as a set and, in the fleet's order, as a text."""
        loads = [line for line in lines if line.startswith("load ")]
        asked = [line for line in lines if line not in loads and line and not line.startswith("#")]
        self.fleet("new", "--parts", "4")
        for line, (head, rows) in zip(loads, answers(self.one_store(loads))):
            if head == "ok 1":
                self.assertEqual(answers(self.fleet("load", line[5:])), [(head, rows)])
            else:
                self.assertEqual(self.fleet("load", line[5:], status=1)[0], head + "\n")
        wanted = answers(self.one_store(asked))
        self.write("script", "".join(line + "\r\n" for line in asked))
        given = answers(self.fleet("ask", "script"))
        for line, one, many in zip(asked, wanted, given, strict=True):
            self.assertEqual(many, (one[0], in_order(line, one[1])), line)

    def left(self):
        """What is in the folder that the manifest does not name."""
        return manifest.left_over(self.folder / "ships", manifest.read(self.folder / "ships"))

    def untouched(self, command, *words):
        """What is printed and said where a command is refused and changes nothing."""
        before = self.read("ships/fleet.json")
        ended = self.fleet(command, *words, status=1)
        self.assertEqual((self.read("ships/fleet.json"), self.left()), (before, []))
        return ended

    def waits(self):
        """A program that waits in part 1, once, and the file that it makes then."""
        mark = self.folder / "mark"
        path = self.folder / "waits"
        path.write_text(WAITS.format(mark=mark, program=PROGRAM))
        path.chmod(0o755)
        return str(path), mark

    def wait_for(self, mark):
        """The process that started the program, and the program."""
        until = time.monotonic() + 60
        while not mark.exists():
            self.assertLess(time.monotonic(), until)
            time.sleep(0.05)
        return map(int, mark.read_text().split())

    def test_examples(self):
        for name in "standard", "harbour", "drones":
            with self.subTest(name):
                self.folder = self.folder / name
                self.folder.mkdir()
                for path in (ROOT / "examples" / name).glob("*.csv"):
                    (self.folder / path.name).write_bytes(path.read_bytes())
                self.agrees((ROOT / "examples" / name / "script.txt").read_text().splitlines() + ["write"])

    def test_random_scripts(self):
        maker = random_scripts.Maker
        for number in 3, 8, 12:
            with self.subTest(number):
                self.folder = self.folder / str(number)
                self.folder.mkdir()
                self.agrees(maker(number, self.folder).script() + ["write", "count"])

    def test_what_is_written_is_loaded_by_one_store(self):
        self.made()
        self.write("script", "# all\nwrite\n\nCOUNT\n")
        written = (
            HEAD.format("sec").replace("0 0,9 9", "-4 0,3 1").replace(":00Z", ":00.000Z").replace("01:00.0", "00:20.0")
        )
        text = self.fleet("ask", "script")
        legs = "c,-1.5,20,3 0 -4 0.25\na,0,10,1 0 2 0\nd,0,10,0 0 1 1\nac,5,15,2 0 3 0\n"
        self.assertEqual(text, f"ok 6\n{written}{legs}refused Q2\n")
        self.write("all.csv", text.partition("\n")[2].removesuffix("refused Q2\n"))
        self.assertEqual(self.one_store(["load all.csv"]), "ok 1\n4,4,4\n")

    def test_a_part_is_a_plain_store(self):
        self.made()
        self.write("lines", "trajectory a\n")
        store = manifest.read(self.folder / "ships").parts[1].store
        ended = subprocess.run([PROGRAM, "run", f"ships/{store}", "lines"], cwd=self.folder, capture_output=True)
        self.assertEqual(ended.stdout, b"ok 1\na,0,10,1 0 2 0\n")
        self.assertRegex(self.fleet("check"), r"\Aok 1\n[0-9]+,4,4\n\Z")
        self.assertIn("4 parts, 1 file, 4 legs, 4 features\n", self.fleet("status"))

    def test_two_files_are_loaded_at_once(self):
        self.made()
        self.write("two.csv", HEAD.format("sec") + "d,10,11,0 0\n")
        self.write("three.csv", HEAD.format("sec") + "d,11,12,0 0\nac,20,21,0 0\n")
        self.assertEqual(self.fleet("load", "two.csv", "three.csv"), "ok 1\n1,1,1\nok 1\n2,2,2\n")
        self.assertEqual(self.left(), [])
        self.assertRegex(self.fleet("check"), r",7,4\n\Z")

    def test_a_file_is_refused_by_one_part_and_by_several(self):
        self.made()
        self.write("one.csv", HEAD.format("sec") + "d,10,11,0 0\na,9,10,0 0\nac,20,21,0 0\n")
        said = self.untouched("load", "one.csv")
        self.assertEqual(said, ("refused F18 at 4\n", "fleet: one.csv is refused by part 1; nothing was loaded\n"))
        self.write("two.csv", HEAD.format("sec") + "d,10,11,0 0\nc,9,10,0 0\nac,20,21,0 0\na,9,10,0 0\n")
        said = self.untouched("load", "two.csv")
        self.assertEqual(
            said, ("refused F18 at 4\n", "fleet: two.csv is refused by 2 of 4 parts; nothing was loaded\n")
        )
        self.write("good.csv", HEAD.format("sec") + "ac,30,31,0 0\n")
        said = self.untouched("load", "good.csv", "two.csv")
        self.assertEqual(said[0], "refused F18 at 4\n")
        self.assertEqual(self.fleet("load", "good.csv"), "ok 1\n1,1,1\n")

    def test_a_file_is_refused_by_its_text(self):
        self.made()
        times = "2024-01-02T00:00:00{0},2024-01-02T00:00:01{0}"
        legs = "d,{},0 0\na,{},0 0\n".format(times.format("Z"), times.format(""))
        self.write("text.csv", HEAD.format("absolute") + legs)
        said = self.untouched("load", "text.csv")
        self.assertEqual(said, ("refused F13 at 4\n", "fleet: text.csv is refused by part 1; nothing was loaded\n"))

    def test_what_is_no_question_or_no_file_is_said(self):
        self.made()
        self.write("script", "count\n \tload first.csv\n")
        self.assertEqual(
            self.untouched("ask", "script"), ("", "fleet: script, line 2: load is no question; use fleet load\n")
        )
        self.assertEqual(self.untouched("load", "none.csv")[1], "fleet: there is no file none.csv\n")
        self.assertEqual(self.fleet("new", "--parts", "4", status=1)[1], "fleet: ships is not empty\n")
        self.fleet("new", "--parts", "0", status=2)
        with manifest.loading(self.folder / "ships"):
            self.assertEqual(self.untouched("load", "first.csv")[1], "fleet: another load works on ships\n")

    @contextmanager
    def cluster(self):
        """A cluster of two workers of this machine."""
        with subprocess.Popen(
            [PYTHON, "-c", CLUSTER], stdin=subprocess.PIPE, stdout=subprocess.PIPE, text=True
        ) as cluster:
            self.where = ["--scheduler", cluster.stdout.readline().strip()]
            yield
            cluster.stdin.close()

    @unittest.skipUnless(PYTHON, crew.MISSING)
    def test_two_workers_of_a_cluster_answer_as_one_store_does(self):
        with self.cluster():
            for path in (ROOT / "examples" / "junction").glob("*.csv"):
                (self.folder / path.name).write_bytes(path.read_bytes())
            self.agrees((ROOT / "examples" / "junction" / "script.txt").read_text().splitlines() + ["write"])
            self.assertRegex(self.fleet("check"), r"\Aok 1\n")
            store = Path("ships", manifest.read(self.folder / "ships").parts[3].store)
            self.write(store, "")
            self.assertIn("fleet: part 3: the store is not there\n", self.fleet("check", status=1)[1])

    @unittest.skipUnless(PYTHON, crew.MISSING)
    def test_a_worker_is_killed_in_the_middle_of_a_load(self):
        self.fleet("new", "--parts", "4")
        used, mark = self.waits()
        with self.cluster():
            words = [ROOT / "tools" / "fleet", "load", "ships", "first.csv", "--program", used, *self.where]
            load = subprocess.Popen(words, cwd=self.folder, stdout=subprocess.PIPE, stderr=subprocess.PIPE, text=True)
            for process in self.wait_for(mark):
                os.kill(process, signal.SIGKILL)
            printed, said = load.communicate(timeout=120)
            self.assertEqual((printed, load.returncode), ("ok 1\n4,4,4\n", 0), said)
            self.assertEqual(self.left(), [])
            self.assertRegex(self.fleet("check"), r",4,4\n\Z")

    def test_a_load_that_is_killed_leaves_the_fleet_as_it_was(self):
        self.made()
        self.write("more.csv", HEAD.format("sec") + "a,10,11,0 0\n")
        before, (used, mark) = self.read("ships/fleet.json"), self.waits()
        words = [ROOT / "tools" / "fleet", "load", "ships", "more.csv", "--program", used]
        with subprocess.Popen(words, cwd=self.folder, stderr=subprocess.DEVNULL) as load:
            _, waiting = self.wait_for(mark)
            load.kill()
            os.kill(waiting, signal.SIGKILL)
        self.assertEqual(self.read("ships/fleet.json"), before)
        self.assertNotEqual(self.left(), [])
        self.assertIn("left over", self.fleet("status"))
        self.assertEqual(self.fleet("load", "more.csv"), "ok 1\n1,1,1\n")
        self.assertEqual(self.left(), [])

    def test_a_store_that_is_altered_is_named(self):
        self.made()
        self.write("script", "count\n")
        folder = self.folder / "ships"
        store = folder / manifest.read(folder).parts[2].store
        whole = store.read_bytes()
        store.write_bytes(whole[:100] + bytes([whole[100] ^ 1]) + whole[101:])
        for words in ["check"], ["ask", "script"]:
            self.assertRegex(
                self.fleet(*words, status=1)[1], r"\Afleet: part 2: mftb: page 0 damaged\n.*1 part of 4 failed"
            )
        store.unlink()
        self.assertIn("fleet: part 2: the store is not there\n", self.fleet("ask", "script", status=1)[1])
        self.assertFalse(store.exists())
        self.assertIn("no store of part 2", self.fleet("status", status=1)[1])
        store.write_bytes((folder / manifest.read(folder).parts[3].store).read_bytes())
        said = json.loads((folder / "fleet.json").read_text())
        said["parts"][2]["legs"] = 7
        (folder / "fleet.json").write_text(json.dumps(said))
        wanted = "fleet: part 2 holds 1 legs of 1; the manifest says 7 legs of 1 feature\n"
        self.assertIn(wanted, self.fleet("check", status=1)[1])


if __name__ == "__main__":
    unittest.main()
