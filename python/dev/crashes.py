"""Ends runs of the program in every way, and looks that no store is lost: tools/crashes
[--unproved | --program FILE] [--kills N] [--legs N] [TESTS]...

A load is killed at random moments, two writers and ten readers work on one store at once, a disk is full, the output is
closed at each byte, and rights are taken away. After each the store is to be byte for byte what it was, or whole and
new, and each run is to have answered, or to have been refused for its own reason. The program is built first where it
is not built yet; with --unproved it is compiled from the sources as they stand, without their proofs. What needs rights
that the caller has not, as a small disk of its own, says so in a line and passes. With --legs N the same is tried over a
store of so many legs, which is for a program that was proved: `tools/crashes --legs 1000000 Large`.
"""
import argparse
import collections
import contextlib
import os
import pathlib
import random
import shutil
import signal
import subprocess
import sys
import tempfile
import threading
import time
import unittest

from compiling import proved, sanitized

ROOT = pathlib.Path(__file__).resolve().parents[2]
HEAD = "@stboundedby,metres,2D,,,2024-01-01T00:00:00Z,,sec\n@columns,mfidref,trajectory\n"
IN_USE = b"mftb: store in use\n"
NOBODY = 65534
asked = argparse.Namespace()


def feed(name, features, legs):
    """A file of so many legs of so many features, which take turns."""
    records = (
        f"{name}{leg % features},{leg // features},{leg // features + 1},{leg % 97} 0 {leg % 89} 1"
        for leg in range(legs)
    )
    return HEAD + "\n".join(records) + "\n"


def call(*words, folder, **how):
    """A run of the program: its status, its output and its faults."""
    done = subprocess.run([asked.program, *words], cwd=folder, capture_output=True, **how)
    return done.returncode, done.stdout, done.stderr


class Case(unittest.TestCase):
    def setUp(self):
        self.folder = pathlib.Path(tempfile.mkdtemp(prefix="mftb-crashes-"))
        self.addCleanup(shutil.rmtree, self.folder, ignore_errors=True)
        self.write("first.csv", feed("a", 7, 200))
        self.write("second.csv", feed("b", 50, 300))
        self.write("third.csv", feed("c", 5, 100))
        self.write("first.txt", "load first.csv\n")
        self.write("second.txt", "load second.csv\ncount\n")
        self.write("third.txt", "load third.csv\n")
        self.write("both.txt", "load first.csv\nload second.csv\n")
        self.write("count.txt", "count\n")
        self.write("wrong.csv", HEAD + "a,0,0,0 0 1 1\n")
        self.write("wrong.txt", "load wrong.csv\n")

    def write(self, name, text):
        (self.folder / name).write_text(text)

    def run_(self, script, *files, store="store", words=(), **how):
        return call("run", *words, store, script, *files, folder=self.folder, **how)

    def check(self, store="store"):
        return call("check", store, folder=self.folder)

    def count(self, store="store"):
        # Of a store that it makes it says so, but for this.
        status, out, faults = self.run_("count.txt", store=store, words=["-q"])
        self.assertEqual((status, faults), (0, b""))
        return out

    def made(self, store="store"):
        """A store of the first file, and its bytes."""
        self.assertEqual(self.run_("first.txt", "first.csv", store=store), (0, b"ok 1\n200,200,7\n", b""))
        return (self.folder / store).read_bytes()

    def beside(self, store="store"):
        """What lies beside a store."""
        return sorted(path.name for path in self.folder.glob(store + ".*"))

    def assert_swept(self):
        """No copy lies beside the store; a run that was killed may leave its empty lock, which the next load takes away."""
        left = self.beside()
        self.assertIn(left, ([], ["store.mftb-lock"]))
        self.assertEqual([(self.folder / name).stat().st_size for name in left], [0] * len(left))

    def assert_kept(self, was, store="store"):
        """The store is byte for byte what it was, passes its check, and is the only file left."""
        self.assertEqual((self.folder / store).read_bytes(), was)
        self.assertEqual(self.check(store)[0], 0)
        self.assertEqual(self.beside(store), [])


class Kills(Case):
    """A load that is killed, or told to stop, at a random moment."""

    def kill(self, how, after, *words):
        """Kills a load after a time; whether it was still there."""
        run = subprocess.Popen(
            [asked.program, "run", *words, "store", "second.txt", "second.csv"],
            cwd=self.folder,
            stdout=subprocess.DEVNULL,
            stderr=subprocess.DEVNULL,
        )
        with contextlib.suppress(subprocess.TimeoutExpired):
            run.wait(after)
        run.send_signal(how)
        return run.wait() < 0

    def lasting(self):
        """How many seconds the load takes."""
        shutil.copy(self.folder / "store", self.folder / "timed")
        begin = time.monotonic()
        self.assertEqual(self.run_("second.txt", "second.csv", store="timed")[0], 0)
        return time.monotonic() - begin

    def test_a_killed_load_leaves_the_old_store_or_the_new(self):
        was, moments = self.made(), random.Random(42)
        seconds, killed = self.lasting(), 0
        new = (self.folder / "timed").read_bytes()
        for turn in range(asked.kills):
            (self.folder / "store").write_bytes(was)
            how = (signal.SIGKILL, signal.SIGTERM, signal.SIGINT)[turn % 3]
            killed += self.kill(how, moments.uniform(0, seconds * 1.1))
            left = (self.folder / "store").read_bytes()
            with self.subTest(turn=turn):
                self.assertIn(left, (was, new))
                self.assertEqual(self.count(), b"ok 1\n200,7\n" if left == was else b"ok 1\n500,57\n")
                self.assertEqual(self.check()[0], 0)
                self.assert_swept()
        self.assertGreater(killed, 0)
        self.assertEqual(self.run_("third.txt", "third.csv")[0], 0)
        self.assertEqual(self.beside(), [])

    def test_a_killed_first_load_leaves_no_store(self):
        moments = random.Random(7)
        for turn in range(10):
            with self.subTest(turn=turn):
                self.kill(signal.SIGKILL, moments.uniform(0, 0.05))
                if (self.folder / "store").exists():
                    self.assertEqual(self.count(), b"ok 1\n300,50\n")
                    (self.folder / "store").unlink()
                self.assertEqual(self.count(), b"ok 1\n0,0\n")
                self.assert_swept()
                (self.folder / "store").unlink()

    def test_what_is_left_is_taken_away(self):
        was = self.made()
        for words in (["run", "store", "count.txt"], ["check", "store"], ["run", "store", "wrong.txt", "wrong.csv"]):
            (self.folder / "store.mftb-copy").write_bytes(was[:5000])
            (self.folder / "store.mftb-lock").write_bytes(b"")
            with self.subTest(words=words):
                self.assertEqual(call(*words, folder=self.folder)[0], 0)
                self.assert_kept(was)


class Failures(Case):
    """A run that fails by itself."""

    def test_closed_output(self):
        was = self.made()
        status, answer, _ = self.run_("third.txt", "third.csv", store="other")
        self.assertEqual(status, 0)
        self.assertEqual(self.run_("third.txt", "third.csv")[0], 0)
        new = (self.folder / "store").read_bytes()
        for room in range(len(answer)):
            with self.subTest(room=room):
                (self.folder / "store").write_bytes(was)
                self.assertEqual(self.cut(room), (1, b"mftb: output\n"))
                self.assert_kept(new)

    def cut(self, room):
        """A load whose output takes so many bytes, being a file at its greatest length."""

        def limit():
            import resource

            resource.setrlimit(resource.RLIMIT_FSIZE, (room + 2**24, resource.RLIM_INFINITY))
            signal.signal(signal.SIGXFSZ, signal.SIG_IGN)

        with open(self.folder / "out", "wb") as out:
            out.seek(2**24)
            done = subprocess.run(
                [asked.program, "run", "store", "third.txt", "third.csv"],
                cwd=self.folder,
                stdout=out,
                stderr=subprocess.PIPE,
                preexec_fn=limit,
            )
        return done.returncode, done.stderr

    def test_closed_pipe(self):
        was = self.made()
        self.assertEqual(self.run_("second.txt", "second.csv")[0], 0)
        new = (self.folder / "store").read_bytes()
        (self.folder / "store").write_bytes(was)
        self.assertEqual(self.closed(), (1, b"mftb: output\n"))
        self.assert_kept(new)

    def closed(self):
        """A load whose output nobody reads."""
        reading, writing = os.pipe()
        os.close(reading)
        done = subprocess.run(
            [asked.program, "run", "store", "second.txt", "second.csv"],
            cwd=self.folder,
            stdout=writing,
            stderr=subprocess.PIPE,
        )
        os.close(writing)
        return done.returncode, done.stderr

    def test_refused_files_change_nothing(self):
        was = self.made()
        before = (self.folder / "store").stat()
        self.assertEqual(self.run_("wrong.txt", "wrong.csv"), (0, b"refused F14 at 3\n", b""))
        after = (self.folder / "store").stat()
        self.assertEqual((before.st_ino, before.st_mtime_ns), (after.st_ino, after.st_mtime_ns))
        self.assert_kept(was)

    def test_a_file_that_may_not_grow(self):
        was = self.made()

        def limit():
            import resource

            resource.setrlimit(resource.RLIMIT_FSIZE, (len(was) + 8192, len(was) + 8192))
            signal.signal(signal.SIGXFSZ, signal.SIG_IGN)

        answer = self.run_("second.txt", "second.csv", preexec_fn=limit)
        self.assertEqual((answer[0], answer[2]), (1, b"mftb: store\n"))
        self.assert_kept(was)
        answer = self.run_("second.txt", "second.csv", store="new", preexec_fn=limit)
        self.assertEqual((answer[0], answer[2]), (1, b"mftb: store\n"))
        self.assertFalse((self.folder / "new").exists())
        self.assertEqual(self.beside("new"), [])

    def test_a_small_disk(self):
        disk = self.folder / "disk"
        disk.mkdir()
        mount = ["mount", "-t", "tmpfs", "-o", "size=2m", "tmpfs", disk]
        if subprocess.run(mount, capture_output=True).returncode != 0:
            print("a small disk: no right to mount one; passed over", file=sys.stderr)
            return
        try:
            self.fill(disk)
        finally:
            subprocess.run(["umount", disk], check=True)

    def fill(self, disk):
        """Loads until the disk is full, and asks then."""
        (disk / "others").write_bytes(bytes(2**21 - 100_000))
        self.write("many.csv", feed("m", 5, 500))
        self.write("many.txt", "load many.csv\n")
        self.assertEqual(self.run_("many.txt", "many.csv", store="disk/store")[0], 0)
        was = (disk / "store").read_bytes()
        self.write("more.csv", feed("n", 5, 500))
        self.write("more.txt", "load more.csv\n")
        answer = self.run_("more.txt", "more.csv", store="disk/store")
        self.assertEqual((answer[0], answer[2]), (1, b"mftb: store\n"))
        self.assertEqual((disk / "store").read_bytes(), was)
        self.assertEqual(self.count("disk/store"), b"ok 1\n500,5\n")
        self.assertEqual(self.check("disk/store")[0], 0)
        self.assertEqual(sorted(path.name for path in disk.iterdir()), ["others", "store"])

    def test_no_memory(self):
        was = self.made()
        self.write("large.csv", feed("l", 5, 60000))
        self.write("large.txt", "load large.csv\n")

        def limit():
            import resource

            resource.setrlimit(resource.RLIMIT_DATA, (2**23, 2**23))

        status, out, faults = self.run_("large.txt", "large.csv", preexec_fn=limit)
        self.assertEqual(out, b"")
        # A program that is compiled without proofs is stopped by what watches its memory.
        if status >= 0:
            self.assertEqual((status, faults), (1, b"mftb: memory\n"))
        self.run_("count.txt")
        self.assert_kept(was)


class Rights(Case):
    """Questions over what cannot be written, by a user without rights."""

    def setUp(self):
        super().setUp()
        self.made()
        os.chmod(self.folder, 0o755)

    def as_nobody(self, *words):
        if os.getuid() != 0:
            return call(*words, folder=self.folder)
        program = self.folder / "program"
        if not program.exists():
            shutil.copy(asked.program, program)
            os.chmod(program, 0o755)
        done = subprocess.run(
            [program, *words],
            cwd=self.folder,
            capture_output=True,
            user=NOBODY,
            group=NOBODY,
            extra_groups=[],
        )
        return done.returncode, done.stdout, done.stderr

    def test_a_store_that_may_be_read_alone(self):
        os.chmod(self.folder / "store", 0o444)
        os.chmod(self.folder, 0o555)
        self.addCleanup(os.chmod, self.folder, 0o755)
        self.assertEqual(self.as_nobody("run", "store", "count.txt"), (0, b"ok 1\n200,7\n", b""))
        self.assertEqual(self.as_nobody("check", "store")[0], 0)
        answer = self.as_nobody("run", "store", "second.txt", "second.csv")
        self.assertEqual(answer, (1, b"", b"mftb: store\n"))
        answer = self.as_nobody("run", "--in-place", "store", "second.txt", "second.csv")
        self.assertEqual(answer, (1, b"", b"mftb: store\n"))
        self.assertEqual(self.count(), b"ok 1\n200,7\n")

    def test_a_protected_store_is_not_replaced(self):
        os.chmod(self.folder / "store", 0o444)
        os.chmod(self.folder, 0o777)
        was = (self.folder / "store").read_bytes()
        answer = self.as_nobody("run", "store", "second.txt", "second.csv")
        self.assertEqual(answer, (1, b"", b"mftb: store\n"))
        self.assertEqual((self.folder / "store").read_bytes(), was)

    def test_rights_and_links_stay(self):
        os.chmod(self.folder / "store", 0o640)
        (self.folder / "other").mkdir()
        os.rename(self.folder / "store", self.folder / "other" / "real")
        os.symlink("other/real", self.folder / "store")
        self.assertEqual(self.run_("second.txt", "second.csv")[0], 0)
        self.assertTrue((self.folder / "store").is_symlink())
        self.assertEqual((self.folder / "other" / "real").stat().st_mode & 0o7777, 0o640)
        self.assertEqual(self.count(), b"ok 1\n500,57\n")
        self.assertEqual([path.name for path in (self.folder / "other").iterdir()], ["real"])

    def test_an_owner_stays(self):
        if os.getuid() != 0:
            print("an owner: no right to change one; passed over", file=sys.stderr)
            return
        os.chown(self.folder / "store", NOBODY, NOBODY)
        os.chmod(self.folder / "store", 0o604)
        self.assertEqual(self.run_("second.txt", "second.csv")[0], 0)
        about = (self.folder / "store").stat()
        self.assertEqual((about.st_uid, about.st_gid, about.st_mode & 0o7777), (NOBODY, NOBODY, 0o604))
        self.assertEqual(self.count(), b"ok 1\n500,57\n")

    def test_a_run_of_another_user_owns_what_it_makes(self):
        if os.getuid() != 0:
            print("another user: no right to be one; passed over", file=sys.stderr)
            return
        os.chmod(self.folder / "store", 0o666)
        os.chmod(self.folder, 0o777)
        self.assertEqual(self.as_nobody("run", "store", "second.txt", "second.csv")[0], 0)
        about = (self.folder / "store").stat()
        self.assertEqual((about.st_uid, about.st_mode & 0o7777), (NOBODY, 0o666))


class Together(Case):
    """Runs that work on one store at once."""

    def test_two_writers_and_ten_readers(self):
        self.made()
        self.work(8, 200, 7)

    def work(self, turns, legs, features):
        """Two writers, of so many turns, and ten readers over a store of so many legs and features."""
        said, met, ends = [], [], threading.Event()

        def reads():
            while not ends.is_set():
                met.append(self.run_("count.txt"))

        def writes(name, times):
            for turn in range(times):
                self.write(f"{name}{turn}.csv", feed(f"{name}{turn}f", 3, 60))
                self.write(f"{name}{turn}.txt", f"load {name}{turn}.csv\n")
                answer = self.run_(f"{name}{turn}.txt", f"{name}{turn}.csv")
                while answer[2] == IN_USE:
                    answer = self.run_(f"{name}{turn}.txt", f"{name}{turn}.csv")
                said.append(answer)

        readers = [threading.Thread(target=reads) for _ in range(10)]
        writers = [threading.Thread(target=writes, args=(name, turns)) for name in "xy"]
        for thread in readers + writers:
            thread.start()
        for thread in writers:
            thread.join()
        ends.set()
        for thread in readers:
            thread.join()
        self.assertEqual(set(said), {(0, b"ok 1\n60,60,3\n", b"")})
        books = [(legs + 60 * turn, features + 3 * turn) for turn in range(2 * turns + 1)]
        answers = [b"ok 1\n%d,%d\n" % book for book in books]
        self.assertLessEqual(set(met), {(0, answer, b"") for answer in answers})
        self.assertEqual(self.count(), answers[-1])
        self.assertEqual(self.check()[0], 0)
        self.assertEqual(self.beside(), [])

    @contextlib.contextmanager
    def stopped(self, *words):
        """A run that holds what it holds, since its output takes no more, while the block lasts."""
        reading, writing = os.pipe()
        run = subprocess.Popen([asked.program, *words], cwd=self.folder, stdout=writing, stderr=subprocess.PIPE)
        os.close(writing)
        time.sleep(0.5)
        try:
            yield run
        finally:
            with open(reading, "rb") as out:
                run.answer = out.read()
            run.wait()
            run.stderr.close()

    def long(self, begin=""):
        """A script whose answer is more than a pipe holds."""
        ask = "legs ever -1000 -1000 1000 1000 2023-01-01T00:00:00Z 2025-01-01T00:00:00Z\n"
        self.write("long.txt", begin + ask * 20)

    def test_a_reader_goes_on_while_the_store_is_replaced(self):
        self.made()
        self.long()
        with self.stopped("run", "store", "long.txt") as reader:
            self.assertIsNone(reader.poll())
            self.assertEqual(self.run_("third.txt", "third.csv")[0], 0)
            self.assertEqual(self.count(), b"ok 1\n300,12\n")
        self.assertEqual(reader.returncode, 0)
        self.assertEqual(reader.answer.count(b"ok 200\n"), 20)

    def test_a_second_writer_is_refused(self):
        self.made()
        self.long("load third.csv\n")
        with self.stopped("run", "store", "long.txt", "third.csv") as writer:
            self.assertIsNone(writer.poll())
            self.assertEqual(self.run_("second.txt", "second.csv"), (1, b"", IN_USE))
            self.assertEqual(self.run_("second.txt", "second.csv", words=["--in-place"]), (1, b"", IN_USE))
            self.assertEqual(self.count(), b"ok 1\n200,7\n")
            self.assertEqual(self.check()[0], 0)
        self.assertEqual(writer.returncode, 0)
        self.assertEqual(self.count(), b"ok 1\n300,12\n")
        self.assertEqual(self.beside(), [])

    def test_a_store_that_is_written_in_place_is_held_alone(self):
        self.made()
        self.long("load third.csv\n")
        with self.stopped("run", "--in-place", "store", "long.txt", "third.csv") as writer:
            self.assertIsNone(writer.poll())
            self.assertEqual(self.run_("count.txt"), (1, b"", IN_USE))
            self.assertEqual(self.check(), (1, b"", IN_USE))
            self.assertEqual(self.run_("second.txt", "second.csv"), (1, b"", IN_USE))
        self.assertEqual(writer.returncode, 0)
        self.assertEqual(self.count(), b"ok 1\n300,12\n")

    def test_a_reader_keeps_out_what_is_written_in_place(self):
        self.made()
        self.long()
        with self.stopped("run", "store", "long.txt") as reader:
            self.assertIsNone(reader.poll())
            answer = self.run_("second.txt", "second.csv", words=["--in-place"])
            self.assertEqual(answer, (1, b"", IN_USE))
        self.assertEqual(reader.returncode, 0)


class WithoutLocks(Case):
    """Runs to which the system says that no file has locks."""

    def setUp(self):
        super().setUp()
        if self.without("true").returncode != 0:
            print("no locks: the system cannot be made to say so; passed over", file=sys.stderr)
            self.skipTest("no filter of calls")

    def without(self, *words):
        words = [sys.executable, ROOT / "python" / "dev" / "lockless.py", *words]
        return subprocess.run(words, cwd=self.folder, capture_output=True)

    def lockless(self, script, *files):
        done = self.without(asked.program, "run", "store", script, *files)
        return done.returncode, done.stdout, done.stderr

    def test_a_store_is_loaded_and_asked(self):
        self.made()
        self.assertEqual(self.lockless("second.txt", "second.csv")[0], 0)
        self.assertEqual(self.lockless("count.txt"), (0, b"ok 1\n500,57\n", b""))
        self.assertEqual(self.beside(), [])

    def test_a_copy_that_is_there_stays(self):
        was, copy = self.made(), self.folder / "store.mftb-copy"
        copy.write_bytes(b"another run's")
        for script, answer in [("count.txt", (0, b"ok 1\n200,7\n", b"")), ("second.txt", (1, b"", IN_USE))]:
            with self.subTest(script=script):
                self.assertEqual(self.lockless(script, "second.csv"), answer)
                self.assertEqual(copy.read_bytes(), b"another run's")
                self.assertEqual((self.folder / "store").read_bytes(), was)
        self.assertEqual(self.beside(), ["store.mftb-copy"])

    def test_two_writers(self):
        self.made()
        met = []

        def writes(name):
            for turn in range(4):
                self.write(f"{name}{turn}.csv", feed(f"{name}{turn}f", 3, 60))
                self.write(f"{name}{turn}.txt", f"load {name}{turn}.csv\n")
                while (answer := self.lockless(f"{name}{turn}.txt", f"{name}{turn}.csv"))[2] == IN_USE:
                    pass
                met.append(answer)

        threads = [threading.Thread(target=writes, args=(name,)) for name in "xy"]
        for thread in threads:
            thread.start()
        for thread in threads:
            thread.join()
        self.assertEqual(met, [(0, b"ok 1\n60,60,3\n", b"")] * 8)
        self.assertEqual(self.count(), b"ok 1\n680,31\n")
        self.assertEqual(self.check()[0], 0)
        self.assertEqual(self.beside(), [])


class Pipes(Case):
    """Scripts and files from standard input, marks and line ends."""

    def test_standard_input(self):
        answer = self.run_("/dev/stdin", "first.csv", input=b"load first.csv\ncount\n")
        self.assertEqual(answer, (0, b"ok 1\n200,200,7\nok 1\n200,7\n", b""))
        self.write("piped.txt", "load /dev/stdin\n")
        answer = self.run_("piped.txt", "/dev/stdin", input=feed("p", 2, 4).encode())
        self.assertEqual(answer, (0, b"ok 1\n4,4,2\n", b""))

    def test_a_mark_and_line_ends(self):
        made = b"mftb: there was no store store: an empty one was made\n"
        self.assertEqual(self.run_("/dev/stdin", input=b"count\r\n\r\n# x\r\n"), (0, b"ok 1\n0,0\n", made))
        self.assertEqual(self.run_("/dev/stdin", input=b"\xef\xbb\xbfcount\n"), (0, b"refused Q2\n", b""))


class Progress(Case):
    """`--progress`, and a terminal."""

    def test_progress(self):
        self.write("all.txt", "# first\nload first.csv\n\ncount\nwrong\n")
        plain = self.run_("all.txt", "first.csv", store="one")
        told = self.run_("all.txt", "first.csv", store="two", words=["--progress"])
        self.assertEqual(plain, (0, told[1], b""))
        lines = [line.rsplit(b",", 2)[0] for line in told[2].splitlines()]
        self.assertEqual(
            lines,
            [
                b"line 2: load, 200 legs loaded",
                b"line 4: count, 200 legs loaded",
                b"line 5: wrong, 200 legs loaded",
            ],
        )

    def on_terminal(self, *words, rests=()):
        """What a run writes, and what it says on a terminal; it rests from one moment to another, in seconds."""
        shown, terminal = os.openpty()
        run = subprocess.Popen([asked.program, *words], cwd=self.folder, stdout=subprocess.PIPE, stderr=terminal)
        os.close(terminal)
        for seconds, how in rests:
            time.sleep(seconds)
            run.send_signal(how)
        answer = run.communicate()[0]
        said = b""
        with contextlib.suppress(OSError):
            while part := os.read(shown, 4096):
                said += part
        os.close(shown)
        self.assertEqual(run.returncode, 0)
        return answer, said

    def test_a_terminal(self):
        answer, said = self.on_terminal("run", "--progress", "store", "second.txt", "second.csv")
        self.assertEqual(answer, b"ok 1\n300,300,50\nok 1\n300,50\n")
        # It is shown where the load lasts long enough, and is taken away then.
        self.assertTrue(not said or said.endswith(b"\r\x1b[K"))

    def test_a_long_load_is_shown_on_a_terminal_without_being_asked(self):
        self.write("long.txt", "# first\nload long.csv\ncount\n")
        for legs in (200, 2000, 20_000, 100_000):
            self.write("long.csv", feed("l", 50, legs))
            seconds = self.lasting("long.txt", "long.csv")
            if seconds > 0.2:
                break
        # The run rests in the midst of its load, so that it lasts longer than a second.
        for part in range(1, 10):
            rests = [(seconds * part / 10, signal.SIGSTOP), (1.1, signal.SIGCONT)]
            answer, said = self.on_terminal("run", f"store{part}", "long.txt", "long.csv", rests=rests)
            self.assertEqual(answer, b"ok 1\n%d,%d,50\nok 1\n%d,50\n" % (legs, legs, legs))
            if said:
                break
        self.assertRegex(said, rb"^(\r\x1b\[Kline 2: load, 0 legs loaded, \d+ pages, \d+\.\d s)+\r\x1b\[K$")

    def lasting(self, *words):
        """How many seconds a run lasts that makes a store; it is not shown elsewhere than on a terminal."""
        begin = time.monotonic()
        (self.folder / "timed").unlink(missing_ok=True)
        answer = self.run_(*words, store="timed")
        self.assertEqual((answer[0], answer[2]), (0, b""))
        return time.monotonic() - begin

    def test_a_question_is_not_shown_on_a_terminal_without_being_asked(self):
        self.made()
        rests = [(0, signal.SIGSTOP), (1.1, signal.SIGCONT)]
        self.assertEqual(self.on_terminal("run", "store", "count.txt", rests=rests), (b"ok 1\n200,7\n", b""))


class Large(Case):
    """A store of many legs, where it is asked for."""

    def setUp(self):
        super().setUp()
        if not asked.legs:
            self.skipTest("by hand: --legs N")
        self.write("first.csv", feed("a", 1000, asked.legs))
        self.write("second.csv", feed("b", 1000, asked.legs // 10))
        self.assertEqual(self.run_("first.txt", "first.csv")[0], 0)
        self.old = b"ok 1\n%d,1000\n" % asked.legs
        self.new = b"ok 1\n%d,2000\n" % (asked.legs + asked.legs // 10)

    def test_kills(self):
        was, moments = (self.folder / "store").read_bytes(), random.Random(42)
        begin = time.monotonic()
        self.assertEqual(self.run_("second.txt", "second.csv")[0], 0)
        seconds, met = time.monotonic() - begin, collections.Counter()
        for turn in range(asked.kills):
            (self.folder / "store").write_bytes(was)
            how = (signal.SIGKILL, signal.SIGTERM, signal.SIGINT)[turn % 3]
            Kills.kill(self, how, moments.uniform(0, seconds * 1.1))
            is_old = (self.folder / "store").read_bytes() == was
            met["old" if is_old else "new"] += 1
            self.assertEqual(self.count(), self.old if is_old else self.new)
            self.assertEqual(self.check()[0], 0)
            self.assert_swept()
        print(f"a load of {seconds:.2f} s, killed: {dict(met)}", file=sys.stderr)

    def test_two_writers_and_ten_readers(self):
        Together.work(self, 3, asked.legs, 1000)

    def test_closed_output(self):
        self.assertEqual(Failures.closed(self), (1, b"mftb: output\n"))
        self.assertEqual(self.count(), self.new)
        self.assertEqual(self.beside(), [])


class InPlace(Case):
    """`--in-place` writes the file that is there, and makes no other."""

    def test_the_same_bytes(self):
        self.made("one")
        self.made("two")
        number = (self.folder / "two").stat().st_ino
        self.assertEqual(self.run_("second.txt", "second.csv", store="one")[0], 0)
        self.assertEqual(self.run_("second.txt", "second.csv", store="two", words=["--in-place"])[0], 0)
        self.assertEqual((self.folder / "one").read_bytes(), (self.folder / "two").read_bytes())
        self.assertEqual((self.folder / "two").stat().st_ino, number)
        self.assertEqual(self.beside("one") + self.beside("two"), [])


def main():
    words = argparse.ArgumentParser(description=__doc__.split(":")[0])
    words.add_argument("--program", type=pathlib.Path, help="the program")
    words.add_argument("--unproved", action="store_true", help="compile the program without proofs")
    words.add_argument("--kills", type=int, default=40, help="kill a load so many times")
    words.add_argument("--legs", type=int, help="try a store of so many legs as well")
    _, rest = words.parse_known_args(namespace=asked)
    with tempfile.TemporaryDirectory(prefix="mftb-program-") as name:
        if asked.unproved:
            asked.program = sanitized(pathlib.Path(name))
        elif asked.program is None:
            asked.program = proved()
        asked.program = asked.program.resolve()
        unittest.main(module=sys.modules[__name__], argv=[sys.argv[0], *rest])
