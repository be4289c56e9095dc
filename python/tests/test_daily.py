"""Days that are converted and loaded one after the other: nothing is lost, nothing is twice, whenever a run ends."""
import os
import random
import signal
import subprocess
import time
import unittest

from common import BUILT, FEEDS, ROOT, US, Case

NAMES = [f"ships-2024-06-0{day}.csv" for day in (3, 4, 5)]
WORDS = ["--columns", "VesselName", "--program", BUILT]
ASK = "legs ever -180 -90 180 90 2024-01-01T00:00:00Z 2025-01-01T00:00:00Z\n"
KILLS = 100


@unittest.skipUnless(BUILT.exists(), "tools/unproved has made no build yet")
class Daily(Case):
    def setUp(self):
        super().setUp()
        for name in NAMES:
            self.write(name, (FEEDS / "days" / name).read_text())
        self.write("ask", ASK)

    def command(self, store, files, *words):
        return [ROOT / "tools" / "daily", store, *files, *WORDS, *words]

    def take(self, store, files, *words, status=0):
        """What a run says."""
        command = self.command(store, files, *words)
        ended = subprocess.run(command, cwd=self.folder, capture_output=True, text=True)
        self.assertEqual((ended.returncode, ended.stdout), (status, ""), ended.stderr)
        return ended.stderr

    def legs(self, store):
        """All legs of a store, without their times, which count from the first file."""
        asked = [BUILT, "run", "--existing", store, "ask"]
        found = subprocess.run(asked, cwd=self.folder, check=True, capture_output=True, text=True).stdout
        return sorted(found.splitlines())

    def at_once(self, files):
        """The legs of a store that was made of one conversion."""
        self.made("from_ais", "--columns", "VesselName", *files, "-o", "all.csv")
        self.write("load", "load all.csv\n")
        command = [BUILT, "run", "--strict", "whole", "load", "all.csv"]
        subprocess.run(command, cwd=self.folder, check=True, capture_output=True)
        return self.legs("whole")

    def test_days_are_one_conversion(self):
        said = self.take("store", NAMES)
        self.assertIn("ships-2024-06-05.csv is loaded: 16 legs of 3 features", said)
        self.assertEqual(self.legs("store"), self.at_once(NAMES))

    def test_again_is_no_error(self):
        self.take("store", NAMES[:2])
        was = (self.folder / "store").read_bytes()
        said = self.take("store", NAMES[:2])
        self.assertEqual(said.count("is in store already"), 2)
        self.assertEqual((self.folder / "store").read_bytes(), was)
        self.take("store", NAMES)
        self.assertEqual(self.legs("store"), self.at_once(NAMES))

    def test_without_what_stood_beside_it_the_store_tells_where_its_legs_end(self):
        self.take("store", NAMES[:2])
        for it in (self.folder / "store.ends").iterdir():
            it.unlink()
        self.take("store", NAMES)
        self.assertEqual(self.legs("store"), self.at_once(NAMES))

    def test_a_position_that_is_alone_is_kept_for_the_next_day(self):
        line = "1,2024-06-0{}T12:00:00,1,{},0,A\n"
        for day in (3, 4, 5):
            self.write(f"d{day}", US + line.format(day, day))
        said = self.take("store", ["d3"], "--gap", "25h")
        self.assertIn("1 feature, 0 legs", said)
        self.take("store", ["d4", "d5"], "--gap", "25h")
        self.assertEqual(self.legs("store")[-1], "ok 2")

    def test_a_day_that_is_refused_ends_the_run(self):
        self.write("bad", US + "1,2024-06-04T09:00:00,x,1,0,A\n")
        said = self.take("store", [NAMES[0], "bad", NAMES[2]], status=1)
        self.assertIn("bad and what is behind it is not loaded", said)
        self.assertIn("bad line 2", said)
        self.take("store", NAMES)
        self.assertEqual(self.legs("store"), self.at_once(NAMES))

    def test_other_columns_than_the_store_has(self):
        """The words are wrong, and no file: none is said to be absent from the store."""
        self.take("store", NAMES[:1])
        command = [ROOT / "tools" / "daily", "store", *NAMES, "--program", BUILT]
        ended = subprocess.run(command, cwd=self.folder, capture_output=True, text=True)
        wanted = "daily: store was made with another --columns: 'VesselName', here ''; nothing is loaded now\n"
        self.assertEqual((ended.returncode, ended.stderr), (1, wanted))
        self.take("store", NAMES)
        self.assertEqual(self.legs("store"), self.at_once(NAMES))

    def test_a_day_that_the_store_refuses(self):
        self.write("load", "load other.csv\n")
        self.write("other.csv", "@stboundedby,metres,3D,,,2024-01-01T00:00:00Z,,sec\n@columns,mfidref,trajectory\n")
        subprocess.run([BUILT, "run", "store", "load", "other.csv"], cwd=self.folder, check=True, capture_output=True)
        said = self.take("store", NAMES, status=3)
        self.assertIn("ships-2024-06-03.csv is refused (refused F", said)

    def test_killed_at_random_moments(self):
        wanted, chance = self.at_once(NAMES), random.Random(79)
        begun = time.monotonic()
        self.take("first", NAMES)
        lasts, killed = time.monotonic() - begun, 0
        for number in range(KILLS):
            store = f"store{number}"
            with subprocess.Popen(
                self.command(store, NAMES), cwd=self.folder, stderr=subprocess.DEVNULL, start_new_session=True
            ) as run:
                time.sleep(chance.uniform(0, lasts))
                if run.poll() is None:
                    os.killpg(run.pid, signal.SIGKILL)
                    killed += 1
            self.take(store, NAMES)
            self.assertEqual(self.legs(store), wanted, number)
        self.assertGreater(killed, KILLS // 4)
