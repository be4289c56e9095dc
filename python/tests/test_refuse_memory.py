"""Allocations refused by their number, of a stand-in for the tests of a crate."""
import shutil
import subprocess
import sys
import tempfile
import unittest
from pathlib import Path

ROOT = Path(__file__).resolve().parents[2]
TOOL = ROOT / "python" / "dev" / "refuse_memory.py"

# It has one test, which takes memory five times, and goes wrong where it gets none the third time.
STAND_IN = """
#include <stdio.h>
#include <stdlib.h>
#include <string.h>

int main(int count, char **words) {
    if (count > 1 && !strcmp(words[1], "--list")) {
        puts("some_tests::one: test");
        return 0;
    }
    int status = 0;
    for (int number = 1; number <= 5; number++) {
        char *volatile place = malloc(1000);
        if (!place && number == 3) status = 1;
        free(place);
    }
    return status;
}
"""


@unittest.skipUnless(shutil.which("gcc"), "there is no gcc")
class Refusing(unittest.TestCase):
    def setUp(self):
        self.root = Path(tempfile.mkdtemp(prefix="refuse-"))
        self.addCleanup(shutil.rmtree, self.root)
        self.tool = self.root / "python" / "dev" / TOOL.name
        self.tool.parent.mkdir(parents=True)
        shutil.copy(TOOL, self.tool.parent)
        shutil.copy(ROOT / "tools" / "compiling.py", self.tool.parent)
        made = self.root / "crates" / "low" / "out"
        made.mkdir(parents=True)
        source = self.root / "low.c"
        source.write_text(STAND_IN)
        subprocess.run(["gcc", "-o", made / "low_tests", source], check=True)

    def refuse(self, *words):
        command = [sys.executable, self.tool, "--built", *words]
        ended = subprocess.run(command, capture_output=True, text=True)
        return ended.returncode, ended.stdout

    def test_the_number_that_goes_wrong_is_named(self):
        status, said = self.refuse("low::some_tests")
        self.assertEqual(status, 1)
        self.assertIn("low::some_tests: some_tests::one: wrong without the allocations [3]\n", said)
        self.assertIn("low::some_tests: 5 allocations refused, one a run\n", said)

    def test_a_sample_refuses_some_all_over(self):
        status, said = self.refuse("--sample", "2", "low")
        self.assertEqual((status, said), (0, "low: 2 allocations refused, one a run\n"))
        self.assertEqual(self.refuse("--sample", "1", "low")[0], 1)
