"""The tool that compares two builds of the program, over the build without proofs and what stands in for another."""

import re
import tempfile
import unittest
from pathlib import Path

import command_files
import command_lines
from common import BUILT, ROOT, Case, folder_of, run


class Lines(unittest.TestCase):
    def test_each_option_of_a_manual_page_is_tried(self):
        said = " ".join(path.read_text() for path in (ROOT / "docs").glob("*.1")).replace("\\-", "-")
        tried = {word for line in command_lines.lines() for word in line}
        self.assertEqual({it for it in re.findall(r"--[a-z-]+", said) if it not in tried | {"--help"}}, set())


@unittest.skipUnless(BUILT.exists(), "tools/unproved has made no build yet")
class Compared(Case):
    def compared(self, other, *words, status):
        """What the tool prints of the build and another program."""
        ended = run("command_lines", BUILT, other, *words, folder=self.folder)
        self.assertEqual(ended.returncode, status, ended.stdout + ended.stderr)
        return ended.stdout

    def stand_in(self, text):
        program = Path(self.folder, self.write("other", f"#!/bin/sh\n{text}\n"))
        program.chmod(0o755)
        return program

    def test_a_program_answers_as_itself(self):
        said = self.compared(BUILT, "--every", "100", status=0)
        self.assertRegex(said, r"^\d+ command lines \(.*\), 0 answered otherwise\n$")

    def test_what_differs_is_said(self):
        """A status, an output, an error, a file that is left, and one that is gone, each of its own line."""
        asked = "--every", "300", "--random", "1"
        for text, part in (
            (f'{BUILT} "$@"; exit 7', "differ in status\n"),
            (f'echo more; exec {BUILT} "$@"', "differ in output\n"),
            (f'echo more >&2; exec {BUILT} "$@"', "differ in error\n"),
            (f'echo more >left; exec {BUILT} "$@"', "differ in left\n"),
            (f'rm letter; exec {BUILT} "$@"', "differ in letter\n"),
        ):
            with self.subTest(part):
                said = self.compared(self.stand_in(text), *asked, status=1)
                self.assertIn(part, said)
                self.assertNotIn(", 0 answered otherwise", said)

    def test_each_code_is_met(self):
        """Of a file, of a line and of a zone file."""
        given = folder_of(type(self))
        command_files.fill(given, BUILT, command_lines.random.Random(1))
        with tempfile.TemporaryDirectory() as name:
            copy = command_lines.Copy(given, Path(name, "copy"))
            lines = [line for line in command_lines.on_files() if "--explain" in line and line[0] in ("run", "zones")]
            said = b"".join(answer.output + answer.error for answer in (copy.answer(BUILT, line) for line in lines))
        met = {code.decode() for code in re.findall(rb"refused:? ([FQZ]\d+)", said)}
        self.assertEqual(
            met, {f"{kind}{n}" for kind, most in (("F", 20), ("Q", 10), ("Z", 7)) for n in range(1, most + 1)}
        )


if __name__ == "__main__":
    unittest.main()
