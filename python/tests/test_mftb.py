"""The script mftb, over stand-ins for the proof, the kit and the build without proofs: which program answers."""
import os
import shutil
import subprocess
import tempfile
import time
import unittest
from pathlib import Path

ROOT = Path(__file__).resolve().parents[2]
UNPROVED = "#!/bin/sh\necho unproved $*\n"
# It proves for as long as a file is there, and fails if another one is.
PROVE = """#!/bin/sh
cd "$(dirname "$0")/.."
echo began >>proofs
while [ -e busy ]; do sleep 0.05; done
test ! -e wrong
"""
RT = """#!/bin/sh
mkdir -p out
echo "$*" >>../../builds
printf '#!/bin/sh\\necho proved $*\\n' >out/mftb
chmod +x out/mftb
"""
AVX2 = "flags : fpu abm avx avx2 bmi1 bmi2 f16c fma movbe\n"


class Answering(unittest.TestCase):
    def setUp(self):
        self.root = Path(tempfile.mkdtemp(prefix="mftb-"))
        self.addCleanup(shutil.rmtree, self.root)
        for folder in ("tools", "bin", "crates/mftb/src", "crates/mftb/specs"):
            (self.root / folder).mkdir(parents=True)
        shutil.copy(ROOT / "mftb", self.root)
        for name, text in (("tools/unproved", UNPROVED), ("tools/prove", PROVE), ("bin/rt", RT)):
            (self.root / name).write_text(text)
            (self.root / name).chmod(0o755)
        (self.root / "crates.txt").write_text("mftb:\n")
        self.source = self.root / "crates" / "mftb" / "src" / "main.rt"
        self.alter(-10)

    def alter(self, seconds):
        """The source is as if it was changed so many seconds from now."""
        self.source.touch()
        for path in (self.source, self.root / "crates.txt"):
            os.utime(path, (time.time() + seconds,) * 2)

    def answer(self, proof=None, words=("a", "b")):
        about = {key: it for key, it in os.environ.items() if key != "MFTB_PROOF"}
        about["PATH"] = f"{self.root / 'bin'}:{about['PATH']}"
        about["MFTB_CPUINFO"] = str(self.root / "cpuinfo")
        about |= {"MFTB_PROOF": proof} if proof else {}
        return subprocess.run([self.root / "mftb", *words], env=about, capture_output=True, text=True)

    def proofs(self):
        begun = self.root / "proofs"
        return len(begun.read_text().split()) if begun.exists() else 0

    def await_answer(self, wanted):
        for _ in range(200):
            ended = self.answer("none")
            if ended.stdout == wanted:
                return ended
            time.sleep(0.05)
        raise AssertionError(ended)

    def test_the_proof_runs_beside_once_and_its_program_answers_when_it_is_done(self):
        (self.root / "busy").touch()
        first = self.answer()
        self.assertEqual(first.stdout, "unproved a b\n")
        self.assertIn("the proof begins beside", first.stderr)
        for _ in range(100):
            if self.proofs():
                break
            time.sleep(0.05)
        second = self.answer()
        self.assertEqual(second.stdout, "unproved a b\n")
        self.assertIn("the proof runs beside", second.stderr)
        (self.root / "busy").unlink()
        self.assertEqual(self.await_answer("proved a b\n").stderr, "")
        self.assertEqual(self.answer().stdout, "proved a b\n")
        self.assertEqual(self.proofs(), 1)

    def test_none_starts_no_proof(self):
        ended = self.answer("none")
        self.assertEqual((ended.stdout, ended.stderr), ("unproved a b\n", ""))
        time.sleep(0.2)
        self.assertEqual(self.proofs(), 0)

    def test_wait_proves_first(self):
        self.assertEqual(self.answer("wait").stdout, "proved a b\n")
        self.assertEqual(self.answer("wait").stdout, "proved a b\n")
        self.assertEqual(self.proofs(), 1)

    def test_a_source_that_changed_is_proved_anew(self):
        self.answer("wait")
        self.alter(5)
        self.assertEqual(self.answer("none").stdout, "unproved a b\n")
        self.alter(-10)
        self.assertEqual(self.answer("none").stdout, "proved a b\n")

    def test_a_proof_that_failed_is_not_begun_again_until_a_source_changes(self):
        (self.root / "wrong").touch()
        self.assertEqual(self.answer("wait").returncode, 1)
        ended = self.answer()
        self.assertEqual(ended.stdout, "unproved a b\n")
        self.assertIn("the proof failed", ended.stderr)
        self.assertEqual(self.proofs(), 1)
        (self.root / "wrong").unlink()
        self.alter(5)
        self.answer("wait")
        self.assertEqual(self.proofs(), 2)

    def test_the_build_is_for_the_processor_and_says_which(self):
        (self.root / "cpuinfo").write_text(AVX2)
        self.answer("wait")
        self.assertEqual((self.root / "builds").read_text(), "run --cpu=x86-64-v3 -- --help\n")
        ended = self.answer("wait", ["--version"])
        self.assertEqual(ended.stdout, "proved --version\n")
        self.assertEqual(ended.stderr, "mftb: proved; built for processors with AVX2\n")

    def test_a_lesser_processor_is_told_so_and_gets_a_build_of_its_own(self):
        (self.root / "cpuinfo").write_text(AVX2)
        self.answer("wait")
        (self.root / "cpuinfo").write_text("flags : fpu avx\n")
        ended = self.answer("wait")
        self.assertEqual(ended.stdout, "proved a b\n")
        self.assertIn("built for processors with AVX2, and this one has none", ended.stderr)
        self.assertEqual((self.root / "builds").read_text().splitlines()[1], "run -- --help")
        self.assertEqual(self.answer("wait", ["--version"]).stderr, "mftb: proved; built for all x86-64 processors\n")
