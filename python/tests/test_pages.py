"""The pages' commands, run as they stand: what they make and say must lie and stand there."""
import os
import re
import shutil
import subprocess
import tempfile
from pathlib import Path

from common import BUILT, FEEDS, ROOT, Case, has_info

COMMAND = re.compile(
    r"^    ((?:cd |Q=|grep |printf |echo |(?:\.\./)+(?:tools/|mftb )).*|for (?:.*\n)+?    done)$", re.M
)
# Pages whose commands are run.
PAGES = [ROOT / "docs" / "user" / f"{name}.md" for name in ("START", "FEEDS", "DAILY", "PAGE", "TABLE", "FLEET")]
# What needs answers of the program.
ASKS = re.compile(r"^(?:\.\./)+mftb|/table|/daily|/page|/fleet|--store|--answer found")


class Pages(Case):
    def test_commands_do_what_the_pages_say(self):
        for path in PAGES:
            with self.subTest(path.name):
                text = path.read_text()
                commands = COMMAND.findall(text)
                self.assertGreater(len(commands), 2)
                self.follow(text, commands)

    def follow(self, text, commands):
        """Runs a page's commands in copies of its folders; what they say must stand in it."""
        top = Path(tempfile.mkdtemp(dir=self.folder))
        shutil.copytree(ROOT / "examples", top / "examples", ignore=shutil.ignore_patterns("store", "*.mftb"))
        self.addCleanup(shutil.rmtree, top, ignore_errors=True)
        (top / "tools").symlink_to(ROOT / "tools")
        # Without a build the program's part is not followed; its answers are tested by examples/run, too.
        (top / "mftb").write_text(f'#!/bin/sh\nexec {BUILT} "$@"\n' if has_info() else "#!/bin/sh\n")
        (top / "mftb").chmod(0o755)
        place, question, env = top, "", os.environ | {"MFTB_PROGRAM": str(top / "mftb")}
        for command in commands:
            if ASKS.search(command) and not has_info():
                continue
            if command.startswith("cd "):
                place = (top if command.startswith("cd examples") else place) / command[3:]
                continue
            if command.startswith("Q="):
                question = f"{command}\n"
                continue
            words = ["bash", "-c", question + command]
            ended = subprocess.run(words, cwd=place, capture_output=True, text=True, env=env)
            self.assertEqual(ended.returncode, 0, command)
            for line in ended.stderr.splitlines():
                self.assertIn(line, text)
        for path in FEEDS.glob("*/*.*"):
            made = top / "examples" / "feeds" / path.parent.name / path.name
            self.assertEqual(path.read_bytes(), made.read_bytes(), path.name)
        shutil.rmtree(top)

    def test_pages_and_tools_have_the_same_words(self):
        """Each option that a page names is one of a tool's."""
        tools = "from_ais", "from_csv", "from_gpx", "from_movebank", "draw", "table", "daily", "page", "fleet"
        helps = [self.made(it, "--help") for it in tools] + [self.made("fleet", it, "--help") for it in ("new", "ask")]
        # Options of the program, too.
        known = {"--cache-pages", "--most-legs", "--most-features"} | set(re.findall(r"--[a-z0-9-]+", " ".join(helps)))
        for path in PAGES:
            said = set(re.findall(r"(?<![\w-])--[a-z][a-z0-9-]+", path.read_text()))
            self.assertLessEqual(said, known, path.name)
