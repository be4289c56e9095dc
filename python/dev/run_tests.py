"""Runs the tests of the Python package and of the tools: all, or those that are named.

    tools/test
    tools/test test_draw test_readers.Samples.test_outputs

They run by pytest, if this Python has it, else by unittest.
"""

import importlib.util
import os
import subprocess
import sys
import unittest
from pathlib import Path

TESTS = Path(__file__).resolve().parent.parent / "tests"


def by_pytest(names):
    """The status of a run by pytest, which knows tests by their files."""
    words = []
    for name in names:
        module, *rest = name.split(".")
        words.append("::".join([str(TESTS / f"{module}.py"), *rest]))
    command = [sys.executable, "-B", "-m", "pytest", "-q", "-p", "no:cacheprovider", *(words or [str(TESTS)])]
    return subprocess.run(command, cwd=TESTS.parent).returncode


def by_unittest(names):
    sys.path.insert(0, str(TESTS))
    loader = unittest.defaultTestLoader
    tests = loader.loadTestsFromNames(names) if names else loader.discover(str(TESTS))
    return 0 if unittest.TextTestRunner().run(tests).wasSuccessful() else 1


def main():
    # No test starts a proof.
    os.environ["MFTB_PROOF"] = "none"
    names = sys.argv[1:]
    return by_pytest(names) if importlib.util.find_spec("pytest") else by_unittest(names)
