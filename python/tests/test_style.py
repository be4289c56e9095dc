"""The package, its tests and the developers' tools pass one formatter and one linter, where these are there."""
import ast
import shutil
import subprocess
import tempfile
import unittest

from common import ROOT

PYTHON = ROOT / "python"


class Style(unittest.TestCase):
    def passes(self, *command):
        ended = subprocess.run(command, cwd=PYTHON, capture_output=True, text=True)
        self.assertEqual(ended.returncode, 0, ended.stdout + ended.stderr)

    @unittest.skipUnless(shutil.which("black"), "black (Debian's package black) is not there")
    def test_black(self):
        self.passes("black", "--check", "--quiet", "--diff", ".")

    @unittest.skipUnless(shutil.which("flake8"), "flake8 (Debian's package flake8) is not there")
    def test_flake8(self):
        self.passes("flake8", ".")

    @unittest.skipUnless(shutil.which("mypy"), "mypy (Debian's package mypy) is not there")
    def test_mypy(self):
        with tempfile.TemporaryDirectory() as folder:
            self.passes("mypy", "--cache-dir", folder)

    def test_each_function_of_the_package_has_types(self):
        without = []
        for path in sorted((PYTHON / "src").rglob("*.py")):
            for node in ast.walk(ast.parse(path.read_text())):
                if isinstance(node, ast.FunctionDef):
                    given = [*node.args.posonlyargs, *node.args.args, *node.args.kwonlyargs]
                    untyped = [it for it in given if it.annotation is None and it.arg not in ("self", "cls")]
                    if untyped or node.returns is None:
                        without.append(f"{path.name}:{node.lineno} {node.name}")
        self.assertEqual(without, [])


if __name__ == "__main__":
    unittest.main()
