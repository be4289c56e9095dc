"""Runs a tool of python/ from tools/, where its name has always stood."""

import importlib
import sys
from pathlib import Path

PYTHON = Path(__file__).resolve().parent.parent / "python"


def run(name, module):
    """Runs `main` of a module, if the tool itself is the program that runs."""
    if name != "__main__":
        return
    sys.dont_write_bytecode = True
    sys.path[:0] = [str(PYTHON / "src"), str(PYTHON / "dev")]
    sys.exit(importlib.import_module(module).main())
