"""Makes the notebook of docs/user/RECIPES.md, with what the page says that its code prints: python/dev/notebooks.py"""

import json
import re
import sys
from pathlib import Path

ROOT = Path(__file__).resolve().parents[2]
PAGE = ROOT / "docs" / "user" / "RECIPES.md"
NOTEBOOK = ROOT / "python" / "notebooks" / "recipes.ipynb"
BLOCK = re.compile(r"^```(python|text)\n(.*?)^```\n", re.M | re.S)
LINK = re.compile(r"\]\((?!https?:)([^)]*)\)")


def lines(text: str) -> list[str]:
    return text.splitlines(keepends=True)


def cells(page: str) -> list[dict]:
    """Cells of prose and of code; a block of text is what the code above it prints."""
    found: list[dict] = []
    parts = BLOCK.split(page)
    for place in range(0, len(parts), 3):
        prose = LINK.sub(r"](../../docs/user/\1)", parts[place].strip())
        if prose:
            found.append({"cell_type": "markdown", "metadata": {}, "source": lines(prose)})
        kind, text = (parts + ["", ""])[place + 1 : place + 3]
        if kind == "python":
            found.append(code(text.strip()))
        elif kind == "text":
            found[-1]["outputs"] = [{"name": "stdout", "output_type": "stream", "text": lines(text)}]
    return [cell | {"id": f"cell-{number}"} for number, cell in enumerate(found)]


def code(text: str) -> dict:
    return {"cell_type": "code", "execution_count": None, "metadata": {}, "outputs": [], "source": lines(text)}


def notebook(found: list[dict]) -> str:
    kernel = {"display_name": "Python 3", "language": "python", "name": "python3"}
    made = {"cells": found, "metadata": {"kernelspec": kernel}, "nbformat": 4, "nbformat_minor": 5}
    return json.dumps(made, indent=1, ensure_ascii=False) + "\n"


if __name__ == "__main__":
    NOTEBOOK.write_text(notebook(cells(PAGE.read_text())))
    print(f"{NOTEBOOK.name} is made", file=sys.stderr)
