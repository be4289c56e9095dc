"""docs/user/RECIPES.md and the notebooks: the code prints what stands below it, and a feed becomes a map."""
import contextlib
import importlib.util
import io
import os
import shutil
import sys
import unittest
import warnings
from unittest import mock

import notebooks
from common import BUILT, FEEDS, ROOT, Case, has_info, has_zones

PAGE = notebooks.PAGE.read_text()
FOLDER = ROOT / "python" / "notebooks"
WANTED = "nbformat", "nbclient", "ipykernel", "pandas"
ABSENT = [name for name in WANTED if importlib.util.find_spec(name) is None]
if ABSENT:
    print(f"test_recipes: {', '.join(ABSENT)} are not there: no notebook is run", file=sys.stderr)


def answered(cell):
    """What a cell of code prints, without what is said beside it."""
    return "".join(it["text"] for it in cell["outputs"] if it.get("name") == "stdout")


class Recipes(Case):
    def test_the_notebook_is_the_page(self):
        made = notebooks.notebook(notebooks.cells(PAGE))
        self.assertEqual(notebooks.NOTEBOOK.read_text(), made, "python/dev/notebooks.py makes it anew")
        self.assertLessEqual(len(PAGE.split()), 900)

    @unittest.skipUnless(has_zones(), "there is no build that knows zones")
    def test_the_code_of_the_page_prints_what_stands_below_it(self):
        shutil.copy(FOLDER / "ferries.csv", self.folder)
        self.addCleanup(os.chdir, os.getcwd())
        os.chdir(self.folder)
        found = {}
        with mock.patch.dict(os.environ, MFTB_PROGRAM=str(BUILT)):
            for cell in notebooks.cells(PAGE):
                if cell["cell_type"] != "code":
                    continue
                code, wanted = "".join(cell["source"]), "".join("".join(it["text"]) for it in cell["outputs"])
                with contextlib.redirect_stdout(io.StringIO()) as printed, self.subTest(code):
                    exec(code, found)
                    self.assertEqual(printed.getvalue(), wanted)


@unittest.skipIf(ABSENT, f"{', '.join(ABSENT)} are not there")
@unittest.skipUnless(has_info(), "tools/unproved has made no build yet")
class Notebooks(Case):
    def ran(self, name):
        """The cells of code of a notebook that ran in a copy of its folder."""
        import nbclient
        import nbformat

        place = self.folder / "python" / "notebooks"
        shutil.copytree(FOLDER, place)
        shutil.copytree(FEEDS / "ais-us", self.folder / "examples" / "feeds" / "ais-us")
        book = nbformat.read(place / name, as_version=4)
        about = {"MFTB_PROGRAM": str(BUILT), "PYTHONPATH": str(ROOT / "python" / "src")}
        with mock.patch.dict(os.environ, about), warnings.catch_warnings():
            warnings.simplefilter("ignore")
            nbclient.NotebookClient(book, timeout=300, resources={"metadata": {"path": str(place)}}).execute()
        return place, [cell for cell in book.cells if cell.cell_type == "code"]

    @unittest.skipUnless(has_zones(), "there is no build that knows zones")
    def test_recipes(self):
        _, found = self.ran("recipes.ipynb")
        wanted = [cell for cell in notebooks.cells(PAGE) if cell["cell_type"] == "code"]
        for cell, own in zip(found, wanted, strict=True):
            self.assertEqual(answered(cell), "".join("".join(it["text"]) for it in own["outputs"]), cell.source)

    def test_ten_lines_go_from_a_feed_to_a_map(self):
        place, found = self.ran("feed_to_map.ipynb")
        self.assertLessEqual(sum(len(cell.source.splitlines()) for cell in found), 10)
        table = found[1]["outputs"][-1]["data"]["text/plain"]
        for ship in ("200000001", "200000002", "200000003"):
            self.assertIn(ship, table)
        self.assertIn("ships.html", found[2]["outputs"][-1]["data"]["text/html"])
        page = (place / "ships.html").read_text()
        self.assertIn("<title>ships.mftb</title>", page)


if __name__ == "__main__":
    unittest.main()
