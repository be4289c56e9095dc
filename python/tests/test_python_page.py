"""docs/user/PYTHON.md: its code runs as it stands, and its table names what is there."""
import contextlib
import importlib.util
import io
import os
import re
import shutil
import unittest
import warnings
from unittest import mock

import mftb
from common import BUILT, FEEDS, ROOT, Case, has_info

PAGE = (ROOT / "docs" / "user" / "PYTHON.md").read_text()


class Page(Case):
    def test_each_call_and_error_is_there(self):
        calls = set(re.findall(r"`\.(\w+)\(", PAGE)) - {"one", "to_pandas", "to_geopandas"}
        for kind in mftb.Store, mftb.Fleet:
            self.assertEqual([name for name in calls if not hasattr(kind, name)], [])
        own = {name for name in dir(mftb.store.Book) if not name.startswith("_")}
        self.assertEqual(own - calls, set())
        errors = PAGE.partition("## Errors")[2]
        named = set(re.findall(r"`((?:Store|File|Question|Wrong|Memory|Output|Program)[A-Z]\w+)`", errors))
        kinds = {name for name in mftb.__all__ if isinstance(getattr(mftb, name), type)}
        kinds = {name for name in kinds if issubclass(getattr(mftb, name), mftb.MftbError)}
        self.assertEqual(kinds - named - {"MftbError", "Refused", "ZonesRefused"}, set())
        self.assertEqual(named - kinds, set())

    @unittest.skipUnless(importlib.util.find_spec("pandas"), "pandas is not there")
    @unittest.skipUnless(has_info(), "tools/unproved has made no build yet")
    def test_its_code_runs(self):
        place = self.folder / "ais"
        shutil.copytree(FEEDS / "ais-us", place)
        self.addCleanup(os.chdir, os.getcwd())
        os.chdir(place)
        found = {}
        with contextlib.redirect_stdout(io.StringIO()) as printed, warnings.catch_warnings():
            warnings.simplefilter("ignore")
            with mock.patch.dict(os.environ, MFTB_PROGRAM=str(BUILT)):
                for code in re.findall(r"```python\n(.*?)```", PAGE, flags=re.S):
                    exec(code, found)
        ships = found["ships"]["feature"].tolist()
        self.assertEqual(ships, ["200000001", "200000002", "200000003"])
        self.assertIn(f"three rows: {ships[0]}, {ships[1]} and {ships[2]}.", " ".join(PAGE.split()))
        answer = (place / "answer.txt").read_text().split("ok ")
        self.assertEqual(len(found["legs"]), int(answer[4].split()[0]))
        self.assertEqual(printed.getvalue().split()[0], "3")
