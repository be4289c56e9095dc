"""The command that writes a page: its words, its errors, and a page of a store."""

import json
import re
import subprocess
import unittest
import zlib
from base64 import b64decode
from pathlib import Path

from common import BUILT, ROOT, Case, has_info, run

ANSWER = ROOT / "examples" / "harbour" / "answer.txt"
HARBOUR = ROOT / "examples" / "harbour"
# What stands for the program: it prints the answer to `write` of a store with one leg.
PROGRAM = """#!/bin/sh
printf 'ok 3\\n@stboundedby,local,2D,0 0,1 1,2024-06-03T08:50:00Z,2024-06-03T08:50:10Z,sec\\n'
printf '@columns,mfidref,trajectory,kind,xsd:token\\n%s\\n' '"</script><b>",0,10,0 0 1 1,"a<!--b"'
"""


def block(text: str, name: str) -> bytes:
    """The bytes of a block of a page."""
    found = re.search(f'<script type="text/plain" id="data-{name}">([^<]*)</script>', text)
    assert found
    return zlib.decompress(b64decode(found[1]))


class Words(Case):
    def setUp(self) -> None:
        super().setUp()
        self.program = self.folder / self.write("program", PROGRAM)
        self.program.chmod(0o755)

    def says(self, *words: object) -> str:
        """What the command says of what is wrong; no page is written."""
        said = self.ends("page", "store", "-o", "map.html", "--program", str(self.program), *map(str, words), status=2)
        self.assertFalse(Path(self.folder, "map.html").exists())
        return said

    def test_wrong_words_are_named(self) -> None:
        self.write("rects.csv", "name,x1,y1,x2,y2\na,0,0,1,1\nb,1,0,0,1\n")
        wrong = [
            (["--rect", "a=1,2,3"], "argument --rect: 'a=1,2,3' is not NAME=X1,Y1,X2,Y2"),
            (["--rect", "a=1,2,x,4"], "argument --rect: 'x' is no plain decimal"),
            (["--rect", "a=1,2,0,4"], "argument --rect: X1 is above X2, or Y1 above Y2"),
            (["--rects", "rects.csv"], "page: rects.csv record 3: X1 is above X2, or Y1 above Y2"),
            (["--box", "1", "5", "2", "4"], "argument --box: X1 is above X2, or Y1 above Y2"),
            (["--period", "noon", "midnight"], "argument --period: 'noon' is no instant"),
            (["--period", "2024-06-04", "2024-06-03"], "argument --period: T1 is after T2"),
            (["--question", "2"], "--question and --script take --answers"),
        ]
        for words, said in wrong:
            with self.subTest(words):
                self.assertIn(said, self.says(*words))

    def test_what_is_not_there_is_named(self) -> None:
        self.assertIn("page: cannot use none.csv: No such file", self.says("--zones", "none.csv"))
        self.assertIn("page: there is no column 'colour'", self.says("--label", "colour"))
        self.assertIn("page: there is no program nothing", self.says("--program", "nothing"))
        self.assertIn("page: store: there is no leg from 2025-01-01", self.says("--period", "2025-01-01", "2025-01-02"))

    def test_bad_files_are_named_with_their_place(self) -> None:
        self.write("zones.csv", 'name,wkt\na,"POINT (1 1)"\n')
        self.assertIn("page: zones.csv record 2: Z4: the wkt is no POLYGON", self.says("--zones", "zones.csv"))
        self.assertIn("answer 3 record 1: the store has no feature 'Aurora'", self.says("--answers", ANSWER))

    def test_a_store_that_answers_nothing(self) -> None:
        self.program.write_text("#!/bin/sh\necho refused Q10\n")
        self.assertIn("page: store: there is no leg in this store", self.says())
        self.program.write_text("#!/bin/sh\nexit 2\n")
        self.assertIn("page: store: mftb run ended with status 2", self.says())

    def test_texts_of_a_store_do_not_end_the_data(self) -> None:
        self.ends("page", "store", "-o", "map.html", "--program", str(self.program), "--title", "</title><i>")
        text = self.read("map.html")
        self.assertIn("<title>&lt;/title&gt;&lt;i&gt;</title>", text)
        head = json.loads(block(text, "head"))
        self.assertEqual(head["names"], ["</script><b>"])
        self.assertEqual(json.loads(block(text, "values")), [["a<!--b"]])
        self.assertNotIn("<b>", text)

    def test_the_page_names_no_other_file(self) -> None:
        self.ends("page", "store", "-o", "map.html", "--program", str(self.program))
        text = self.read("map.html")
        self.assertEqual(re.findall(r"https?://|\bimport\b|\bfetch\(|<link|src=", text), [])
        self.assertIn("default-src 'none'", text)


@unittest.skipUnless(has_info(), "tools/unproved has made no build yet")
class Stores(Case):
    def test_the_harbour(self) -> None:
        words = [BUILT, "run", "-q", self.folder / "store", "script.txt", "harbour.csv"]
        subprocess.run(words, cwd=HARBOUR, check=True, stdout=subprocess.DEVNULL)
        words = ["--rect", "mouth=-60.3,0,60.3,0", "--answers", str(ANSWER), "--script", str(HARBOUR / "script.txt")]
        said = self.ends("page", "store", "-o", "map.html", "--program", str(BUILT), *words)
        self.assertIn("page: map.html: 405 legs of 12 features", said)
        head = json.loads(block(self.read("map.html"), "head"))
        titles = [layer["title"] for layer in head["layers"]]
        self.assertEqual(titles[:2], ["features crosses: 4 features", "legs ever: 7 legs"])
        self.assertTrue(titles[-1].startswith("inside mouth: "))
        # Ekko is on the line at 5130000/7 ms after 08:50, as the example's page says.
        ekko = head["names"].index("Ekko")
        rings = [ring for ring in head["layers"][-1]["rings"] if ring[0] == ekko]
        self.assertEqual([ring[2:6] for ring in rings], [[-603000000, 0, "5130000/7", "2024-06-03T09:02:12.857142Z"]])

    def test_a_store_that_is_not_there(self) -> None:
        self.assertEqual(run("page", "none", "-o", "m", "--program", str(BUILT), folder=self.folder).returncode, 2)
