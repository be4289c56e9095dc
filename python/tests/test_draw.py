"""Pictures, as parsed SVG, and one as pixels."""
import importlib.util
import math
import os
import re
import shutil
import struct
import subprocess
import sys
import unittest
import zlib
from collections import Counter
from pathlib import Path
from xml.etree import ElementTree

from common import BUILT, CRS, Case, has_info, measure, run

SVG = "{http://www.w3.org/2000/svg}"
LINE = re.compile(r"^(M[-0-9. ]+([LHVhv][-0-9. ]+|Z)+)+$")


def ends_of(paths):
    """The least and the greatest x of paths of lines to the right, absolute or relative."""
    found = []
    for sign, words in re.findall("([MLHhl])([-0-9. ]+)", " ".join(paths)):
        number = float(words.split()[0])
        found.append(number if sign in "MLH" else found[-1] + number)
    return min(found), max(found)


class Drawn(Case):
    H = (
        "@stboundedby,local,{},0 0,1 1,2020-01-01T00:00:00+01:00,2020-01-02T00:00:00Z,{}\n"
        "@columns,mfidref,trajectory,kind\n"
    )

    def parsed(self, name):
        """A picture, none of whose paths is without a line."""
        whole = ElementTree.parse(self.folder / name).getroot()
        for path in whole.iter(SVG + "path"):
            self.assertRegex(path.get("d"), LINE)
        return whole

    def draw(self, *words):
        """A picture, and the features that are coloured in it, with the classes of their paths."""
        self.ends("draw", *words, "-o", "c")
        whole = self.parsed("c")
        own = {}
        for group in whole.iter(SVG + "g"):
            name = group.find(SVG + "title")
            if name is not None:
                own[name.text] = [path.get("class") for path in group.iter(SVG + "path")]
        return whole, own

    def texts(self, whole):
        return [it.text for it in whole.iter(SVG + "text")]


class Pictures(Drawn):
    def drawn(self, text, answer, *words):
        """The texts and the classes of a picture, which is well-formed."""
        self.write("a", text)
        self.write("b", answer)
        self.made("draw", "a", "--answer", "b", *words, "-o", "c")
        whole = self.parsed("c")
        texts = [it.text for it in whole.iter(SVG + "text")]
        return texts, [it.get("class") for it in whole.iter()]

    def test_names_a_rectangle_and_a_period(self):
        text = self.H.format("2D", "sec") + 'x,0,10,0 0 1 1 2 1,q\n"a, <b>",0,20,0 0 2 2,r\n'
        answer = 'ok 1\n2,3,2\nok 1\n3\nok 1\nx\nrefused Q5\nok 1\n"a, <b>",0,20,0 0 2 2,r\n'
        texts, classes = self.drawn(text, answer, "--box", "0", "0", "1", "1")
        self.assertEqual(texts.count("a, <b>"), 2)
        self.assertNotIn("x", texts)
        self.assertIn("the rectangle asked for", texts)
        self.assertIn("0.2 in units of local", texts)
        self.assertIn("Legs of the files: 2019-12-31 23:00:00 to 23:00:20 UTC", texts)
        self.assertEqual(classes.count("box"), 2)
        self.assertIn("r", self.drawn(text, answer, "--label", "kind")[0])

    def test_flat_rectangles_and_standing_legs(self):
        text = self.H.format("2D", "sec") + "x,0,10,5 5,q\n"
        _, classes = self.drawn(text, "ok 1\nx,0,10,5 5 5 5,q\n", "--box", "0", "0", "10", "0")
        self.assertEqual((classes.count("flat"), classes.count("box")), (2, 0))
        self.assertIn("flat", self.drawn(text, "ok 0\n", "--box", "5", "5", "5", "5")[1])

    def test_crossings_are_rings_with_their_times(self):
        text = self.H.format("2D", "sec") + "x,0,10,0 5 10 5,q\ny,0,10,5 0 5 10,q\n"
        answer = "ok 2\nx,0,10,0 5 10 5,q\ny,0,10,5 0 5 10,q\n"
        names = "feature,enters,leaves,enters_at,leaves_at,x_in,y_in,x_out,y_out,enters_by,leaves_by\n"
        day = "2019-12-31T23:00:0{}.000000Z"
        ends = day.format(4), day.format(6)
        rows = (
            f"x,4000,6000,{ends[0]},{ends[1]},4,5,6,5,edge,edge\ny,0,6000,{day.format(0)},{ends[1]},5,0,5,6,leg,edge\n"
        )
        self.write("m", names + rows)
        texts, classes = self.drawn(text, answer, "--moments", "m", "--box", "4", "4", "6", "6")
        self.assertEqual(classes.count("cross"), 3)
        touch = f"x,4000,4000,{ends[0]},{ends[0]},4,5,4,5,edge,edge\n"
        self.write("m", names + touch)
        self.assertEqual(self.drawn(text, answer, "--moments", "m", "--box", "4", "4", "6", "6")[1].count("cross"), 1)
        self.assertEqual(texts.count("23:00:06.000000"), 2)
        self.assertEqual(texts.count("23:00:04.000000"), 1)
        self.write("m", "feature,enters\nx,4\n")
        words = "a", "--answer", "b", "--moments", "m", "-o", "c"
        self.assertIn("m line 2: not what mftb moments prints", self.ends("draw", *words, status=1))

    def test_three_dimensions_and_other_units(self):
        text = self.H.format("3D", "minute") + "x,0,1.5,0 0 5 4 4 9,q\n"
        texts, _ = self.drawn(text, "ok 1\nx,0,90,0 0 5 4 4 9,q\n")
        self.assertIn("Legs of the files: 2019-12-31 23:00:00 to 23:01:30 UTC", texts)
        self.assertIn("Legs in colour: 2019-12-31 23:00:00 to 23:01:30 UTC", texts)
        text = self.H.format("2d", "Absolute") + "x,2020-01-01T00:00:00Z,2020-01-01T00:00:01Z,0 0 4 4,q\n"
        self.assertIn("Legs of the files: 2020-01-01 00:00:00 to 00:00:01 UTC", self.drawn(text, "")[0])

    def test_features_of_an_answer_are_coloured(self):
        self.write(
            "a",
            self.H.format("2D", "sec")
            + "".join(
                f"{name},{10 * step},{10 * step + 10},{step} {y} {step + 1} {y},q{name}\n"
                for step in range(3)
                for y, name in enumerate("xyz")
            ),
        )
        self.write("b", "ok 1\n9,9,3\nok 1\n9,3\nok 2\nz\nx\n")
        whole, own = self.draw("a", "--answer", "b", "--box", "0", "0", "3", "2")
        self.assertEqual(own, {"z": ["ink"], "x": ["ink"]})
        self.assertEqual(len(whole.findall(f".//{SVG}path[@class='leg']")), 2)
        whole, own = self.draw("a", "--answer", "b", "--label", "kind")
        self.assertEqual(list(own), ["qz", "qx"])
        self.write("b", "ok 1\nz\nok 1\ny,0,10,0 1 1 1,qy\n")
        _, own = self.draw("a", "--answer", "b", "--whole")
        self.assertEqual(own, {"y": ["hit", "start", "head"]})

    def test_nothing_vanishes(self):
        for more in 0, 30_000:
            self.write(
                "a",
                self.H.format("2D", "sec")
                + "".join(
                    f"f{spot},0,10,{spot % 30} {spot // 30} {spot % 30}.0001 {spot // 30},q\n" for spot in range(900)
                )
                + "m,0,10,5 5 5 5.01,q\n" * more,
            )
            whole, _ = self.draw("a", "--view", "-1", "-1", "31", "31")
            ways = "".join(it.get("d") for it in whole.findall(f".//{SVG}path[@class='leg']")[:1])
            found = {(int(float(x) // 20), int(float(y) // 20)) for x, y in re.findall(r"M([0-9.]+) ([0-9.]+)", ways)}
            self.assertEqual(len(found), 900)

    def test_degrees_are_as_wide_as_on_the_earth(self):
        head = self.H.replace("local", CRS).format("2D", "sec")
        self.write("a", head + "x,0,10,10 59.5 11 60.5,q\n")
        whole, _ = self.draw("a", "--box", "10", "59.5", "11", "60.5")
        box = next(it for it in whole.iter(SVG + "rect") if it.get("class") == "box")
        wide, high = float(box.get("width")), float(box.get("height"))
        self.assertAlmostEqual(wide / high, 0.5, 2)
        bar = whole.find(f".//{SVG}path[@class='scale']").get("d")
        pixels = float(re.search("h([0-9.]+)v", bar)[1])
        texts = [it.text for it in whole.iter(SVG + "text")]
        self.assertIn("20 km", texts)
        self.assertIn("longitude and latitude in degrees (OGC:1.3:CRS84)", texts)
        # A degree of latitude is 111.2 km.
        self.assertAlmostEqual(pixels / high, 20 / 111.2, 2)
        whole, _ = self.draw("a", "--units", "nautical")
        self.assertIn("10 nmi", [it.text for it in whole.iter(SVG + "text")])

    def test_a_view_that_is_said(self):
        self.write("a", self.H.format("2D", "sec") + "x,0,10,0 0 90 90,q\n")
        whole, _ = self.draw("a", "--view", "0", "0", "10", "10", "--box", "0", "0", "5", "5")
        box = next(it for it in whole.iter(SVG + "rect") if it.get("class") == "box")
        self.assertEqual([box.get(it) for it in ("x", "y", "width", "height")], ["0", "320"] + ["320"] * 2)

    def test_one_bad_leg_does_not_set_the_frame(self):
        legs = [f"x,{t},{t + 1},{t % 7} {t % 5} {(t + 1) % 7} {(t + 1) % 5},q\n" for t in range(40)]
        self.write("a", self.H.format("2D", "sec") + "".join(legs) + "x,40,41,5 0 5000 70,q\n")
        for words, least, most in ([], 4, 20), (["--whole"], 4000, 9000):
            whole, _ = self.draw("a", *words)
            marks = [it.text for it in whole.iter(SVG + "text") if it.get("class") == "small middle"]
            self.assertTrue(least < max(map(float, marks)) < most, marks)

    def test_a_question_by_its_number(self):
        self.write("a", self.H.format("2D", "sec") + "x,0,10,0 0 1 1,q\ny,0,10,0 1 1 0,q\n")
        ask = "0 0 1 1 2019-12-31T23:00:00Z 2020-01-02T00:00:00Z"
        self.write("s", f"load a\n# who?\nfeatures ever {ask}\n\nlegs  enters {ask}\nlegs x\n")
        self.write("b", "ok 1\n2,2,2\nok 2\nx\ny\nok 1\ny,0,10,0 1 1 0,q\nrefused Q3\n")
        words = ["a", "--answer", "b", "--script", "s", "--question"]
        for number, title, names in [
            ("2", f"features ever {ask}: 2 features", ["x", "y"]),
            ("3", f"legs enters {ask}: 1 record", ["y"]),
        ]:
            whole, own = self.draw(*words, number)
            self.assertEqual((whole.find(SVG + "title").text, list(own)), (title, names))
            self.assertIn("box", [it.get("class") for it in whole.iter()])
        said = self.ends("draw", *words, "5", "-o", "c", status=1)
        self.assertEqual(said, "draw: there is no answer 5; there are 4\n")

    def test_a_track_is_cut_to_the_period_of_its_question(self):
        # x goes from 0 to 40 in forty seconds, and the question is of the seconds from 12 to 25.
        head = self.H.format("2D", "sec").replace("+01:00", "Z")
        self.write("a", head + "".join(f"x,{at},{at + 10},{at} 0 {at + 10} 0,q\n" for at in range(0, 40, 10)))
        self.write("s", "load a\nfeatures ever 0 -1 40 1 2020-01-01T00:00:12Z 2020-01-01T00:00:25Z\n")
        self.write("b", "ok 1\n4,4,1\nok 1\nx\n")
        words = ["a", "--answer", "b", "--script", "s", "--question", "2", "--view", "0", "-20", "40", "20"]
        # The plot is as wide as 40 units: the ink goes from 12 to 25.
        for more, first, last in [([], 12, 25), (["--whole"], 0, 40)]:
            whole, _ = self.draw(*words, *more)
            paths = [path.get("d") for path in whole.iter(SVG + "path") if path.get("class") == "ink"]
            wide = float(next(whole.iter(SVG + "clipPath")).find(SVG + "rect").get("width"))
            begin, end = ends_of(paths)
            self.assertAlmostEqual(begin / wide * 40, first, delta=0.1)
            self.assertAlmostEqual(end / wide * 40, last, delta=0.1)

    def test_the_base_is_that_of_the_store(self):
        """The store took the second file first; its base is its start, not the first file's."""
        later = self.H.replace("2020-01-01T00:00:00+01:00", "2020-01-01T00:10:00+01:00")
        self.write("a", self.H.format("2D", "sec") + "x,0,10,0 0 1 1,q\n")
        self.write("d", later.format("2D", "sec") + "y,0,20,1 1 2 2 5 3,q\n")
        self.write("b", "ok 2\ny,10,20,2 2 5 3,q\ny,0,10,1 1 2 2,q\n")
        for words, wanted in [
            ([], "2019-12-31 23:10:00 to 23:10:20 UTC"),
            (["--base", "2020-01-02T00:00:00Z"], "2020-01-02 00:00:00 to 00:00:20 UTC"),
        ]:
            whole, _ = self.draw("a", "d", "--answer", "b", *words)
            texts = [it.text for it in whole.iter(SVG + "text")]
            self.assertIn(f"Legs in colour: {wanted}", texts)
        said = self.ends("draw", "a", "--answer", "b", "-o", "c")
        self.assertIn("draw: no leg of the answer is in the files; its times are taken", said)

    def test_a_picture_as_pixels(self):
        self.write(
            "a",
            self.H.format("2D", "sec") + "x,0,10,0 0 9 0,q\ny,0,10,0 5 9 5,q\nz,0,10,0 9 9 9,q\n",
        )
        self.write("b", "ok 2\nx\nz\n")
        if not shutil.which("rsvg-convert"):
            print(
                "rsvg-convert (librsvg2-bin) is not there: no picture is drawn as PNG",
                file=sys.stderr,
            )
            said = self.ends("draw", "a", "-o", "c.png", status=2)
            self.assertIn("c.png takes rsvg-convert (Debian's package librsvg2-bin)", said)
            return
        self.ends("draw", "a", "--answer", "b", "-o", "c.png")
        colours = Counter(pixels(Path(self.folder, "c.png").read_bytes()))
        for colour, is_there in ("1f6fb4", True), ("c55a00", True), ("1b7f3b", False):
            self.assertEqual(colours[bytes.fromhex(colour)] > 500, is_there, colour)

    def test_coastlines(self):
        head = self.H.replace("local", CRS).format("2D", "sec")
        self.write("a", head + "x,0,10,0 0 9 9,q\n")
        if not importlib.util.find_spec("shapefile"):
            print("pyshp (python3-pyshp) is not there: no coastline is drawn", file=sys.stderr)
            said = self.ends("draw", "a", "--coast", "s.shp", "-o", "c", status=1)
            self.assertIn("Debian's python3-pyshp", said)
            return
        import shapefile

        with shapefile.Writer(str(self.folder / "s.shp"), shapeType=shapefile.POLYLINE) as out:
            out.field("name", "C")
            for line in [(-5, 4), (14, 4)], [(50, 50), (60, 60)]:
                out.line([line])
                out.record("x")
        whole, _ = self.draw("a", "--coast", "s.shp", "--view", "0", "0", "9", "9")
        way = whole.find(f".//{SVG}path[@class='coast']").get("d")
        self.assertEqual(way.count("M"), 1)

    def test_other_kinds_of_pictures_are_refused(self):
        self.write("a", self.H.format("2D", "sec") + "x,0,10,0 0 9 0,q\n")
        said = self.ends("draw", "a", "-o", "c.jpg", status=2)
        self.assertIn("c.jpg: pictures are .svg or .png", said)

    def test_features_that_are_not_there(self):
        self.write("a", self.H.format("2D", "sec") + "x,0,10,0 0 9 0,q\n")
        self.write("b", "ok 1\nz\n")
        said = self.ends("draw", "a", "--answer", "b", "-o", "c", status=1)
        self.assertEqual(said, "draw: no feature of the answer is in the files\n")

    def test_a_hundred_thousand_legs(self):
        with open(self.folder / "a", "w") as file:
            file.write(self.H.format("2D", "sec"))
            for step in range(100):
                for ship in range(1000):
                    x, y = ship % 40 + step / 120, ship // 40 + math.sin(step / 9 + ship)
                    file.write(f"s{ship},{step},{step + 1},{x:.4f} {y:.4f} {x + 1 / 120:.4f} {y:.4f},q\n")
        self.write("b", "ok 3\ns7\ns8\ns9\n")
        _, own = self.draw("a", "--answer", "b", "--whole")
        self.assertEqual(list(own), ["s7", "s8", "s9"])
        self.assertLess(os.path.getsize(self.folder / "c"), 1_000_000)
        self.write("b", "ok 1000\n" + "".join(f"s{ship}\n" for ship in range(1000)))
        whole, _ = self.draw("a", "--answer", "b")
        inks = whole.findall(f".//{SVG}path[@class='ink']")
        self.assertEqual(len(inks), 10)
        status, clock, processor, most = measure("draw", "a", "-o", "c", folder=self.folder)
        print(
            f"a picture of 100,000 legs: {processor:.1f} s of a processor, {most:.0f} MB",
            file=sys.stderr,
        )
        self.assertEqual(status, 0)
        self.assertLess(processor, 10)
        self.assertLess(most, 200)

    def test_refusals(self):
        for text, said in [
            (
                self.H.format("2D", "sec") + "x,0,10,0 0 1,q\n",
                "draw: a line 3: no record of the profile",
            ),
            ("x,0,1,0 0\n", "draw: a line 1: no record of the profile"),
            (self.H.format("2D", "sec"), "draw: there is no leg in these files"),
            ("", "draw: a: there is no line @stboundedby"),
        ]:
            with self.subTest(said):
                ended = run("draw", self.write("a", text), "-o", "c", folder=self.folder)
                self.assertEqual((ended.returncode, ended.stderr), (1, said + "\n"))

    def test_rectangles_that_are_none(self):
        for box, said in [("1 0 0 1", "X1 is above X2, or Y1 above Y2"), ("0 0 nan 1", "invalid")]:
            ended = run("draw", "a", "--box", *box.split(), "-o", "c", folder=self.folder)
            self.assertIn(said, ended.stderr)
            self.assertEqual(ended.returncode, 2)

    def test_those_of_the_examples_are_up_to_date(self):
        self.made("pictures", "--check")


class ManyOfAStore(Drawn):
    """Pictures of many legs that a program prints."""

    INFO = (
        '{"crs": "local", "dimension": 2, "start": "2020-01-01T00:00:00.000Z", "columns": [], "legs": 1, '
        '"extent": [0, 0, 90, 90], "first": "2020-01-01T00:00:00.000Z", "last": "2020-01-01T00:00:09.000Z"}'
    )

    def drawn_twice(self, records, *words):
        """The grey path of a picture of records, which is the same from a file and from a store."""
        self.write("answer", f"ok {len(records)}\n{''.join(records)}")
        self.write("program", f"#!/bin/sh\n[ $1 = info ] && exec echo '{self.INFO}'\nexec cat answer\n")
        (self.folder / "program").chmod(0o755)
        self.write("a", self.H.format("2D", "sec") + "".join(records))
        pictures = [self.draw(*source, *words)[0] for source in (["a"], ["--store", "store", "--program", "./program"])]
        one, two = (it.find(f".//{SVG}path[@class='leg']").get("d") for it in pictures)
        self.assertEqual(one, two)
        return one

    def test_no_pixel_vanishes(self):
        legs = []
        for leg in range(120):
            x, y = leg * 7919 % 9001 / 100, leg * 7907 % 8999 / 100
            legs.append((x, y, x + leg * 5 % 13 - 6, y + leg * 7 % 13 - 6))
        # So many that ink is kept by pixel, and a name with a line end.
        records = ["m,0,9,1 1 1.01 1\n"] * 21_000 + ['"a\nb, ""c""",0,9,1 1 1 1\n']
        records += [f"s{leg % 9},0,9,{x:.2f} {y:.2f} {u:.2f} {v:.2f}\n" for leg, (x, y, u, v) in enumerate(legs)]
        found = set()
        way = self.drawn_twice(records, "--view", "0", "0", "90", "90")
        for x, y, wide in re.findall(r"M([0-9]+)\.5 ([0-9]+)\.5h([0-9]+)", way):
            found |= {(int(x) + step, int(y)) for step in range(int(wide) + 1)}
        self.assertLess(os.path.getsize(self.folder / "c"), 100_000)
        scale, near = 640 / 90, set()
        for x, y, u, v in [*legs, (1, 1, 1.01, 1)]:
            for part in range(101):
                right, up = (x + (u - x) * part / 100) * scale, (y + (v - y) * part / 100) * scale
                around = {(int(right) + i, int(640 - up) + j) for i in (-1, 0, 1) for j in (-1, 0, 1)}
                near |= around
                is_seen = 0 < right < 640 and 0 < up < 640
                self.assertTrue(not is_seen or around & found, (x, y, u, v))
        self.assertLessEqual(found, near)


@unittest.skipUnless(has_info(), "tools/unproved has made no build yet")
class FromStore(Drawn):
    """Pictures of a store are those of its files."""

    HERE = [
        'x,0,30,0 0 1 1 2 1 3 0,q\n"a, ""b""",0,20,0 2 3 2,r\nstill,0,9,1 1.5,\n',
        'x,30,40,3 0 4 0,q\n"a, ""b""",20,40,3 2 3 3,s\nfar,0,40,9 9 9 8,t\n',
    ]

    def ask(self, *lines):
        """Writes the answers to lines, over a new store of two files, whose corners are those of their legs."""
        for name, text in zip("ad", self.HERE):
            self.write(name, self.H.replace("1 1", "9 9").format("2D", "sec") + text)
        self.run_script("load a", "load d", *lines)

    def run_script(self, *lines):
        (self.folder / "store").unlink(missing_ok=True)
        self.write("s", "".join(f"{line}\n" for line in lines))
        command = [BUILT, "run", "-q", "store", "s", *(name for name in "ad" if f"load {name}" in lines)]
        self.write("b", subprocess.run(command, cwd=self.folder, capture_output=True, text=True, check=True).stdout)

    def stored(self, *words):
        return self.draw("--store", "store", "--program", BUILT, *words)

    def inks(self, whole):
        """What is drawn of legs, and the values beside the frame."""
        kinds = "leg", "dot", "hit", "start", "head", "ink"
        paths = [(it.get("class"), it.get("d")) for it in whole.iter(SVG + "path") if it.get("class") in kinds]
        return paths, [it.text for it in whole.iter(SVG + "text") if "small" in it.get("class", "")]

    def test_the_ink_is_that_of_the_files(self):
        period = "2019-12-31T23:00:00Z 2019-12-31T23:00:40Z"
        for question, words in [
            (f"legs ever 2.5 0 3 3 {period}", ["--box", "2.5", "0", "3", "3"]),
            (f"legs ever 2.5 0 3 3 {period}", ["--view", "-1", "-1", "10", "10", "--label", "kind"]),
            (f"features ever 2.5 0 3 3 {period}", ["--box", "2.5", "0", "3", "3", "--label", "kind"]),
            (f"features ever 2.5 0 3 3 {period}", []),
            (f"features ever 2.5 0 3 3 {period}", ["--whole"]),
            ("count", []),
        ]:
            with self.subTest(question, words=words):
                self.ask(question)
                one, named = self.draw("a", "d", "--answer", "b", *words)
                two, found = self.stored("--answer", "b", *words)
                self.assertEqual((named, self.inks(one)), (found, self.inks(two)))
                said = [text.replace("files", "store") for text in self.texts(one)[1:]]
                self.assertEqual(self.texts(two), ["store", *said])

    def test_a_period_cuts(self):
        self.ask()
        whole, _ = self.stored("--period", "2019-12-31T23:00:30.001Z", "2019-12-31T23:05:00Z")
        self.assertIn("Legs of the store: 2019-12-31 23:00:30.001 to 23:00:40 UTC", self.texts(whole))
        way = next(it.get("d") for it in whole.iter(SVG + "path") if it.get("class") == "leg")
        self.assertEqual(way.count("M"), 3)
        self.write("b", "ok 2\nx\nstill\n")
        _, own = self.stored("--period", "2019-12-31T23:00:31Z", "2019-12-31T23:05:00Z", "--answer", "b")
        self.assertEqual(own, {"x": ["ink"]})
        words = ["--store", "store", "--program", BUILT, "-o", "c", "--period"]
        said = self.ends("draw", *words, "2021-01-01", "2021-01-02", status=1)
        own = "its legs are from 2019-12-31T23:00:00Z to 2019-12-31T23:00:40Z"
        self.assertEqual(said, f"draw: store: there is no leg in this period; {own}\n")
        self.assertIn("T1 is after T2", self.ends("draw", *words, "2021-01-02", "2021-01-01", status=2))
        said = self.ends("draw", "a", *words, "2021-01-01", "2021-01-02", status=2)
        self.assertIn("--period takes --store, and no FILE", said)

    def test_frame_and_base_are_those_of_the_store(self):
        """The corners of the header lines are not the legs', and the file that was loaded first is the later one."""
        self.write("a", self.H.format("2D", "sec") + "x,0,10,-30 0 70 1,q\n")
        self.write("d", self.H.replace("T00:00:00+", "T00:10:00+").format("2D", "sec") + "y,0,20,1 1 2 2,q\n")
        self.run_script("load d", "load a", "trajectory y")
        whole, _ = self.stored("--answer", "b", "--whole")
        self.assertIn("Legs of the store: 2019-12-31 23:00:00 to 23:10:20 UTC", self.texts(whole))
        self.assertIn("Legs in colour: 2019-12-31 23:10:00 to 23:10:20 UTC", self.texts(whole))
        marks = [float(it.text) for it in whole.iter(SVG + "text") if it.get("class") == "small middle"]
        self.assertEqual((min(marks), max(marks)), (-40, 80))

    def test_refusals(self):
        self.run_script("count")
        words = ["--store", "store", "-o", "c", "--program"]
        said = self.ends("draw", *words, BUILT, status=1)
        self.assertEqual(said, "draw: store: there is no leg in this store\n")
        said = self.ends("draw", "--store", "none", "-o", "c", "--program", BUILT, status=1)
        self.assertEqual(said, "mftb: cannot read none\ndraw: mftb info ended with status 1\n")
        said = self.ends("draw", *words, "/bin/echo", status=1)
        self.assertEqual(said, "draw: /bin/echo does not say what store holds; is it mftb?\n")
        self.assertIn("a FILE is wanted, or --store", self.ends("draw", "-o", "c", status=2))
        self.ask()
        self.write("broken", f'#!/bin/sh\n[ $1 = info ] && exec {BUILT} "$@"\ncat answer\nexit 4\n')
        (self.folder / "broken").chmod(0o755)
        for answer, said in [
            ("ok 2\nx,0,1,0 0 1 1,q\n", "mftb run ended with status 4"),
            ("ok 2\nx,0,1,0 0 1 1,q\nx,1", "mftb run printed what is no leg"),
            ("refused Q5\n", "mftb run printed 'refused Q5', which is no answer"),
        ]:
            self.write("answer", answer)
            self.assertEqual(self.ends("draw", *words, "./broken", status=1), f"draw: {said}\n")
            self.assertFalse((self.folder / "c").exists())


def pixels(data):
    """The colours of the pixels of a PNG of eight bits, without their opacity."""
    wide, high, _, kind = struct.unpack(">IIBB", data[16:26])
    size, place, packed = {2: 3, 6: 4}[kind], 8, b""
    while place < len(data):
        (length,) = struct.unpack(">I", data[place : place + 4])
        if data[place + 4 : place + 8] == b"IDAT":
            packed += data[place + 8 : place + 8 + length]
        place += length + 12
    raw, above = zlib.decompress(packed), bytearray(wide * size)
    for y in range(high):
        start = y * (wide * size + 1)
        row = bytearray(raw[start + 1 : start + 1 + wide * size])
        unfilter(raw[start], row, above, size)
        yield from (bytes(row[x : x + 3]) for x in range(0, wide * size, size))
        above = row


def unfilter(kind, row, above, size):
    """Undoes the filter of a row of a PNG."""
    for k in range(len(row)):
        left, corner = (row[k - size], above[k - size]) if k >= size else (0, 0)
        up = above[k]
        guess = left + up - corner
        near = min((left, up, corner), key=lambda it: abs(guess - it))
        row[k] = row[k] + (0, left, up, (left + up) // 2, near)[kind] & 255
