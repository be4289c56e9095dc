"""Zones and rectangles that have names, in a picture."""
import unittest

from test_draw import SVG, Drawn

RECTS = "name,x1,y1,x2,y2\nyard,0,0,1,1\nline,0,1.5,2,1.5\n"
ZONES = 'name,wkt\n"a, <b>","POLYGON((0 0,2 0,2 2,0 2,0 0),(0.5 0.5,1 0.5,1 1,0.5 0.5))"\ngate,"LINESTRING(0 0,2 1)"\n'


class Zones(Drawn):
    def setUp(self):
        super().setUp()
        self.write("a", self.H.format("2D", "sec") + "x,0,10,0 0 1 1 2 1,q\n")

    def outlines(self, whole):
        """The names of what is outlined, and how many rings each has."""
        found = {}
        for path in whole.iter(SVG + "path"):
            if path.get("class") in ("zone", "gate"):
                found[path.find(SVG + "title").text] = (
                    path.get("class"),
                    path.get("d").count("M"),
                    path.get("d").count("Z"),
                )
        return found

    def test_each_is_outlined_and_named(self):
        self.write("rects.csv", RECTS)
        self.write("zones.csv", ZONES)
        whole, _ = self.draw("a", "--rects", "rects.csv", "--zones", "zones.csv", "--rect", "own=1,0,2,2")
        wanted = {"own": 1, "yard": 1, "line": 0, "a, <b>": 2, "gate": 0}
        found = self.outlines(whole)
        self.assertEqual({name: closed for name, (_, _, closed) in found.items()}, wanted)
        self.assertEqual([found[name][0] for name in ("line", "gate", "yard")], ["gate", "gate", "zone"])
        for name in wanted:
            self.assertIn(name, self.texts(whole))
        self.assertIn("zones", self.texts(whole))

    def test_what_is_asked_for_is_seen(self):
        """A zone far off the legs widens the picture."""
        near, _ = self.draw("a")
        far, _ = self.draw("a", "--rect", "far=90,90,91,91")
        self.assertEqual(self.outlines(near), {})
        self.assertIn("far", self.texts(far))
        self.assertIn("zones", self.texts(far))
        self.assertNotIn(".zone{", near.find(SVG + "style").text)
        # With a view of one's own it does not.
        shown, _ = self.draw("a", "--rect", "far=90,90,91,91", "--view", "0", "0", "1", "1")
        self.assertNotIn("far", self.texts(shown))

    def test_refusals(self):
        for text, why in [
            ("name,x1,y1,x2\n", "record 1: there are no columns"),
            ("name,x1,y1,x2,y2\na,0,0,1\n", "record 2: "),
            ("name,x1,y1,x2,y2\na,1,0,0,1\n", "record 2: X1 is above X2"),
        ]:
            self.write("rects.csv", text)
            self.assertIn(why, self.ends("draw", "a", "--rects", "rects.csv", "-o", "c", status=1))
        self.write("zones.csv", 'name,wkt\na,"POINT(1 1)"\n')
        self.assertIn("record 2: Z4", self.ends("draw", "a", "--zones", "zones.csv", "-o", "c", status=1))
        self.write("zones.csv", '{"type": "FeatureCollection", "features": []}')
        said = self.ends("draw", "a", "--zones", "zones.csv", "-o", "c", status=1)
        self.assertIn("Z2: there is no column name or wkt (tools/zones_from makes a file of zones of GeoJSON)", said)
        self.ends("draw", "a", "--rect", "b=1,2,3", "-o", "c", status=2)


if __name__ == "__main__":
    unittest.main()
