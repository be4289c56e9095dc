"""Zones of the library: the forms that name them, and that a rectangle as a polygon answers as the rectangle."""
import csv
import importlib.util
import json
import shutil
import subprocess
import unittest
import warnings
from dataclasses import replace
from fractions import Fraction

import mftb
from common import BUILT, ROOT, Case, folder_of, has_info, has_zones
from mftb import zones, zones_from

FERRIES = ROOT / "python" / "notebooks" / "ferries.csv"
DAY = ("2024-10-26T22:00:00Z", "2024-10-27T23:00:00Z")
SOUTH, NORTH = (0, 0, 20, 20), (0, 80, 20, 100)
RING = [[0, 80], [20, 80], [20, 100], [0, 100], [0, 80]]
WKT = "POLYGON ((0 80, 20 80, 20 100, 0 100, 0 80))"
POLYGON = {"type": "Polygon", "coordinates": [RING]}
FEATURE = {"type": "Feature", "properties": {"Name": "north"}, "geometry": POLYGON}
GATE = "LINESTRING (0 69, 20 69)"


class Geometry:
    """What says of itself what shapely's geometries say."""

    __geo_interface__ = POLYGON


class Forms(Case):
    def shapes(self, given):
        return dict(zones.asked(given).shapes)

    def test_each_form_is_the_same_polygon(self):
        for given in WKT, POLYGON, FEATURE, Geometry():
            self.assertEqual(self.shapes(given), {"": WKT})
            self.assertEqual(self.shapes({"north": given}), {"north": WKT})
        collection = {"type": "FeatureCollection", "features": [FEATURE]}
        self.assertEqual(self.shapes(collection), {"north": WKT})
        path = self.folder / self.write("north.geojson", json.dumps(collection))
        for given in path, str(path):
            self.assertEqual(self.shapes(given), {"north": WKT})
        self.assertEqual(self.shapes(NORTH), {"": ("0", "80", "20", "100")})
        self.assertEqual(zones.wkt_of(self.shapes(NORTH)[""]), WKT)

    def test_a_file_is_given_as_it_is(self):
        path = self.folder / self.write("zones.csv", f'name,wkt\nnorth,"{WKT}"\n')
        found = zones.asked(path)
        self.assertEqual((found.path, found.names()), (str(path), ["north"]))
        with found.words(["--legs"], DAY) as words:
            self.assertEqual(words, ("zones", ["--legs"], [str(path), *DAY]))
        copy = shutil.copy(path, self.folder / "zones (1).csv")
        self.assertEqual(zones.asked(str(copy)).names(), ["north"])

    def test_numbers_of_geojson_stay_texts(self):
        text = '{"type": "Polygon", "coordinates": [[[0.10, 80], [2e1, 80], [123456789012345678901.5, 1], [0.10, 80]]]}'
        found = self.shapes(self.folder / self.write("a.geojson", '{"type": "FeatureCollection", "features": ['
                            '{"type": "Feature", "properties": {"name": 7}, "geometry": ' + text + "}]}"))  # fmt: skip
        self.assertEqual(found, {"7": "POLYGON ((0.10 80, 20 80, 123456789012345678901.5 1, 0.10 80))"})

    def test_what_is_no_zone(self):
        point = {"type": "Point", "coordinates": [1, 2]}
        nameless = {"type": "FeatureCollection", "features": [FEATURE | {"properties": None}]}
        for given, why in [
            (point, "Point is no Polygon"),
            ({"a": point}, "Point is no Polygon"),
            ({"a": "POINT (1 2)"}, "is no WKT"),
            ("POINT (1 2)", "is no WKT"),
            ({"type": "Polygon"}, "has no coordinates"),
            (nameless, "feature 1 has no property 'name'"),
            ({"type": "FeatureCollection", "features": [FEATURE, FEATURE]}, "feature 2: 'north' stands a second time"),
            ({}, "there is no zone"),
            ((1, 2, 3), "a rectangle is"),
        ]:
            with self.assertRaisesRegex(ValueError, why):
                zones.asked(given)
        for text in "{}", "[]", "{", json.dumps(nameless):
            with self.assertRaises(mftb.ZonesRefused):
                zones.asked(self.folder / self.write("a.geojson", text))
        with self.assertRaises(mftb.FileUnreadable):
            zones.asked("none.geojson")


def without_edges(records):
    """The records without the edges that are met: only a rectangle's have names."""
    return [replace(it, edge_in="", edge_out="") if hasattr(it, "edge_in") else it for it in records]


@unittest.skipUnless(has_info(), "tools/unproved has made no build yet")
@unittest.skipUnless(has_zones(), "this program has no zones")
class Answers(Case):
    @classmethod
    def setUpClass(cls):
        folder = folder_of(cls)
        cls.store = mftb.Store(folder / "store", program=BUILT)
        cls.store.load(FERRIES)
        cls.fleet = mftb.Fleet.new(folder / "fleet", 3, program=BUILT)
        cls.fleet.load(FERRIES)

    def test_a_rectangle_as_a_polygon_answers_as_the_rectangle(self):
        for ask in (
            self.store.visits, self.store.moments, self.store.dwell, self.fleet.visits, self.fleet.dwell
        ):  # fmt: skip
            self.assertEqual(without_edges(ask(WKT, DAY)), without_edges(ask(NORTH, DAY)))
            named = ask({"south": SOUTH, "north": NORTH}, DAY)
            mixed = ask({"south": SOUTH, "north": POLYGON}, DAY)
            self.assertEqual(without_edges(mixed), without_edges(named))
            self.assertEqual({it.zone for it in named}, {"south", "north"})
        for predicate in "ever", "always", "enters", "leaves", "crosses", "bypasses":
            rectangle = list(self.store.features(predicate, NORTH, DAY))
            self.assertEqual(list(self.store.features(predicate, WKT, DAY)), rectangle)
            named = [it.feature for it in self.store.features(predicate, {"north": NORTH}, DAY)]
            self.assertEqual(named, [it.feature for it in rectangle])
            fleet = [it.feature for it in self.fleet.features(predicate, {"north": NORTH}, DAY)]
            self.assertEqual(fleet, sorted(named))

    def test_a_gate_says_the_sides(self):
        found = [(it.feature, it.from_side, it.to_side) for it in self.store.visits(GATE, DAY)]
        sides = ("right", "left"), ("left", "right"), ("right", "left"), ("right", "right")
        self.assertEqual(found, [(name, *side) for name, side in zip(("Aurora", "Bente", "Castor", "Doris"), sides)])

    def test_spans_have_the_zones_of_a_file(self):
        path = self.folder / self.write(
            "zones.csv", f'name,wkt\nnorth,"{WKT}"\nfar,"POLYGON((900 0,901 0,901 1,900 0))"\n'
        )
        with self.assertWarnsRegex(mftb.MftbWarning, "^far: "):
            found = self.store.visits(path, DAY).by("day", tz="Europe/Berlin")
        self.assertEqual([(it.zone, it.features) for it in found], [("north", 6), ("far", 0)])
        dwells = self.store.dwell({"north": WKT}, DAY).by("day", tz="Europe/Berlin")
        self.assertEqual([it.feature for it in dwells if it.is_whole], ["Gull"])

    def test_a_page_shows_zones(self):
        file = self.store.page(self.folder / "map.html", zones={"north": WKT}, rectangles={"south": SOUTH})
        self.assertGreater(len(self.read("map.html")), len(self.read(self.store.page(self.folder / "bare.html"))))
        self.assertRaisesRegex(ValueError, "polygons are zones=", self.store.page, file, rectangles={"north": WKT})

    def test_a_zone_beside_all_legs_is_warned_of(self):
        with self.assertWarnsRegex(mftb.MftbWarning, "does not meet") as warned:
            self.store.visits({"far": (900, 900, 901, 901)}, DAY)
        self.assertEqual(warned.filename, __file__)
        with warnings.catch_warnings():
            warnings.simplefilter("error")
            self.fleet.visits({"far": (900, 900, 901, 901)}, DAY)

    def test_a_file_that_is_refused(self):
        path = self.folder / self.write("zones.csv", f'name,wkt\nnorth,"{WKT}"\nfar,"POLYGON((900 0))"\n')
        for book in self.store, self.fleet:
            with self.assertRaises(mftb.ZonesRefused) as raised:
                book.visits(path, DAY)
            self.assertEqual((raised.exception.code, raised.exception.place), ("Z6", 3))
            self.assertRaises(mftb.FileUnreadable, book.visits, "none.csv", DAY)

    @unittest.skipUnless(importlib.util.find_spec("geopandas"), "geopandas is not there")
    def test_frames(self):
        import geopandas
        from shapely.geometry import shape

        frame = geopandas.GeoDataFrame({"name": ["north"]}, geometry=[shape(POLYGON)])
        # A polygon's record names no edge.
        wanted = [replace(visit, edge_in="", edge_out="") for visit in self.store.visits({"north": NORTH}, DAY)]
        self.assertEqual(list(self.store.visits(frame, DAY)), wanted)
        self.assertEqual(list(self.store.visits({"north": shape(POLYGON)}, DAY)), wanted)
        found = self.store.visits(frame, DAY).to_geopandas()
        self.assertEqual((set(found["zone"]), len(found)), ({"north"}, len(wanted)))
        features = self.store.features("always", frame, DAY).to_pandas()
        self.assertEqual(features.to_dict("list"), {"zone": ["north", "north"], "feature": ["Fram", "Gull"]})
        self.assertEqual(list(self.store.visits(WKT, DAY).to_pandas())[0], "feature")


class ZonesFrom(Case):
    def test_geojson(self):
        third = json.loads(json.dumps(FEATURE).replace("80]", "80.50, 7]"))
        features = {"type": "FeatureCollection", "features": [FEATURE, third | {"properties": {"name": "a, b"}}]}
        self.write("a.geojson", json.dumps(features))
        self.assertEqual(self.ends("zones_from", "a.geojson", "-o", "zones.csv"), "zones_from: 2 zones\n")
        rows = list(csv.DictReader(self.read("zones.csv").splitlines()))
        self.assertEqual(rows[0], {"name": "north", "wkt": WKT})
        self.assertEqual(rows[1]["name"], "a, b")
        self.assertTrue(rows[1]["wkt"].startswith("POLYGON ((0 80.5"), rows[1])

    def test_a_circle(self):
        words = ["--circle", "10", "-20.5", "0.5", "4", "--name", "berth"]
        wanted = 'name,wkt\nberth,"POLYGON ((10.5 -20.5, 10 -20, 9.5 -20.5, 10 -21, 10.5 -20.5))"\n'
        self.assertEqual(self.made("zones_from", *words), wanted)
        (ring,) = zones.zonefiles.shape(
            "a", self.made("zones_from", "--circle", "0", "0", "1", "360").split('"')[1]
        ).rings
        lengths = [Fraction(x, 10**7) ** 2 + Fraction(y, 10**7) ** 2 for x, y in zip(ring[::2], ring[1::2])]
        self.assertLess(max(abs(1 - it) for it in lengths), Fraction(1, 10**6))

    def test_refusals(self):
        short = FEATURE | {"geometry": {"type": "Polygon", "coordinates": [RING[:2]]}}
        self.write("short.geojson", json.dumps(short))
        self.write("text.geojson", "no json")
        for words, why in [
            (["short.geojson"], "short.geojson: zone 1, 'north': Z6: a ring is not closed, or too short"),
            (["text.geojson"], "text.geojson: Expecting value"),
            (["none.geojson"], "cannot use none.geojson: No such file"),
            (["short.geojson", "--property", "id"], "feature 1 has no property 'id'"),
            (["--circle", "1", "2", "x", "9"], "'x' is no plain decimal"),
            (["--circle", "1", "2", "3", "2"], "'2' is no number of corners"),
        ]:
            self.assertIn(why, self.ends("zones_from", *words, "-o", "zones.csv", status=1))
        self.assertFalse((self.folder / "zones.csv").exists())
        self.assertIn("either a FILE is wanted, or --circle", self.ends("zones_from", status=2))

    @unittest.skipUnless(shutil.which("ogr2ogr"), "ogr2ogr (gdal-bin) is not there")
    def test_the_files_of_ogr2ogr_are_read(self):
        self.write("a.geojson", json.dumps({"type": "FeatureCollection", "features": [FEATURE]}))
        for name in "a.shp", "b.geojson":
            subprocess.run(["ogr2ogr", name, "a.geojson"], cwd=self.folder, check=True, capture_output=True)
        self.ends("zones_from", "b.geojson", "-o", "b.csv")
        (zone,) = zones.zonefiles.read(str(self.folder / "b.csv"))
        self.assertEqual((zone.name, len(zone.rings[0])), ("north", 10))
        if importlib.util.find_spec("geopandas"):
            found = zones_from.by_geopandas(str(self.folder / "a.shp"), "name")
            self.assertEqual((list(found), len(found["north"].split(","))), (["north"], 5))


if __name__ == "__main__":
    unittest.main()
