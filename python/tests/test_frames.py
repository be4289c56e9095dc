"""Answers as frames of pandas and geopandas, and frames as files of legs, where these packages are there.

The program is a stand-in that prints what is written for it, so that what a frame has to hold stands beside it.
"""
import importlib.util
import io
import json
import random
import sys
import time
import unittest
import warnings
from contextlib import redirect_stderr
from fractions import Fraction
from pathlib import Path

import common
import mftb
from common import BUILT, Case, StandIn, has_info

HAS_PANDAS, HAS_GEOPANDAS = (importlib.util.find_spec(name) is not None for name in ("pandas", "geopandas"))
if not HAS_PANDAS:
    print("test_frames: pandas (python3-pandas) is not there: no frame is made", file=sys.stderr)
elif not HAS_GEOPANDAS:
    print("test_frames: geopandas (python3-geopandas) is not there: no geometry is made", file=sys.stderr)
STAND_IN = '#!/bin/sh\ncase "$2" in --visits | --dwell | --columns) cat {0}/"$1$2" ;; *) cat {0}/"$1" ;; esac\n'
COLUMNS = [("kind", "xsd:token"), ("draught", "xsd:decimal"), ("in port", "xsd:boolean"), ("feature", "xsd:integer")]
INFO = common.INFO | {"columns": [{"name": name, "type": kind} for name, kind in COLUMNS]}
LEGS = """Castor,-0.5,30,-4.6 -183.4 -4.4 28.3,tug,3.1,true,7
Bente III,30,60.001,0.1 0.2 0.3 -0.0000001,ferry,,true,8
Castor,31,90,1 2 3 4,tug,2,false,9
"""
PERIOD = "2024-06-03T08:50:00Z", "2024-06-03T09:10:00Z"
BOX = (0, 0, 1, 1)
MOMENTS = """feature,enters,leaves,enters_at,leaves_at,x_in,y_in,x_out,y_out,enters_by,leaves_by
Castor,1000/3,500/1,2024-06-03T08:50:00.333333Z,2024-06-03T08:50:00.500000Z,1.5,2,3,4,edge,leg
"""
VISITS = """feature,enters,leaves,enters_at,leaves_at,x_in,y_in,x_out,y_out,enters_by,leaves_by,legs
Castor,1000/3,500/1,2024-06-03T08:50:00.333333Z,2024-06-03T08:50:00.500000Z,1.5,2,3,4,edge,leg,12
"""


class Frames(StandIn):
    def setUp(self):
        super().setUp()
        self.store = self.stand_in(STAND_IN, INFO)

    def legs(self, records):
        self.write("run", f"ok {len(records.splitlines())}\n{records}")
        return self.store.legs("ever", BOX, PERIOD)


@unittest.skipUnless(HAS_PANDAS, "pandas is not there")
class Legs(Frames):
    def test_columns_have_the_types_of_the_store(self):
        for records in LEGS, LEGS.replace("Bente III", '"Bente, III"'), LEGS.replace("Bente III", "Bente"):
            with self.subTest(records):
                found = self.legs(records).to_pandas()
                names = ["feature", "begin", "end", "x0", "y0", "x1", "y1", "kind", "draught", "in port", "feature_"]
                self.assertEqual(list(found), names)
                self.assertEqual(found["feature"][1], records.splitlines()[1].rpartition(",30,")[0].strip('"'))
                self.assertEqual([it.isoformat() for it in found["end"]][1], "2024-06-03T08:51:00.001000+00:00")
                self.assertEqual(str(found["begin"].dt.tz), "UTC")
                self.assertEqual(found["begin"][0].isoformat(), "2024-06-03T08:49:59.500000+00:00")
                places = found[["x0", "y0", "x1", "y1"]].to_numpy().tolist()
                self.assertEqual(places[:2], [[-4.6, -183.4, -4.4, 28.3], [0.1, 0.2, 0.3, -1e-7]])
                self.assertEqual(found["in port"].tolist(), [True, True, False])
                self.assertEqual((found["draught"][0], found["draught"].isna().tolist()), (3.1, [False, True, False]))
                self.assertEqual(found["feature_"].tolist(), [7, 8, 9])

    def test_a_value_that_is_of_another_type_leaves_the_column_as_text(self):
        found = self.legs(LEGS.replace(",3.1,", ",deep,")).to_pandas()
        self.assertEqual(found["draught"].tolist(), ["deep", "", "2"])

    def test_frames_and_records_are_the_same(self):
        random.seed(46)
        lines = []
        for number in range(500):
            places = " ".join(
                f"{random.randint(-10**15, 10**15) / 10**7:.7f}".rstrip("0").rstrip(".") for _ in range(4)
            )
            lines.append(f"ship {number},{number / 8},{number + 0.125},{places},a b,1,true,{number}\n")
        answer = self.legs("".join(lines))
        found = answer.to_pandas()
        for leg, row in zip(answer, found.itertuples(index=False)):
            self.assertEqual((leg.feature, leg.begin, leg.end), tuple(row[:3]))
            self.assertEqual(leg.start + leg.finish, tuple(row[3:7]))

    def test_no_legs(self):
        found = self.legs("").to_pandas()
        self.assertEqual(
            (len(found), found["x0"].dtype.kind, str(found["begin"].dtype)), (0, "f", "datetime64[ns, UTC]")
        )

    def test_several_answers_of_one_run(self):
        self.write("run", f'ok 3\n{LEGS}ok 1\n5,2\nok 2\nCastor\n"Bente, III"\nok 3\n{LEGS}')
        with self.store.batch() as batch:
            one, count = batch.legs("ever", BOX, PERIOD), batch.count()
            names, two = batch.features("ever", BOX, PERIOD), batch.box(BOX, PERIOD)
        self.assertTrue(one.to_pandas().equals(two.to_pandas()))
        self.assertEqual(count.to_pandas().to_dict("records"), [{"legs": "5", "features": "2"}])
        self.assertEqual(names.to_pandas()["feature"].tolist(), ["Castor", "Bente, III"])

    def test_moments_before_and_after_those_of_pandas(self):
        self.write("info", json.dumps(INFO | {"start": "1066-10-14T09:00:00.000Z"}))
        found = self.legs(LEGS).to_pandas()
        self.assertEqual(found["begin"][1].isoformat(), "1066-10-14T09:00:30+00:00")

    def test_a_quarter_of_a_million_legs(self):
        rows = (f"ship {leg % 1000},{leg // 1000 * 60}.{leg % 1000:03},{leg // 1000 * 60 + 60},-70.{leg:06} 43.{leg:06} "
                f"-70.{leg + 1:06} 43.{leg:06},under way,{leg % 97},true,{leg}\n" for leg in range(250_000))  # fmt: skip
        answer = self.legs("".join(rows))
        began, worked = time.monotonic(), time.process_time()
        found = answer.to_pandas()
        seconds = time.process_time() - worked
        print(
            f"a frame of 250,000 legs: {time.monotonic() - began:.1f} s, {seconds:.1f} s of a processor",
            file=sys.stderr,
        )
        self.assertEqual((len(found), found["x1"][249999], found["feature_"].sum()), (250_000, -70.25, 31249875000))
        # A million take under 3 s on a processor of their own.
        self.assertLess(seconds, 3)


@unittest.skipUnless(HAS_PANDAS, "pandas is not there")
class Moments(Frames):
    def test_stays(self):
        self.write("moments", MOMENTS)
        found = self.store.moments(BOX, PERIOD).to_pandas()
        self.assertNotIn("enters", found)
        self.assertEqual(found["enters_at"][0].isoformat(), "2024-06-03T08:50:00.333333+00:00")
        self.assertEqual((found["x_in"][0], found["enters_by"][0]), (1.5, "edge"))
        found = self.store.moments(BOX, PERIOD).to_pandas(exact=True)
        self.assertEqual(found["enters"][0], Fraction(1717404600) + Fraction(1, 3))

    def test_attributes_of_stays(self):
        """They have the types of the store; a column of a name that is there gets another one."""
        names, record = MOMENTS.splitlines()
        text = f'{names},kind,draught,in port,feature\n{record},"tug, old",3.5,true,7\n{record},,,true,8\n'
        self.write("moments--columns", text)
        found = self.store.moments(BOX, PERIOD, attributes=True).to_pandas()
        self.assertEqual(list(found)[-4:], ["kind", "draught", "in port", "feature_"])
        self.assertEqual(found["kind"].tolist(), ["tug, old", ""])
        self.assertEqual((found["draught"][0], found["draught"].isna().tolist()), (3.5, [False, True]))
        self.assertEqual((found["in port"].tolist(), found["feature_"].tolist()), ([True, True], [7, 8]))
        self.assertEqual(found["feature"].tolist(), ["Castor", "Castor"])
        self.write("moments--columns", text.replace("3.5", "deep"))
        found = self.store.moments(BOX, PERIOD, attributes=True).to_pandas()
        self.assertEqual(found["draught"].tolist(), ["deep", ""])

    def test_visits_and_dwells(self):
        self.write("moments--visits", VISITS)
        self.write("moments", MOMENTS)
        found = self.store.visits(BOX, PERIOD).to_pandas()
        self.assertEqual((found["legs"].sum(), found["enters_by"][0]), (12, "edge"))
        self.write("moments--dwell", "feature,visits,least,most\nCastor,2,0.1,0.100002\n")
        found = self.store.dwell(BOX, PERIOD).to_pandas()
        self.assertEqual((found["visits"][0], found["most"][0]), (2, 0.100002))


@unittest.skipUnless(HAS_GEOPANDAS, "geopandas is not there")
class Geometries(Frames):
    def test_lines_of_legs(self):
        found = self.legs(LEGS).to_geopandas()
        self.assertEqual(found.geometry[0].wkt, "LINESTRING (-4.6 -183.4, -4.4 28.3)")
        self.assertTrue(found.crs.is_geographic)
        self.write("info", json.dumps(INFO | {"crs": "harbour-grid-metres"}))
        self.assertIsNone(self.legs(LEGS).to_geopandas().crs)

    def test_stays_and_visits(self):
        self.write("moments", MOMENTS)
        self.assertEqual(self.store.moments(BOX, PERIOD).to_geopandas().geometry[0].wkt, "LINESTRING (1.5 2, 3 4)")
        self.write("moments--visits", VISITS)
        self.assertEqual(self.store.visits(BOX, PERIOD).to_geopandas().geometry[0].wkt, "POINT (1.5 2)")

    def test_what_has_no_place(self):
        self.write("run", "ok 1\nCastor\n")
        self.assertRaisesRegex(TypeError, "no places", self.store.features("ever", BOX, PERIOD).to_geopandas)


# Of b the second instant is repeated, and its third position is too late for a leg.
POSITIONS = {
    "mmsi": [2, 1, 1, 2, 2, 2, 1],
    "t": ["09:00:00", "09:00:10", "09:00:00.250", "09:10:00", "09:10:00", "10:30:00", "09:00:20"],
    "lon": [10, 0.5, 1e-7, 11, 99, 12, float("nan")],
    "lat": [50, 1, -0.25, 51, 9, 52, 0],
    "name": ["b", "a, x", "a", "b", "b", "b", "a"],
    "draught": [1.5, 2, float("nan"), 3, 4, 5, 6],
}
WANTED = """@stboundedby,urn:ogc:def:crs:OGC:1.3:CRS84,2D,0.0000001 -0.2500000,12.0000000 52.0000000,2024-06-03T09:00:00Z,\
2024-06-03T09:10:00Z,sec
@columns,mfidref,trajectory,name,xsd:string,draught,xsd:decimal
2,0.0,600.0,10.0000000 50.0000000 11.0000000 51.0000000,b,1.5
1,0.25,10.0,0.0000001 -0.2500000 0.5000000 1.0000000,a,
"""


@unittest.skipUnless(HAS_PANDAS, "pandas is not there")
class Positions(Case):
    def frame(self):
        import pandas

        found = pandas.DataFrame(POSITIONS)
        return found.assign(t=pandas.to_datetime("2024-06-03T" + found.t))

    def made(self, frame, **words):
        """The file of the legs of a frame."""
        from mftb import positions

        with positions.legs_file(frame, **words) as path:
            return Path(path).read_text()

    def test_legs_of_positions(self):
        words = {"feature": "mmsi", "time": "t", "x": "lon", "y": "lat", "attributes": ["name", "draught"]}
        with warnings.catch_warnings(record=True) as said:
            warnings.simplefilter("always")
            self.assertEqual(self.made(self.frame(), tz="UTC", **words), WANTED)
        wanted = ["left out: 1 row without a feature, a moment or a place", "left out: 1 row with a repeated instant"]
        self.assertEqual([str(it.message) for it in said], wanted)
        with warnings.catch_warnings():
            warnings.simplefilter("ignore")
            self.assertIn(",2024-06-03T07:00:00Z,", self.made(self.frame(), tz="Europe/Berlin", **words))

    def test_what_is_no_frame_of_positions(self):
        words = {"feature": "mmsi", "time": "t", "x": "lon", "y": "lat"}
        for frame, more, said in [
            (self.frame(), {}, "t has no zone"),
            (self.frame().assign(t=1717404600), {}, "t has numbers"),
            (self.frame(), {"x": "long"}, "no column 'long'"),
            (self.frame(), {"x": None}, "x and y are wanted"),
            (self.frame().assign(lat=100), {"tz": "UTC"}, "no longitude and latitude"),
            (self.frame(), {"tz": "UTC", "gap": "1s"}, "no leg"),
        ]:
            with self.subTest(said), warnings.catch_warnings():
                warnings.simplefilter("ignore")
                self.assertRaisesRegex(ValueError, said, self.made, frame, **(words | more))

    def test_no_leg_goes_over_the_date_line_but_in_a_plane(self):
        frame = self.frame().iloc[[0, 3]].assign(lon=[179, -179])
        words = {"feature": "mmsi", "time": "t", "x": "lon", "y": "lat", "tz": "UTC"}
        self.assertRaises(ValueError, self.made, frame, **words)
        self.assertIn("metres,2D,-179.0000000 50.0000000,", self.made(frame, crs="metres", **words))

    @unittest.skipUnless(HAS_GEOPANDAS, "geopandas is not there")
    def test_points_of_a_geometry(self):
        import geopandas

        frame = self.frame().iloc[[0, 3]]
        frame = geopandas.GeoDataFrame(frame, geometry=geopandas.points_from_xy(frame.lon, frame.lat), crs="EPSG:4326")
        text = self.made(frame, feature="mmsi", time="t", tz="UTC")
        self.assertIn("EPSG:4326,2D,", text)
        self.assertIn("\n2,0.0,600.0,10.0000000 50.0000000 11.0000000 51.0000000\n", text)

    @unittest.skipUnless(has_info(), "tools/unproved has made no build yet")
    def test_a_frame_is_loaded_and_asked(self):
        store = mftb.Store(self.folder / "store", program=BUILT)
        with warnings.catch_warnings(), redirect_stderr(io.StringIO()):
            warnings.simplefilter("ignore")
            loaded = store.load_frame(self.frame(), feature="mmsi", time="t", x="lon", y="lat", tz="UTC")
        self.assertEqual((loaded.records, loaded.legs, loaded.features), (2, 2, 2))
        found = store.trajectory("1").to_pandas()
        self.assertEqual(found[["x0", "y0", "x1", "y1"]].to_numpy().tolist(), [[1e-7, -0.25, 0.5, 1]])


if __name__ == "__main__":
    unittest.main()
