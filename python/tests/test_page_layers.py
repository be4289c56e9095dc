"""What lies over the tracks of a page: zones, answers, moments."""

import io

from common import ROOT, Case

from mftb import zonefiles
from mftb.page import layers, reading
from mftb.page.data import Legs
from mftb.page.layers import Span, Wanted
from mftb.texts import Refused

HEAD = (
    "ok 4\n"
    "@stboundedby,harbour-grid-metres,2D,0 0,0 0,2024-06-03T08:50:00Z,2024-06-03T09:10:00Z,sec\n"
    "@columns,mfidref,trajectory,kind,xsd:token\n"
)
LEGS = HEAD + "Ekko,720,750,-78.9 -28.5 -35.5 38,yacht\nDelfin,870,900,8 -104.5 8 0,pilot\n"
# Ekko is on the line from -60.3 0 to 60.3 0 at 3/7 of its leg.
MOMENTS = (
    "feature,enters,leaves,enters_at,leaves_at,x_in,y_in,x_out,y_out,enters_by,leaves_by\n"
    "Ekko,5130000/7,5130000/7,2024-06-03T09:02:12.857142Z,2024-06-03T09:02:12.857143Z,-60.3,0,-60.3,0,edge,edge\n"
    "Delfin,900000/1,900000/1,2024-06-03T09:05:00.000000Z,2024-06-03T09:05:00.000000Z,8,0,8,0,edge,leg\n"
)
SQUARE = "((0 0,1 0,1 1,0 1,0 0))"


def store(text: str = LEGS) -> Legs:
    found = reading.answered(io.StringIO(text), "store", None)
    assert found
    return found


class Answers(Case):
    def layers(self, text: str, *wanted: object) -> list[layers.Layer]:
        return layers.read(str(self.folder / self.write("answer.txt", text)), store(), Wanted(*wanted))

    def test_legs_and_features(self) -> None:
        text = "ok 1\n2,2\nok 1\nEkko\nrefused Q5\nok 1\nDelfin,870,900,8 -104.5 8 0,pilot\n"
        features, legs = self.layers(text)
        self.assertEqual((features.kind, features.title), ("features", "question 2: 1 feature"))
        self.assertEqual(features.spans, [(0, 720_000, 750_000)])
        self.assertEqual((legs.kind, legs.title), ("legs", "question 4: 1 leg"))
        self.assertEqual(legs.spans, [(1, 870_000, 900_000)])

    def test_the_words_of_a_script(self) -> None:
        line = "legs ever -60.3 0 60.3 0 2024-06-03T09:00:00Z 2024-06-03T09:05:00Z"
        script = str(self.folder / self.write("script", f"# asked\n{line}\n"))
        (layer,) = self.layers("ok 1\nEkko,720,750,-78.9 -28.5 -35.5 38,yacht\n", script)
        self.assertEqual(layer.title, "legs ever: 1 leg")
        self.assertEqual(layer.note, "-60.3 0 60.3 0\n2024-06-03T09:00:00Z to 09:05:00Z")
        self.assertEqual(layer.box, [-60.3, 0, 60.3, 0])

    def test_one_question(self) -> None:
        text = "ok 1\nEkko\nok 1\nDelfin\n"
        (layer,) = self.layers(text, None, 2)
        self.assertEqual(layer.spans[0].feature, 1)
        with self.assertRaisesRegex(Refused, "there is no answer 3; there are 2"):
            self.layers(text, None, 3)

    def test_all_answers_of_the_examples_are_of_their_legs(self) -> None:
        (layer,) = self.layers("ok 1\nEkko\n")
        self.assertEqual(len(layer.spans), 1)
        text = (ROOT / "examples" / "harbour" / "answer.txt").read_text()
        with self.assertRaisesRegex(Refused, r"answer 3 record 1: the store has no feature 'Aurora' \(see --period\)"):
            self.layers(text)

    def test_spans_that_follow_one_another_are_drawn_as_one(self) -> None:
        spans = [Span(0, 0, 10), Span(1, 5, 6), Span(0, 10, 20), Span(0, 21, 30), Span(1, 6, 6)]
        self.assertEqual(layers.merged(spans), [(0, 0, 20), (1, 5, 6), (0, 21, 30)])

    def test_what_is_no_answer_is_named(self) -> None:
        with self.assertRaisesRegex(Refused, "answer.txt line 1: no answer of mftb run or mftb moments"):
            self.layers("hello\n")
        with self.assertRaisesRegex(Refused, "answer.txt: no answer has legs or features to show"):
            self.layers("ok 1\n2,2\n")
        with self.assertRaisesRegex(Refused, r"answer.txt answer 1 record 1: the store has no such leg"):
            self.layers("ok 1\nEkko,721,750,-78.9 -28.5 -35.5 38,yacht\n")


class Moments(Case):
    def layer(self, text: str) -> layers.Layer:
        return layers.moments(io.StringIO(text), "moments.csv", "moments.csv", store())

    def test_a_crossing_is_exact(self) -> None:
        layer = self.layer(MOMENTS)
        self.assertEqual(layer.title, "moments.csv: 2 legs")
        ekko, delfin = layer.rings
        self.assertEqual(ekko[:4], (0, 5_130_000 / 7, -603_000_000, 0))
        self.assertEqual((ekko.exact, ekko.at), ("5130000/7", "2024-06-03T09:02:12.857142Z"))
        self.assertEqual((ekko.way, delfin.way), ("meets", "meets"))

    def test_only_ends_on_an_edge_have_rings(self) -> None:
        row = "Ekko,720000/1,5130000/7,2024,2024,-78.9,-28.5,-60.3,0,leg,edge\n"
        (ring,) = self.layer(MOMENTS.splitlines(keepends=True)[0] + row).rings
        self.assertEqual((ring.way, ring.x, ring.exact), ("leaves", -603_000_000, "5130000/7"))

    def test_visits_do_not_say_what_ends_them(self) -> None:
        text = "feature,enters,leaves,enters_at,leaves_at,x_in,y_in,x_out,y_out,legs\nEkko,720000/1,750000/1,a,b,1,2,3,4,1\n"
        layer = self.layer(text)
        self.assertEqual([ring.way for ring in layer.rings], ["visit begins", "visit ends"])
        self.assertEqual(layer.title, "moments.csv: 1 visit")

    def test_zones_have_names(self) -> None:
        text = (
            MOMENTS.replace("feature,", "zone,feature,", 1)
            .replace("\nEkko", "\nport,Ekko")
            .replace("\nDelfin", "\nport,Delfin")
        )
        self.assertEqual({ring.zone for ring in self.layer(text).rings}, {"port"})
        path = str(self.folder / self.write("visits.csv", text))
        self.assertEqual(layers.read(path, store(), Wanted())[0].kind, "moments")

    def test_what_is_no_moment_is_named(self) -> None:
        with self.assertRaisesRegex(Refused, "moments.csv line 2: not what mftb moments prints"):
            self.layer(MOMENTS.replace("5130000/7", "5130000/0"))
        with self.assertRaisesRegex(Refused, "moments.csv line 3: the store has no feature 'Iris'"):
            self.layer(MOMENTS.replace("Delfin", "Iris"))


class Zones(Case):
    def zones(self, text: str | bytes) -> list[zonefiles.Zone]:
        path = self.folder / "zones.csv"
        path.write_bytes(text if isinstance(text, bytes) else text.encode())
        return zonefiles.read(str(path))

    def refused(self, text: str | bytes, place: int, code: str) -> None:
        with self.assertRaisesRegex(Refused, f"zones.csv record {place}: {code}: "):
            self.zones(text)

    def test_the_three_kinds(self) -> None:
        text = (
            "id,WKT,name\n"
            f'1,"POLYGON {SQUARE}",port\n'
            f'2,"multipolygon ({SQUARE}, ((5 5,6 5,6 6,5 5),(5.5 5.2,5.6 5.2,5.6 5.3,5.5 5.2)))",two\n'
            '3,"LINESTRING(0 0,\t1.00000005 -2)",gate\n'
        )
        port, two, gate = self.zones(text)
        self.assertEqual((port.name, port.kind, len(port.rings)), ("port", "polygon", 1))
        self.assertEqual(port.rings[0][:4], [0, 0, 10_000_000, 0])
        self.assertEqual([len(ring) for ring in two.rings], [10, 8, 8])
        self.assertEqual((gate.kind, gate.rings), ("line", [[0, 0, 10_000_001, -20_000_000]]))

    def test_each_refusal(self) -> None:
        head = "name,wkt\n"
        polygon = f'"POLYGON{SQUARE}"'
        self.refused(head.encode() + b'a\xff,"POINT (1 1)"\n', 2, "Z1")
        self.refused("name,geometry\n", 1, "Z2")
        self.refused("", 1, "Z2")
        self.refused(f"{head} ,{polygon}\n", 2, "Z3")
        self.refused(f"{head}{'a' * 256},{polygon}\n", 2, "Z3")
        self.refused(f"{head}a,{polygon}\na,{polygon}\n", 3, "Z3")
        for wkt in (
            "",
            "POINT (1 1)",
            f"POLYGON({SQUARE})",
            "POLYGON((0 0,1 0,1 1,0 0)",
            "POLYGON((0 0,,1 0,1 1,0 0))",
        ):
            self.refused(f'{head}a,"{wkt}"\n', 2, "Z4")
        self.refused(f'{head}a,"POLYGON((0 0,1e0 0,1 1,0 0))"\n', 2, "Z5")
        self.refused(f'{head}a,"POLYGON((0 0,100000000.00000005 0,1 1,0 0))"\n', 2, "Z5")
        self.refused(f'{head}a,"POLYGON((0 0,1 0,1 1,0 1))"\n', 2, "Z6")
        self.refused(f'{head}a,"POLYGON((0 0,1 0,0 0))"\n', 2, "Z6")
        self.refused(f'{head}a,"LINESTRING(0 0)"\n', 2, "Z6")
        self.refused(f"{head}a,POLYGON EMPTY\n", 2, "Z7")
        self.refused(f'{head}a,"POLYGON Z ((0 0 1,1 0 1,1 1 1,0 0 1))"\n', 2, "Z7")
        self.refused(f'{head}a,"POLYGON((0 0 1,1 0 1,1 1 1,0 0 1))"\n', 2, "Z7")

    def test_many_corners_are_read_at_once(self) -> None:
        corners = ",".join(f"{number} {number % 7}.1234567" for number in range(100_000))
        (zone,) = self.zones(f'name,wkt\ncoast,"POLYGON(({corners},0 0.1234567))"\n')
        self.assertEqual(len(zone.rings[0]), 200_002)
