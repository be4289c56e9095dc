"""A page in a headless Chromium: drawn, moved, played, clicked; by keys, light and dark."""

import shutil
import tempfile
import unittest
from pathlib import Path

import page_examples
from page_browser import Browser, chromium

WIDE, HIGH = 1200, 760
# How many pixels of the map have a colour that is near #rrggbb.
COLOURED = """(() => {{
  const map = document.getElementById("map");
  const {{ data }} = map.getContext("2d").getImageData(0, 0, map.width, map.height);
  const wanted = {wanted};
  let count = 0;
  for (let at = 0; at < data.length; at += 4) {{
    if (wanted.every((it, place) => Math.abs(data[at + place] - it) < 12)) count++;
  }}
  return count;
}})()"""
# The colours of svg.py for light: of tracks, and of Aurora, the first feature of the first answer.
GREY, BLUE = (0x9A, 0xA2, 0xAA), (0x1F, 0x6F, 0xB4)


@unittest.skipUnless(chromium(), "there is no Chromium (Debian's package chromium)")
class Pages(unittest.TestCase):
    @classmethod
    def setUpClass(cls) -> None:
        cls.folder = Path(tempfile.mkdtemp())
        cls.addClassCleanup(shutil.rmtree, cls.folder)
        cls.harbour = page_examples.written(page_examples.harbour(), cls.folder / "harbour.html")
        cls.browser = Browser(WIDE, HIGH)
        cls.addClassCleanup(cls.browser.close)

    def setUp(self) -> None:
        self.browser.size(WIDE, HIGH)
        self.browser.prefer("light")
        self.browser.open(self.harbour)
        self.browser.painted()

    def tearDown(self) -> None:
        self.assertEqual(self.browser.faults(), [])
        self.assertEqual(self.browser.fetched(), [])

    def ask(self, expression: str) -> object:
        return self.browser.ask(expression)

    def coloured(self, colour: tuple[int, int, int]) -> int:
        self.browser.painted()
        return self.browser.ask(COLOURED.format(wanted=list(colour)))

    def pixel(self, x: float, y: float) -> list[float]:
        """The pixel of the window at which a place is."""
        script = f"""(() => {{ const box = document.getElementById("map").getBoundingClientRect();
            const [x, y] = mftbPage.view.pixelOf({x} * 1e7, {y} * 1e7); return [box.left + x, box.top + y]; }})()"""
        return self.browser.ask(script)

    def details(self) -> str:
        self.browser.wait("""document.querySelectorAll("#details dl").length > 1""")
        return self.browser.ask("""document.getElementById("details").innerText""")

    # Drawn

    def test_it_is_drawn(self) -> None:
        self.assertGreater(self.coloured(GREY), 500)
        self.assertGreater(self.coloured(BLUE), 200)
        self.assertEqual(self.ask("[mftbPage.tracks.legs, mftbPage.tracks.features]"), [405, 12])
        self.assertEqual(self.ask("document.title"), "Harbour <mouth> & sea")
        about = self.ask("document.getElementById('about').textContent")
        self.assertIn("2024-06-03T08:50:00Z to 2024-06-03T09:10:00Z", str(about))

    def test_positions_are_exact_in_the_page(self) -> None:
        script = """(() => { const { tracks, head } = mftbPage; const feature = head.names.indexOf("Ekko");
            const leg = tracks.legAtMoment(tracks.stripAtMoment(feature, 732857), 732857);
            return [0, 1].flatMap((it) => [tracks.times[leg + it], tracks.x[leg + it], tracks.y[leg + it]]); })()"""
        # Ekko,720,750,-78.9 -28.5 -35.5 38 is a record of answer.txt.
        self.assertEqual(self.ask(script), [720000, -789000000, -285000000, 750000, -355000000, 380000000])

    def test_tracks_are_hidden_and_shown(self) -> None:
        before = self.coloured(GREY)
        self.ask("document.querySelector('#layers input').click()")
        self.assertLess(self.coloured(GREY), before / 10)
        self.ask("document.querySelector('#layers input').click()")
        self.assertEqual(self.coloured(GREY), before)

    # Moved

    def test_it_pans_by_dragging(self) -> None:
        before = self.ask("[mftbPage.view.x, mftbPage.view.y, mftbPage.view.up]")
        self.browser.drag(400, 300, 120, -60)
        x, y, up = self.ask("[mftbPage.view.x, mftbPage.view.y, mftbPage.view.up]")
        self.assertAlmostEqual((before[0] - x) * up, 120, places=3)
        self.assertAlmostEqual((before[1] - y) * up, 60, places=3)
        self.assertTrue(self.ask("mftbPage.selected === null"))

    def test_the_wheel_zooms_at_the_pointer(self) -> None:
        place = "mftbPage.view.placeOf([400, 300 - document.getElementById('map').getBoundingClientRect().top])"
        before, up = self.ask(place), self.ask("mftbPage.view.up")
        self.browser.mouse("mouseWheel", 400, 300, deltaX=0, deltaY=-200)
        self.browser.wait(f"mftbPage.view.up > {up} * 1.2")
        after = self.ask(place)
        for one, two in zip(before, after):
            self.assertAlmostEqual(one, two, delta=10)

    def test_buttons_zoom(self) -> None:
        up = self.ask("mftbPage.view.up")
        self.ask("document.getElementById('zoom-in').click()")
        self.assertAlmostEqual(self.ask("mftbPage.view.up"), up * 1.6)
        self.ask("document.getElementById('fit-all').click()")
        self.assertLess(self.ask("mftbPage.view.up"), up)
        # All that there is: from Aurora in the south to the harbour's end.
        self.assertEqual(self.ask("mftbPage.view.meets(mftbPage.tracks.boxOf(0, mftbPage.tracks.strips))"), True)
        self.ask("document.getElementById('fit-start').click()")
        self.assertAlmostEqual(self.ask("mftbPage.view.up"), up)

    def test_two_fingers_zoom(self) -> None:
        self.browser.call("Emulation.setTouchEmulationEnabled", enabled=True, maxTouchPoints=2)
        self.addCleanup(self.browser.call, "Emulation.setTouchEmulationEnabled", enabled=False)
        up = self.ask("mftbPage.view.up")
        touch = [[{"x": 300, "y": 300, "id": 1}, {"x": 400, "y": 300, "id": 2}]]
        touch += [[{"x": 300 - 10 * it, "y": 300, "id": 1}, {"x": 400 + 10 * it, "y": 300, "id": 2}] for it in (2, 5)]
        for place, points in enumerate(touch):
            kind = "touchMove" if place else "touchStart"
            self.browser.call("Input.dispatchTouchEvent", type=kind, touchPoints=points)
        self.browser.call("Input.dispatchTouchEvent", type="touchEnd", touchPoints=[])
        self.assertAlmostEqual(self.ask("mftbPage.view.up") / up, 2, places=2)

    # Played

    def test_it_plays_and_tracks_grow(self) -> None:
        self.ask("mftbPage.fly(mftbPage.tracks.boxOf(0, mftbPage.tracks.strips))")
        self.ask("mftbPage.setNow(mftbPage.tracks.first + 60000)")
        before = self.coloured(GREY)
        self.ask("document.getElementById('play').click()")
        self.assertTrue(self.ask("mftbPage.isPlaying"))
        slider = "Number(document.getElementById('slider').value)"
        start = self.ask(slider)
        self.browser.wait(f"{slider} > {start} + 20000")
        self.ask("document.getElementById('play').click()")
        self.assertFalse(self.ask("mftbPage.isPlaying"))
        self.assertGreater(self.coloured(GREY), before * 1.2)

    def test_it_plays_to_the_end_and_stops(self) -> None:
        self.ask("mftbPage.speed = 100000; mftbPage.play(true)")
        self.browser.wait("!mftbPage.isPlaying")
        self.assertEqual(self.ask("mftbPage.now"), self.ask("mftbPage.tracks.last"))

    def test_the_slider_sets_the_moment(self) -> None:
        self.ask(
            """(() => { const slider = document.getElementById("slider");
            slider.value = 50000; slider.dispatchEvent(new Event("input")); })()"""
        )
        # Half way from 08:50 to 09:10.
        self.assertEqual(self.ask("document.getElementById('clock').title"), "2024-06-03T09:00:00Z")

    # Clicked

    def test_a_click_on_a_crossing(self) -> None:
        self.browser.click(*self.pixel(-60.3, 0))
        said = self.details()
        for words in (
            "Ekko",
            "5130000/7 ms",
            "after 2024-06-03T08:50:00Z",
            "2024-06-03T09:02:12.857142Z",
            "-60.3",
            "yacht",
        ):
            self.assertIn(words, said)
        # The leg from which it crosses.
        self.assertIn("2024-06-03T09:02:00Z", said)
        self.assertIn("-78.9, -28.5", said)

    def test_a_click_on_a_leg(self) -> None:
        # Aurora's leg from 720 to 750 goes from -4.6 -183.4 to -4.4 28.3; at 09:02:15 it is half way.
        self.ask(
            "mftbPage.setNow(mftbPage.tracks.first + 750000); mftbPage.zoom(3, mftbPage.view.pixelOf(-45e6, -775.5e6))"
        )
        self.browser.click(*self.pixel(-4.5, -77.55))
        said = self.details()
        for words in (
            "Aurora",
            "2024-06-03T09:02:00Z",
            "2024-06-03T09:02:30Z",
            "ferry",
            "5.2",
            "-4.6, -183.4",
            "2024-06-03T09:02:15",
        ):
            self.assertIn(words, said)
        self.ask("[...document.querySelectorAll('.steps button')].at(-1).click()")
        self.browser.wait("document.getElementById('details').innerText.includes('2024-06-03T09:03:00Z')")

    def test_a_click_on_nothing_closes_the_details(self) -> None:
        self.browser.click(*self.pixel(-60.3, 0))
        self.assertFalse(self.ask("document.getElementById('details').hidden"))
        self.browser.click(*self.pixel(90, 60))
        self.assertTrue(self.ask("document.getElementById('details').hidden"))

    def test_a_leg_that_has_not_come_is_not_hit(self) -> None:
        self.ask("mftbPage.setNow(mftbPage.tracks.first)")
        self.browser.click(*self.pixel(-60.3, 0))
        self.assertTrue(self.ask("mftbPage.selected === null"))

    def test_crossings_and_features_are_lists(self) -> None:
        self.ask("document.querySelector('#crossings button').click()")
        self.assertIn("5130000/7 ms", self.details())
        find = "document.getElementById('find')"
        self.ask(f"{find}.value = 'hil'; {find}.dispatchEvent(new Event('input'))")
        self.assertEqual(self.ask("document.getElementById('found').innerText"), "Hilda")
        self.ask("document.querySelector('#found button').click()")
        self.assertIn("Hilda", str(self.ask("document.getElementById('details').innerText")))

    # Keys and colours

    def test_keys(self) -> None:
        self.ask("document.getElementById('map').focus()")
        x, up = self.ask("[mftbPage.view.x, mftbPage.view.up]")
        self.browser.key("ArrowRight")
        self.assertAlmostEqual((self.ask("mftbPage.view.x") - x) * up, 60, places=3)
        self.browser.key("+", "+")
        self.assertAlmostEqual(self.ask("mftbPage.view.up"), up * 1.6)
        self.ask("Object.assign(mftbPage.view, { x: -603e6, y: 0 })")
        self.browser.key("Enter")
        self.assertIn("5130000/7 ms", self.details())
        self.browser.key("Escape")
        self.assertTrue(self.ask("mftbPage.selected === null"))
        self.browser.key(",", ",")
        # A two hundredth of twenty minutes is six seconds.
        self.assertEqual(self.ask("document.getElementById('clock').title"), "2024-06-03T09:09:54Z")
        self.ask("mftbPage.speed = 1")
        self.browser.key(" ", " ")
        self.assertTrue(self.ask("mftbPage.isPlaying"))
        self.browser.key(" ", " ")
        self.assertFalse(self.ask("mftbPage.isPlaying"))

    def test_each_control_has_a_name(self) -> None:
        tree = self.browser.call("Accessibility.getFullAXTree")["nodes"]
        controls = {"button", "checkbox", "slider", "combobox", "searchbox"}
        bare = [
            it for it in tree if it.get("role", {}).get("value") in controls and not it.get("name", {}).get("value")
        ]
        self.assertEqual(bare, [])

    def test_light_and_dark(self) -> None:
        theme = "document.documentElement.dataset.theme"
        corner = """[...document.getElementById("map").getContext("2d").getImageData(300, 3, 1, 1).data].slice(0, 3)"""
        self.assertEqual(self.ask(theme), "light")
        self.browser.prefer("dark")
        self.browser.painted()
        self.assertEqual(self.ask(theme), "dark")
        self.assertLess(max(self.ask(corner)), 80)
        self.ask("document.getElementById('theme').click()")
        self.browser.painted()
        self.assertEqual(self.ask(theme), "light")
        self.assertGreater(min(self.ask(corner)), 200)

    def test_a_narrow_window(self) -> None:
        self.browser.size(390, 800, 2)
        self.browser.painted()
        self.assertEqual(self.ask("document.documentElement.scrollWidth"), 390)
        self.assertGreater(self.coloured(BLUE), 100)

    # Many legs

    def test_many_legs_are_ink_that_grows(self) -> None:
        path = page_examples.written(page_examples.many(400, 100), self.folder / "many.html")
        self.browser.open(path)
        self.browser.painted()
        self.assertTrue(self.ask("mftbPage.painter.isInk"))
        amounts = "mftbPage.painter.ink.amounts.reduce((one, two) => one + two, 0)"
        whole = self.ask(amounts)
        # Half of the time in steps, and at once: the ink is the same.
        middle = "mftbPage.tracks.first + mftbPage.timeline.span / 2"
        self.ask(
            "for (let step = 0; step <= 50; step++) { mftbPage.setNow(mftbPage.tracks.first + mftbPage.timeline.span * step / 100); mftbPage.paint(); }"
        )
        grown = self.ask(amounts)
        self.ask(f"mftbPage.painter.ink.key = ''; mftbPage.setNow({middle}); mftbPage.paint()")
        self.assertEqual(self.ask(amounts), grown)
        self.assertGreater(whole, 1.5 * grown)
        self.assertLess(whole, 2.5 * grown)
