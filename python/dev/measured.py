"""Measures a frame of a million legs, and a page of them in a headless Chromium: python/dev/measured.py [--legs N]

It prints the seconds and the seconds of a processor of each step, and of the page the frames a second and how long a
frame takes while tracks grow, while the trail is an hour, and while the map pans.
"""

import argparse
import os
import resource
import sys
import tempfile
import time
from collections.abc import Callable
from pathlib import Path
from typing import Any

ROOT = Path(__file__).resolve().parents[2]
sys.path[:0] = [str(ROOT / "python" / part) for part in ("src", "tests")]
sys.dont_write_bytecode = True

import mftb  # noqa: E402
import page_examples  # noqa: E402
from page_browser import Browser, chromium  # noqa: E402

HEAD = "@stboundedby,urn:ogc:def:crs:OGC:1.3:CRS84,2D,,,2024-06-03T00:00:00Z,,sec\n@columns,mfidref,trajectory"
EVERYWHERE = (-180, -90, 180, 90)
# Frames a second, the longest one, and how long painting takes on average, in three seconds in which something is done.
FRAMES = """new Promise((done) => {{
  let frames = 0, last = performance.now(), longest = 0, spent = 0, paints = 0;
  const end = last + 3000, paint = mftbPage.paint;
  mftbPage.paint = function () {{
    const begun = performance.now();
    paint.call(this);
    spent += performance.now() - begun; paints++;
  }};
  const step = (now) => {{
    longest = Math.max(longest, now - last); last = now; frames++;
    {action};
    if (now < end) requestAnimationFrame(step);
    else {{ mftbPage.play(false); mftbPage.paint = paint; done([frames / 3, longest, spent / paints]); }}
  }};
  {before};
  requestAnimationFrame(step);
}})"""
# It plays a fifth of the time a second.
PLAY = "mftbPage.setNow(mftbPage.tracks.first); mftbPage.speed = mftbPage.timeline.span / 5000; mftbPage.play(true)"
# What is measured: what is done before, and in each frame.
ACTIONS = {
    "tracks grow": (f"mftbPage.trail = 'all'; {PLAY}", ""),
    "the trail is an hour": (f"mftbPage.trail = '3600000'; {PLAY}", ""),
    "the map pans": ("mftbPage.trail = 'all'", "mftbPage.view.x += 3 / mftbPage.view.up; mftbPage.moved()"),
}


def timed(what: str, work: Callable[[], Any]) -> Any:
    """Does a work, and prints how long it and what it started took."""
    begun, used = time.monotonic(), of_processor()
    made = work()
    print(f"{what}: {time.monotonic() - begun:.1f} s, {of_processor() - used:.1f} s of a processor", flush=True)
    return made


def of_processor() -> float:
    children = resource.getrusage(resource.RUSAGE_CHILDREN)
    return time.process_time() + children.ru_utime + children.ru_stime


def write(path: Path, legs: int, features: int) -> None:
    """A file of legs of a minute of features in turn, with a column of text and one of numbers."""
    with open(path, "w") as out:
        out.write(f"{HEAD},kind,xsd:token,draught,xsd:decimal\n")
        for leg in range(legs):
            feature, step = leg % features, leg // features
            x, y = feature % 97 + step % 7 / 100, feature % 71 - 30 + step % 11 / 100
            places = f"{x:.4f} {y:.4f} {x + 0.0137:.4f} {y + 0.0071:.4f}"
            out.write(f"ship {feature},{step * 60},{step * 60 + 60},{places},under way,{feature % 9}.5\n")


def frames(folder: Path, legs: int) -> None:
    """From a store to frames and a page."""
    write(folder / "legs.csv", legs, 2_000)
    store = mftb.Store(folder / "store")
    timed("load", lambda: store.load(folder / "legs.csv"))
    info = store.info()
    answer = timed("box", lambda: store.box(EVERYWHERE, (info.first, info.last)))
    try:
        frame = timed("to_pandas", answer.to_pandas)
        print(f"{len(frame)} rows")
        timed("to_geopandas", answer.to_geopandas)
    except ImportError as why:
        print(f"no frame: {why}")
    timed("page", lambda: store.page(folder / "store.html"))
    print(f"the page has {os.path.getsize(folder / 'store.html') / 1e6:.1f} MB")


def shown(folder: Path, legs: int, features: int) -> None:
    """The frames of a page of legs that go round."""
    path = page_examples.written(page_examples.many(features, legs // features), folder / "many.html")
    browser = Browser(1280, 800)
    try:
        begun = time.monotonic()
        browser.open(path)
        browser.painted()
        print(f"the page of {legs} legs opens in {time.monotonic() - begun:.1f} s")
        for what, (before, action) in ACTIONS.items():
            each, longest, spent = browser.ask(FRAMES.format(before=before, action=action))
            print(
                f"{what}: {each:.0f} frames a second, the longest {longest:.0f} ms, painting {spent:.0f} ms", flush=True
            )
    finally:
        browser.close()


def main() -> int:
    words = argparse.ArgumentParser(description=__doc__.split("\n")[0])
    words.add_argument("--legs", type=int, default=1_000_000)
    legs = words.parse_args().legs
    print(f"{os.cpu_count()} processors, a load of {os.getloadavg()[0]:.1f}")
    with tempfile.TemporaryDirectory() as folder:
        frames(Path(folder), legs)
        if chromium():
            shown(Path(folder), 200_000, 500)
            shown(Path(folder), legs, 2_000)
    return 0


if __name__ == "__main__":
    sys.exit(main())
