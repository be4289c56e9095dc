"""Draws the pictures of the examples anew; with --check, says which are not up to date."""
import subprocess
import sys
import tempfile
from pathlib import Path

ROOT = Path(__file__).resolve().parents[2]
# Folder, files, the rectangle asked for, and more words.
PICTURES = [
    ("standard", ["S1.csv"], "11.5 2.5 13 4", []),
    ("harbour", ["harbour.csv"], "-60.3 0 60.3 0", []),
    ("junction", ["junction.csv"], "-10 -10 10 10", []),
    ("reserve", ["evening.csv", "morning.csv"], "34.8 -2.6 35.23 -2.3", []),
    ("drones", ["drones.csv"], "-40 -30 40 30", []),
    ("feeds/ais-us", ["us-ships.csv"], "-70.02 43.5 -70.01 43.5", ["--label", "VesselName"]),
    ("feeds/ais-dk", ["dk-ships.csv"], "12.63 56.03 12.66 56.04", []),
    (
        "feeds/days",
        ["legs-2024-06-03.csv", "legs-2024-06-04.csv", "legs-2024-06-05.csv"],
        "-70.035 43.5 -70.035 43.52",
        ["--label", "VesselName"],
    ),
    ("feeds/taxis", ["cabs.csv"], "13.3885 52.5155 13.3915 52.5175", []),
    ("feeds/movebank", ["animals.csv"], "34.8 -2.6 35.23 -2.3", []),
    ("feeds/gpx", ["rides.csv"], "13.3885 52.5155 13.3915 52.5175", []),
]


def draw(folder, files, box, words, out):
    command = [
        ROOT / "tools" / "draw",
        *files,
        "--box",
        *box.split(),
        "--answer",
        "answer.txt",
        *words,
    ]
    subprocess.run([*command, "-o", out], cwd=folder, check=True)


def is_old(folder, files, box, words):
    """Whether a picture is not what would be drawn now."""
    with tempfile.TemporaryDirectory() as work:
        draw(folder, files, box, words, f"{work}/picture.svg")
        kept = folder / "picture.svg"
        return not kept.exists() or kept.read_bytes() != Path(work, "picture.svg").read_bytes()


def main():
    if sys.argv[1:] not in ([], ["--check"]):
        print("usage: tools/pictures [--check]", file=sys.stderr)
        return 2
    old = []
    for name, *rest in PICTURES:
        folder = ROOT / "examples" / name
        if sys.argv[1:]:
            old += [name] if is_old(folder, *rest) else []
        else:
            draw(folder, *rest, "picture.svg")
    for name in old:
        print(f"examples/{name}/picture.svg is not up to date: run tools/pictures", file=sys.stderr)
    return 1 if old else 0
