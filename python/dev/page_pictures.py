"""Makes the pictures of docs/user/PAGE.md anew, in a headless Chromium: python3 python/dev/page_pictures.py PROGRAM"""

import subprocess
import sys
import tempfile
from pathlib import Path

ROOT = Path(__file__).resolve().parents[2]
sys.path[:0] = [str(ROOT / "python" / part) for part in ("src", "tests")]
sys.dont_write_bytecode = True

from page_browser import Browser  # noqa: E402

PICTURES = ROOT / "docs" / "pictures"
EKKO = 'mftbPage.selectRing(mftbPage.rings().find((ring) => mftbPage.label(ring[0]) === "Ekko"))'
NIGHT = "mftbPage.setNow(Date.UTC(2024, 8, 14, 21) - mftbPage.base)"
# The example, its files, its rectangle, what the reader prefers, what is done, and the picture.
SHOTS = [
    ("harbour", ["harbour.csv"], "mouth=-60.3,0,60.3,0", "light", EKKO, "page-harbour.png"),
    ("reserve", ["evening.csv", "morning.csv"], "reserve=34.8,-2.6,35.23,-2.3", "dark", NIGHT, "page-reserve.png"),
]
TITLES = {"harbour": "Ships at a harbour mouth", "reserve": "Animals and a reserve"}


def page(program: str, work: Path, example: str, files: list[str], rectangle: str) -> Path:
    """Loads an example, and writes its page."""
    folder, store, out = ROOT / "examples" / example, work / f"{example}.mftb", work / f"{example}.html"
    with open(work / "answer.txt", "w") as answer:
        subprocess.run([program, "run", "-q", store, "script.txt", *files], cwd=folder, stdout=answer, check=True)
    words = ["--rect", rectangle, "--answers", work / "answer.txt", "--script", folder / "script.txt"]
    command = [ROOT / "tools" / "page", store, *words, "--title", TITLES[example], "--program", program, "-o", out]
    subprocess.run(command, check=True)
    return out


def main() -> int:
    """Makes all pictures."""
    PICTURES.mkdir(exist_ok=True)
    browser = Browser(1280, 800)
    try:
        with tempfile.TemporaryDirectory() as name:
            for example, files, rectangle, scheme, action, picture in SHOTS:
                path = page(sys.argv[1], Path(name), example, files, rectangle)
                browser.prefer(scheme)
                browser.open(path)
                browser.ask(f"{action}; 0")
                browser.painted()
                browser.ask("new Promise((done) => setTimeout(done, 500))")
                browser.picture(PICTURES / picture)
    finally:
        browser.close()
    return 0


if __name__ == "__main__":
    sys.exit(main())
