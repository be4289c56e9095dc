"""Alters each byte of a small store in turn, and looks that a check tells: tools/tamper [--step N] [--jobs N].

The store is that of the standard's example, of six pages. Of each page each byte is altered, in all its bits, or one
byte in N; a run of `mftb check` over the store is then to say that this page is damaged, and to leave the file as it is.
The program is built first where it is not built yet.
"""
import argparse
import concurrent.futures
import pathlib
import subprocess
import sys
import tempfile

from compiling import proved

ROOT = pathlib.Path(__file__).resolve().parents[2]
PROGRAM = ROOT / "crates" / "mftb" / "out" / "mftb"
EXAMPLE = ROOT / "examples" / "standard"
PAGE = 4096


def check(store):
    done = subprocess.run([PROGRAM, "check", store], capture_output=True, text=True)
    return done.returncode, done.stdout, done.stderr


def altered(folder, whole, place):
    """What is wrong with the answer to a store of which the byte at a place is altered; None where nothing is."""
    bytes_ = bytearray(whole)
    bytes_[place] ^= 0xFF
    store = folder / f"{place}.mftb"
    store.write_bytes(bytes_)
    answer = check(store)
    kept = store.read_bytes() == bytes(bytes_)
    store.unlink()
    if answer != (1, "", f"mftb: page {place // PAGE} damaged\n"):
        return f"byte {place}: {answer}"
    return None if kept else f"byte {place}: the file was changed"


def main():
    words = argparse.ArgumentParser(description=__doc__.split("\n")[0])
    words.add_argument("--step", type=int, default=1, help="alter one byte in so many")
    words.add_argument("--jobs", type=int, default=1, help="so many checks at once")
    asked = words.parse_args()
    proved()
    with tempfile.TemporaryDirectory() as name:
        folder = pathlib.Path(name)
        made = folder / "sound.mftb"
        files = [path.name for path in EXAMPLE.glob("*.csv")]
        subprocess.run(
            [PROGRAM, "run", made, "script.txt", *files],
            cwd=EXAMPLE,
            check=True,
            stdout=subprocess.DEVNULL,
        )
        if check(made)[0] != 0:
            sys.exit("tamper: the store itself does not pass")
        whole = made.read_bytes()
        places = range(0, len(whole), asked.step)
        with concurrent.futures.ThreadPoolExecutor(asked.jobs) as pool:
            said = [it for it in pool.map(lambda at: altered(folder, whole, at), places) if it]
    for line in said[:20]:
        print(line)
    print(f"{len(places)} bytes altered, {len(said)} not told")
    sys.exit(1 if said else 0)
