"""What the measurements share: the programs, the least of several runs, and the greatest memory of a process."""
import os
import subprocess
import sys
import time
from pathlib import Path

HERE = Path(__file__).resolve().parent
ROOT = HERE.parent
DATA = HERE / "data"
# the program of the command line
PROGRAM = ROOT / "crates" / "mftb" / "out" / "mftb"
# a small process that starts a program, since a process's greatest memory is at least that of the one that starts it
STARTER = """\
import resource, subprocess, sys
done = subprocess.run(sys.argv[1:], stdout=subprocess.DEVNULL)
used = resource.getrusage(resource.RUSAGE_CHILDREN)
print(used.ru_maxrss, used.ru_utime + used.ru_stime)
sys.exit(done.returncode)
"""


def build_program():
    """Proves and builds the program, if it has to be."""
    words = {**os.environ, "MFTB_PROOF": "wait"}
    subprocess.run([ROOT / "mftb", "--version"], check=True, stdout=subprocess.DEVNULL, env=words)


def benches():
    """What makes many calls of one kind (crates/benches): proved and built where it is not."""
    subprocess.run([ROOT / "tools" / "prove", "benches"], check=True)
    crate = ROOT / "crates" / "benches"
    words = ["rt", "run", "--", "nodes", "leaf", "0"]
    subprocess.run(words, cwd=crate, check=True, stdin=subprocess.DEVNULL, stdout=subprocess.DEVNULL)
    return crate / "out" / "benches"


def least(words, folder, runs=3):
    """The least seconds of some runs, and the numbers that the last one printed."""
    times = []
    for _ in range(runs):
        start = time.monotonic()
        done = subprocess.run([str(word) for word in words], cwd=folder, check=True, capture_output=True, text=True)
        times.append(time.monotonic() - start)
    return min(times), [int(word) for word in done.stdout.split()]


def calls(kinds, folder, program, group):
    """Prints what calls of some kinds take, as a table: each kind with its count and its words."""
    print("| Call | us a call | Calls a second |")
    print("|---|---|---|")
    for kind, count, text in kinds:
        nothing, _ = least([program, group, kind, 0], folder)
        taken, _ = least([program, group, kind, count], folder)
        each = (taken - nothing) / count
        print(f"| {text} | {each * 1e6:.3f} | {1 / each:,.0f} |", flush=True)


def used_by(words, folder=DATA):
    """The greatest memory of a process in bytes, its seconds of a processor, and its end with what it said."""
    words = [sys.executable, "-c", STARTER, *map(str, words)]
    done = subprocess.run(words, cwd=folder, capture_output=True, text=True)
    peak, seconds = done.stdout.split()
    return int(peak) * 1024, float(seconds), done


def peak_of(words, folder=DATA):
    """The greatest memory of a process that ends well, in bytes."""
    peak, _, done = used_by(words, folder)
    done.check_returncode()
    return peak


def processor_seconds(words, folder=DATA, runs=3):
    """The least seconds of a processor of some runs that end well; what they print is not read."""
    taken = []
    for _ in range(runs):
        _, seconds, done = used_by(words, folder)
        done.check_returncode()
        taken.append(seconds)
    return min(taken)
