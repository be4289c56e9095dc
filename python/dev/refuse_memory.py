#!/usr/bin/env python3
"""Runs tests of crates, and the examples, with each of their allocations refused in turn:
tools/refuse-memory [--sample N] [--built] [CRATE[::TESTS] | examples]...

TESTS is how the names of the tests begin that are run. These tests take want of memory for an outcome, and most ask
once more, so each run is to pass; `tests_database` and `tests_program` have others besides. All worked scripts over worked
files are `tests_database::run_tests`, over a list and over pages. The tests of a crate are proved and built first, which
takes minutes; with --built they are those that stand there. An example is run by the program, each time with a new
store: it is to answer all, or to say that memory ran out and to have sent whole answers. All run under a small library
that refuses the allocation of one number. With --sample N so many numbers are refused of each test and example, all
over its run. Needs gcc beside the kit.
"""
import argparse
import os
import pathlib
import subprocess
import sys
import tempfile
from concurrent.futures import ThreadPoolExecutor

from compiling import proved

ROOT = pathlib.Path(__file__).resolve().parents[2]
WORDS = (
    "tests_values::fixedpoint_tests",
    "tests_values::mfcsv_tests",
    "tests_values::legs_tests",
    "tests_pages::pagecache_tests::no_wrong_answer_without_memory",
    "tests_store::search_tests::no_wrong_legs_without_memory",
    "tests_database::failing_tests::no_wrong_answer_without_memory",
    "tests_database::lasting_tests::no_wrong_book_without_memory",
    "tests_database::migrating_tests::no_wrong_store_without_memory",
    "tests_database::run_tests",
    "examples",
)
EXAMPLES = ("standard", "harbour", "junction", "reserve", "drones")
LIBRARY = """
#define _GNU_SOURCE
#include <dlfcn.h>
#include <errno.h>
#include <stdio.h>
#include <stdlib.h>

/* Counts the allocations of the process, refuses the one whose number is REFUSE, and says at the end, in the file
   COUNT, how many there were. */
static unsigned long count, refused;

__attribute__((constructor)) static void begin(void) {
    const char *number = getenv("REFUSE");
    refused = number ? strtoul(number, 0, 10) : 0;
}

__attribute__((destructor)) static void end(void) {
    const char *name = getenv("COUNT");
    unsigned long all = count;
    FILE *file = name ? fopen(name, "w") : 0;
    if (file) {
        fprintf(file, "%lu", all);
        fclose(file);
    }
}

static int refuses(void) { return ++count == refused; }

void *malloc(size_t size) {
    static void *(*real)(size_t);
    if (!real) real = dlsym(RTLD_NEXT, "malloc");
    return refuses() ? 0 : real(size);
}

void *realloc(void *old, size_t size) {
    static void *(*real)(void *, size_t);
    if (!real) real = dlsym(RTLD_NEXT, "realloc");
    return refuses() ? 0 : real(old, size);
}

void *aligned_alloc(size_t align, size_t size) {
    static void *(*real)(size_t, size_t);
    if (!real) real = dlsym(RTLD_NEXT, "aligned_alloc");
    return refuses() ? 0 : real(align, size);
}

int posix_memalign(void **place, size_t align, size_t size) {
    static int (*real)(void **, size_t, size_t);
    if (!real) real = dlsym(RTLD_NEXT, "posix_memalign");
    return refuses() ? ENOMEM : real(place, align, size);
}
"""


def run(words, place, folder, library, refused):
    """A run of a program with the allocation of that number refused, and how many it made."""
    count = folder / "count"
    about = dict(os.environ, LD_PRELOAD=str(library), REFUSE=str(refused), COUNT=str(count))
    done = subprocess.run(words, cwd=place, env=about, capture_output=True)
    return done, int(count.read_text())


def tests(program, begin):
    """The names of a program's tests that begin so."""
    done = subprocess.run([program, "--list"], check=True, capture_output=True, text=True)
    names = [line.removesuffix(": test") for line in done.stdout.split("\n") if line.endswith(": test")]
    return [name for name in names if name.startswith(begin)]


def spread(count, sample):
    """The numbers up to that one, or so many of them, all over."""
    if not sample or sample >= count:
        return range(1, count + 1)
    return sorted({1 + (2 * number + 1) * count // (2 * sample) for number in range(sample)})


def each_refused(name, once, sample):
    """How many allocations were refused, and how many runs were wrong. `once` makes a run, in a folder, with the
    allocation of a number refused, and says whether it went as it should, and how many allocations it made."""

    def passes(number):
        with tempfile.TemporaryDirectory() as folder:
            return once(pathlib.Path(folder), number)

    passed, count = passes(0)
    numbers = spread(count, sample)
    with ThreadPoolExecutor(os.cpu_count()) as pool:
        told = pool.map(passes, numbers)
        failed = [number for number, (passed_too, _) in zip(numbers, told) if not passed_too]
    if failed or not passed:
        print(f"{name}: wrong without the allocations {failed[:10]}" if failed else f"{name}: wrong")
    return len(numbers), len(failed) + (not passed)


def test_once(program, test, library):
    """A run of a test, which is to pass."""

    def once(folder, refused):
        done, count = run([program, test], folder, folder, library, refused)
        return done.returncode == 0, count

    return once


def ends(text):
    """The places between the answers of a run's text."""
    places, end = {0}, 0
    while end < len(text):
        line, end = text[end : text.index(b"\n", end)], text.index(b"\n", end) + 1
        for _ in range(int(line[3:]) if line.startswith(b"ok ") else 0):
            end = text.index(b"\n", end) + 1
        places.add(end)
    return places


def example_once(example, library):
    """A run of an example by the program."""
    place = ROOT / "examples" / example
    want = (place / "answer.txt").read_bytes()
    files = sorted(file.name for file in place.glob("*.csv"))
    program = ROOT / "crates" / "mftb" / "out" / "mftb"

    def once(folder, refused):
        words = [program, "run", folder / "store", "script.txt", "--", *files]
        done, count = run(words, place, folder, library, refused)
        if done.returncode == 0:
            return done.stdout == want, count
        is_prefix = want.startswith(done.stdout) and len(done.stdout) in ends(want)
        return refused > 0 and done.stderr == b"mftb: memory\n" and is_prefix, count

    return once


def runs(word, library, built):
    """What is run for a word, by name; `built` are the crates whose tests have been built."""
    if word == "examples":
        if word not in built:
            proved()
        return {example: example_once(example, library) for example in EXAMPLES}
    crate, _, begin = word.partition("::")
    if crate not in built:
        subprocess.run(["rt", "test"], cwd=ROOT / "crates" / crate, check=True, capture_output=True)
        built.add(crate)
    program = ROOT / "crates" / crate / "out" / f"{crate}_tests"
    return {test: test_once(program, test, library) for test in tests(program, begin)}


def main():
    parser = argparse.ArgumentParser(description=__doc__, formatter_class=argparse.RawDescriptionHelpFormatter)
    parser.add_argument("--sample", type=int, default=0, metavar="N")
    parser.add_argument("--built", action="store_true")
    parser.add_argument("words", nargs="*", default=WORDS)
    asked = parser.parse_args()
    wrong = 0
    with tempfile.TemporaryDirectory() as place:
        folder = pathlib.Path(place)
        (folder / "refuse.c").write_text(LIBRARY)
        library = folder / "refuse.so"
        subprocess.run(["gcc", "-shared", "-fPIC", "-O1", "-o", library, folder / "refuse.c", "-ldl"], check=True)
        built = {word.partition("::")[0] for word in asked.words} if asked.built else set()
        for word in asked.words:
            given = runs(word, library, built).items()
            told = [each_refused(f"{word}: {name}", once, asked.sample) for name, once in given]
            wrong += sum(failed for _, failed in told)
            print(f"{word}: {sum(count for count, _ in told)} allocations refused, one a run")
    sys.exit(wrong > 0)


if __name__ == "__main__":
    main()
