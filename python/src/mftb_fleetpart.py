"""What a worker of a fleet does with one part, which is a plain store: it loads, asks and checks it by the program.

This file stands alone, since it is sent to workers that are elsewhere. A leg of a part's answers is kept as a line: its
start, its name and its record, so that lines in the order of their bytes are legs by start and then by name. A feature
has never two legs of one start. What would end a line, or come before the byte between two of its parts, is written
as two bytes.
"""

from __future__ import annotations

import os
import re
import shutil
import subprocess
import tempfile
import uuid
from collections.abc import Iterator, Sequence
from itertools import chain, islice
from pathlib import Path
from typing import IO, Any, BinaryIO, NamedTuple

PRIME = 4294967291
# No moment is further from another, in milliseconds.
FAR = 10**15
# Lines of an answer that are sorted in memory; more are sorted by `sort`, on disk.
BATCH = 100_000
# The status of the program where its words are wrong.
WRONG_WORDS = 2
# How the line begins by which it refuses a zone file.
ZONES = "mftb: the zone file is refused"
RARE, PAIR = re.compile(rb"[\x00-\x0a]"), re.compile(rb"\x02(.)")
QUOTED = re.compile(rb'"((?:[^"]|"")*)",?')
WORD = re.compile(rb"[^ \t]*")


class Fault(Exception):
    """Why a part cannot do its work: the program's own message, mostly."""


class Part(NamedTuple):
    """A part: its number of so many, its store, the folder for what does not last, and the program."""

    number: int
    parts: int
    store: str
    work: str
    program: str


class Cut(NamedTuple):
    """Parts to be cut out of a file: the number of the first, how many, of how many, and the folder of their texts."""

    number: int
    size: int
    parts: int
    file: str
    folder: str
    program: str


class Loaded(NamedTuple):
    """What a part answered to a file, and its new store."""

    answer: str
    store: str
    legs: int
    features: int


class Said(NamedTuple):
    """A part's answer: a refusal, or the records that are put first and where the lines of the others begin."""

    refusal: str
    first: list[bytes]
    others: int
    place: int


class Inside(NamedTuple):
    """What a part says of wrong words, or the file of its records."""

    wrong: list[str]
    path: str


def part_of(name: bytes, parts: int) -> int:
    """The part of a name, which is bytes."""
    number = 0
    for byte in name:
        number = (number * 257 + byte) % PRIME
    return number**3 % PRIME % parts


def words_of(line: bytes) -> tuple[str, bytes]:
    """The first word of a line of a script, and the rest of it."""
    found = WORD.match(line)
    assert found
    word = found[0]
    return word.decode(errors="replace"), line[len(word) :].strip(b" \t")


def fault_of(status: int, message: bytes) -> Fault:
    """The fault of a run of the program that ended with a status other than 0."""
    lines = message.decode(errors="replace").strip().splitlines()
    if status < 0:
        return Fault(f"the program was ended by signal {-status}")
    return Fault(lines[-1] if lines else f"the program ended with status {status}")


def printed(part: Part, *words: str, **given: Any) -> bytes:
    """What the program prints."""
    ended = subprocess.run([part.program, *words], stderr=subprocess.PIPE, stdin=subprocess.DEVNULL, **given)
    if ended.returncode:
        raise fault_of(ended.returncode, ended.stderr)
    return bytes(ended.stdout or b"")


def need_store(part: Part) -> None:
    """A store that is absent or empty would be made anew by the program, and answer as if nothing had been loaded."""
    if not os.path.isfile(part.store) or not os.path.getsize(part.store):
        raise Fault("the store is not there")


# Loading


def cut(task: Cut) -> None:
    """Cuts parts out of a file, by one pass for each 16."""
    os.makedirs(task.folder, exist_ok=True)
    some = "--first", str(task.number), "--count", str(task.size)
    ended = subprocess.run(
        [task.program, "parts", str(task.parts), task.file, task.folder, *some],
        stdin=subprocess.DEVNULL,
        stdout=subprocess.DEVNULL,
        stderr=subprocess.PIPE,
    )
    if ended.returncode:
        raise fault_of(ended.returncode, ended.stderr)


def load(part: Part, texts: str) -> Loaded:
    """Loads the part of a file, out of the folder of its parts, into a copy of the store."""
    need_store(part)
    copy = Path(part.store).with_name(f"part-{part.number}-{uuid.uuid4().hex}.mftb")
    shutil.copyfile(part.store, copy)
    with tempfile.TemporaryDirectory(dir=part.work) as folder:
        Path(folder, "script").write_text("load part.csv\ncount\n")
        os.symlink(os.path.join(texts, f"part-{part.number}.csv"), f"{folder}/part.csv")
        # The store is a copy already: nobody else has it, and what is broken off is left over.
        words = "run", "--in-place", str(copy), "script", "part.csv"
        lines = printed(part, *words, cwd=folder, stdout=subprocess.PIPE).decode().splitlines()
    refused = lines[0].startswith("refused")
    return Loaded(lines[0] if refused else lines[1], copy.name, *map(int, lines[-1].split(",")))


def check(part: Part) -> list[int]:
    """The pages, legs and features of a store that passes its check."""
    need_store(part)
    return [
        int(word) for word in printed(part, "check", part.store, stdout=subprocess.PIPE).split(b"\n")[1].split(b",")
    ]


# Asking


def inside(part: Part, command: str, before: Sequence[str], behind: Sequence[str]) -> Inside:
    """The file of what `mftb moments` or `mftb zones` prints of a part, or its words where these are wrong."""
    need_store(part)
    path = Path(tempfile.mkdtemp(dir=part.work), "records")
    with open(path, "wb") as out:
        words = [part.program, command, "--explain", *before, part.store, *behind]
        ended = subprocess.run(words, stdin=subprocess.DEVNULL, stdout=out, stderr=subprocess.PIPE)
    if ended.returncode == WRONG_WORDS:
        return Inside(wrong_words(ended.stderr.decode(errors="replace").strip().splitlines()), "")
    if ended.returncode:
        raise fault_of(ended.returncode, ended.stderr)
    return Inside([], str(path))


def wrong_words(said: Sequence[str]) -> list[str]:
    """Of what the program says of wrong words the last line; of a zone file all from the line that refuses it."""
    refused = [place for place, line in enumerate(said) if ZONES in line]
    return list(said[refused[0] if refused else -1 :])


def ask(part: Part, lines: Sequence[bytes]) -> tuple[list[Said], str]:
    """The answers to the lines of a script, and the file with their records, in order."""
    need_store(part)
    words = [words_of(line)[0] for line in lines]
    folder = tempfile.mkdtemp(dir=part.work)
    Path(folder, "script").write_bytes(b"".join(line + b"\r\n" for line in lines))
    path, answers = Path(folder, "answers"), []
    command = [part.program, "run", part.store, f"{folder}/script"]
    with open(path, "wb") as out, open(f"{folder}/message", "w+b") as message:
        with subprocess.Popen(
            command, bufsize=1 << 20, stdin=subprocess.DEVNULL, stdout=subprocess.PIPE, stderr=message
        ) as running:
            assert running.stdout
            try:
                for word in words:
                    answers.append(answer(word, running.stdout, out, folder))
            except EOFError:
                pass
        message.seek(0)
        if running.returncode:
            raise fault_of(running.returncode, message.read())
    if len(answers) != len(words):
        raise Fault(f"{len(answers)} answers to {len(words)} questions")
    return answers, str(path)


def answer(word: str, stream: IO[bytes], out: BinaryIO, folder: str) -> Said:
    """Reads an answer, and appends its records to a file as lines, in order."""
    head = record(stream).decode()
    if head.startswith("refused "):
        return Said(head, [], 0, 0)
    count = int(head.removeprefix("ok "))
    ahead = {"count": 1, "write": 2}.get(word, 0)
    first = [record(stream) for _ in range(ahead)]
    line_of = name_line if word == "features" else leg_line
    place = out.tell()
    sort_into(out, (line_of(record(stream)) for _ in range(count - ahead)), folder)
    return Said("", first, count - ahead, place)


def record(stream: IO[bytes]) -> bytes:
    """The next record, in which line ends may be quoted."""
    line = stream.readline()
    while line.count(b'"') % 2:
        more = stream.readline()
        if not more:
            raise EOFError
        line += more
    if not line.endswith(b"\n"):
        raise EOFError
    return line[:-1]


def sort_into(out: BinaryIO, lines: Iterator[bytes], folder: str) -> None:
    """Appends lines in order; however many there are, few are held in memory."""
    batch = list(islice(lines, BATCH))
    if len(batch) < BATCH:
        out.writelines(sorted(batch))
        return
    out.flush()
    command = ["sort", "-S", "64M", "-T", folder]
    with subprocess.Popen(command, stdin=subprocess.PIPE, stdout=out, env={**os.environ, "LC_ALL": "C"}) as sort:
        assert sort.stdin
        sort.stdin.writelines(chain(batch, lines))
    if sort.returncode:
        raise Fault("the answer cannot be sorted: is the disk full?")
    out.seek(0, os.SEEK_END)


def name_and_rest(text: bytes) -> tuple[bytes, bytes]:
    """The name of a record, without its quotes, and the fields behind it."""
    if not text.startswith(b'"'):
        name, _, rest = text.partition(b",")
        return name, rest
    found = QUOTED.match(text)
    if not found:
        raise Fault("the program printed half a name")
    return found[1].replace(b'""', b'"'), text[found.end() :]


def leg_line(text: bytes) -> bytes:
    name, rest = name_and_rest(text)
    start = round(float(rest.partition(b",")[0]) * 1000) + FAR
    return b"%016d%b\1%b\n" % (start, kept(name), kept(text))


def name_line(text: bytes) -> bytes:
    return b"%b\1%b\n" % (kept(name_and_rest(text)[0]), kept(text))


def kept(text: bytes) -> bytes:
    """A text without the eleven least bytes; the order of texts stays."""
    return RARE.sub(lambda found: bytes([2, found[0][0] + 32]), text) if RARE.search(text) else text


def text_of(line: bytes) -> bytes:
    """The record of a line."""
    text = line[line.index(b"\1") + 1 : -1]
    return PAIR.sub(lambda found: bytes([found[1][0] - 32]), text) if b"\2" in text else text
