"""The workers of a fleet: processes of this machine, or those of a Dask cluster, and what is said while they work."""

from __future__ import annotations

import ctypes
import importlib.util
import logging
import multiprocessing
import os
import queue
import signal
import statistics
import sys
import time
from argparse import Namespace
from collections.abc import Callable, Iterator, Sequence
from concurrent.futures import ProcessPoolExecutor
from contextlib import contextmanager
from pathlib import Path
from typing import Any

import mftb_fleetpart as fleetpart
from mftb.texts import Refused, several

DEBIAN, PACKAGE = "/usr/bin/python3", "/usr/lib/python3/dist-packages/distributed"
MISSING = "distributed is missing: apt-get install python3-distributed"
PR_SET_PDEATHSIG = 1
# Seconds between two looks; a part is slow from so many seconds on, and so many times what half of the others took.
STEP, SLOW, TIMES = 0.5, 10, 3


def need_distributed(options: Namespace) -> None:
    """For a cluster, goes on in Debian's Python where this one has no `distributed`."""
    if not options.scheduler or importlib.util.find_spec("distributed"):
        return
    if os.path.realpath(sys.executable) == os.path.realpath(DEBIAN) or not os.path.isdir(PACKAGE):
        raise Refused(MISSING)
    package = str(Path(fleetpart.__file__).parent)
    os.execve(DEBIAN, [DEBIAN, *sys.argv], os.environ | {"PYTHONPATH": package})


class Here:
    """Processes of this machine, each of which starts programs, which do the work."""

    def __init__(self, pool: ProcessPoolExecutor, count: int) -> None:
        self.submit, self.count = pool.submit, count

    def names(self) -> set[str]:
        return set()


class There:
    """The workers of a cluster."""

    def __init__(self, client: Any) -> None:
        self.client = client

    def submit(self, task: Callable, *job: Any) -> Any:
        return self.client.submit(task, *job, pure=False)

    def names(self) -> set[str]:
        return set(self.client.scheduler_info()["workers"])

    @property
    def count(self) -> int:
        return max(1, len(self.names()))


def begin_here() -> None:
    """A process of this machine ends without a word when it is interrupted, and always with the tool."""
    signal.signal(signal.SIGINT, signal.SIG_DFL)
    ctypes.CDLL(None).prctl(PR_SET_PDEATHSIG, signal.SIGKILL)


@contextmanager
def workers(options: Namespace) -> Iterator[Here | There]:
    """The workers of the cluster that is named, or processes of this machine."""
    if not options.scheduler:
        count = options.workers or len(os.sched_getaffinity(0))
        with ProcessPoolExecutor(count, multiprocessing.get_context("fork"), begin_here) as pool:
            yield Here(pool, count)
        return
    from distributed import Client

    # What matters of what they log is said in a line of the tool's own.
    for name in "distributed", "asyncio", "tornado":
        logging.getLogger(name).setLevel(logging.CRITICAL)
    try:
        client = Client(options.scheduler, timeout=10)
    except (OSError, ValueError) as fault:
        raise Refused(f"no scheduler at {options.scheduler}: {fault}") from None
    with client:
        client.upload_file(fleetpart.__file__)
        yield There(client)


class Progress:
    """What is said of parts at work: a bar on a terminal, and a line for each part that is slow or fails."""

    def __init__(self, crew: Here | There, title: str, count: int) -> None:
        self.crew, self.title, self.count = crew, title, count
        self.bar, self.begun = sys.stderr.isatty(), time.monotonic()
        self.took: list[float] = []
        self.slow: set[int] = set()
        self.failed: dict[int, BaseException] = {}
        self.workers: set[str] = set()

    def say(self, text: str) -> None:
        print(("\r\033[K" if self.bar else "") + f"fleet: {text}", file=sys.stderr)

    def look(self, waiting: set[int]) -> None:
        """Says which of the parts that are waited for are slow, and how many workers are lost."""
        seconds = time.monotonic() - self.begun
        there = self.crew.names()
        if self.workers - there:
            self.say(
                f"{several(len(self.workers - there), 'worker')} lost; what was at work there runs again elsewhere"
            )
        self.workers = there
        usual = statistics.median(self.took) if len(self.took) * 2 >= self.count else seconds
        if seconds > max(SLOW, TIMES * usual):
            for number in sorted(waiting - self.slow):
                self.say(f"part {number} is slow: {seconds:.0f} s so far; half of the parts took under {usual:.0f} s")
            self.slow |= waiting
        self.draw()

    def draw(self) -> None:
        if self.bar:
            done = len(self.took)
            full = "#" * (30 * done // self.count)
            seconds = time.monotonic() - self.begun
            text = f"{self.title} [{full:.<30}] {done} of {self.count} parts, {seconds:.0f} s"
            print(f"\r\033[K{text}", end="", file=sys.stderr, flush=True)

    def ended(self, number: int, fault: BaseException | None) -> None:
        self.took.append(time.monotonic() - self.begun)
        if fault:
            self.failed[number] = fault
            self.say(f"part {number}: {fault}")
        self.draw()

    def close(self) -> None:
        if self.bar:
            print("\r\033[K", end="", file=sys.stderr, flush=True)


def gather(crew: Here | There, title: str, task: Callable, jobs: Sequence[tuple]) -> list:
    """What a task gives for each job, whose words begin with a part. Refused where a part fails, when all ended."""
    futures = [crew.submit(task, *job) for job in jobs]
    numbers = {id(future): job[0].number for future, job in zip(futures, jobs)}
    ended: queue.SimpleQueue[Any] = queue.SimpleQueue()
    waiting = set(numbers.values())
    for future in futures:
        future.add_done_callback(ended.put)
    progress, looked = Progress(crew, title, len(jobs)), 0.0
    while waiting:
        if time.monotonic() - looked > STEP:
            progress.look(waiting)
            looked = time.monotonic()
        try:
            future = ended.get(timeout=STEP)
        except queue.Empty:
            continue
        waiting.discard(numbers[id(future)])
        progress.ended(numbers[id(future)], future.exception())
    progress.close()
    if progress.failed:
        raise Refused(f"{title}: {several(len(progress.failed), 'part')} of {len(jobs)} failed")
    return [future.result() for future in futures]
