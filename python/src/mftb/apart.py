"""Work in several processes, whose results come in order."""

from __future__ import annotations

import signal
from collections import deque
from collections.abc import Callable, Iterable, Iterator
from concurrent.futures import Future, ProcessPoolExecutor
from concurrent.futures.process import BrokenProcessPool
from multiprocessing import get_context
from typing import Any

from mftb.texts import Refused

# What the processes do with a task: it is theirs by their copy of this one's memory.
WORK: list[Callable[[Any], Any]] = []


def ordered(work: Callable[[Any], Any], tasks: Iterable[Any], jobs: int) -> Iterator[Any]:
    """What `work` gives for each task, in order, by so many processes; few tasks are taken ahead."""
    WORK[:] = [work]
    pool = ProcessPoolExecutor(jobs, mp_context=get_context("fork"), initializer=begin)
    waiting: deque[Future[Any]] = deque()
    try:
        for task in tasks:
            waiting.append(pool.submit(call, task))
            if len(waiting) > 2 * jobs:
                yield waiting.popleft().result()
        while waiting:
            yield waiting.popleft().result()
    except BrokenProcessPool:
        raise Refused("a process that read was ended; nothing is written") from None
    finally:
        pool.shutdown(cancel_futures=True)


def begin() -> None:
    """What stops all is answered by the process that waits for the others."""
    signal.signal(signal.SIGINT, signal.SIG_IGN)
    signal.signal(signal.SIGTERM, signal.SIG_DFL)


def call(task: Any) -> Any:
    return WORK[0](task)
