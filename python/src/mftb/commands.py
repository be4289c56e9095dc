"""What the commands share: how they speak, how they end, and how their examples name them."""

import os
import re
import sys
from collections.abc import Callable
from pathlib import Path

from mftb.texts import Refused

TOOL = re.compile(r"\btools/([a-z_]+)")
STOPPED = 130


def say(tool: str, what: object, end: str = "\n") -> None:
    """Says something on standard error; on a terminal it takes the place of progress."""
    start = "\r\x1b[K" if sys.stderr.isatty() else ""
    print(f"{start}{tool}: {what}", end=end, file=sys.stderr, flush=True)


def ended(tool: str, work: Callable[[], int | None], stopped: str = "stopped") -> int:
    """Does a tool's work, and returns the status: 1 if it fails, 130 if it is interrupted."""
    try:
        return work() or 0
    except Refused as why:
        say(tool, why)
    except BrokenPipeError:
        # Who read the output wants no more of it; nothing is flushed to it at the end.
        os.dup2(os.open(os.devnull, os.O_WRONLY), sys.stdout.fileno())
    except OSError as why:
        say(tool, f"cannot use {why.filename or 'the output'}: {why.strerror or why}")
    except KeyboardInterrupt:
        say(tool, stopped)
        return STOPPED
    return 1


def example(text: str) -> str:
    """The examples of a help text, with the names that an installed command has."""
    if not Path(sys.argv[0]).name.startswith("mftb-"):
        return text
    return TOOL.sub(lambda found: "mftb-" + found[1].replace("_", "-"), text)
