"""How the scripts end: with one clear line on standard error and a status that is not 0 if something is wrong."""
from __future__ import annotations

import io
import os
import signal
import sys
from collections.abc import Callable
from types import FrameType
from typing import NoReturn

from .calls import Trouble
from .elf import BadFile
from .sets import BadSet
from .toml import BadToml

FAULTS = (Trouble, BadFile, BadSet, BadToml)


def end_at_signal(number: int, _frame: FrameType | None) -> NoReturn:
    """Ends the script, so that what it made is removed."""
    raise SystemExit(128 + number)


def run_script(name: str, main: Callable[[], int]) -> NoReturn:
    """Runs a script and ends with its status. Text is written as UTF-8, whatever the locale is."""
    for number in (signal.SIGTERM, signal.SIGHUP):
        signal.signal(number, end_at_signal)
    if sys.stdout is None or sys.stderr is None:
        say(name, "its output is closed")
        os._exit(1)
    for stream in (sys.stdout, sys.stderr):
        if isinstance(stream, io.TextIOWrapper):
            stream.reconfigure(encoding="utf-8", errors="backslashreplace")
    status = status_of(name, main)
    sys.exit(flushed(name, status))


def status_of(name: str, main: Callable[[], int]) -> int:
    """The status of a script; what stops it is said in one line."""
    try:
        return main()
    except FAULTS as fault:
        return say(name, str(fault))
    except BrokenPipeError:
        return say(name, "nobody reads its output any more")
    except OSError as fault:
        return say(name, f"{fault.filename}: {fault.strerror}" if fault.filename else str(fault.strerror or fault))
    except KeyboardInterrupt:
        return say(name, "stopped") + 129
    except RecursionError:
        return say(name, "something is nested too deep")
    except MemoryError:
        return say(name, "out of memory")
    except Exception as fault:  # a fault of the script itself: still no traceback
        return say(name, f"a fault of this script: {type(fault).__name__}: {fault}")


def say(name: str, text: str) -> int:
    """Writes a line to standard error, and gives the status 1."""
    line = "".join(c if c.isprintable() else repr(c)[1:-1] for c in f"{name}: {text}")
    try:
        print(line, file=sys.stderr, flush=True)
    except (OSError, AttributeError, ValueError):
        pass
    return 1


def flushed(name: str, status: int) -> int:
    """The status after all output is written; if it cannot be, that is said, and what is left is dropped."""
    try:
        sys.stdout.flush()
    except OSError as fault:
        status = say(name, f"its output cannot be written: {fault.strerror}")
        os.dup2(os.open(os.devnull, os.O_WRONLY), sys.stdout.fileno())
    return status
