"""Runs a program and tells what it took."""
from __future__ import annotations

import os
import resource
import subprocess
from dataclasses import dataclass
from pathlib import Path

from .calls import Trouble

MOST_SECONDS = 120
MOST_BYTES = 4 << 30
SHOWN = 60
RUNS = 3


@dataclass(frozen=True)
class Usage:
    """What a program took: seconds of processor time, the most memory, and its status (below 0: ended by that signal)."""

    seconds: float
    megabytes: int
    status: int


def limit() -> None:
    """Lets this process have at most 2 minutes of processor time and 4 GB, or what it may have already."""
    for kind, most in ((resource.RLIMIT_CPU, MOST_SECONDS), (resource.RLIMIT_AS, MOST_BYTES)):
        _, hard = resource.getrlimit(kind)
        least = most if hard == resource.RLIM_INFINITY else min(most, hard)
        resource.setrlimit(kind, (least, least))


def measured(words: list[str], output: Path, folder: Path) -> Usage:
    """Runs a program in a folder within these limits, with its output in a file."""
    with open(output, "wb") as sink:
        run = subprocess.Popen(words, cwd=folder, stdout=sink, stderr=subprocess.DEVNULL, preexec_fn=limit)
        _, status, usage = os.wait4(run.pid, 0)
    run.returncode = os.waitstatus_to_exitcode(status)
    return Usage(usage.ru_utime + usage.ru_stime, usage.ru_maxrss // 1024, run.returncode)


def least(words: list[str], output: Path, folder: Path) -> Usage:
    """The least seconds of three runs, and the most memory; `Trouble` at one whose status is not 0."""
    found = [measured(words, output, folder) for _ in range(RUNS)]
    failed = next((it for it in found if it.status != 0), None)
    if failed is not None:
        raise Trouble(f"`{' '.join(words[1:])}` ended with {failed.status}: {first_line(output)}")
    return Usage(min(it.seconds for it in found), max(it.megabytes for it in found), 0)


def first_line(file: Path) -> str:
    """The beginning of a file's first line."""
    with open(file, "rb") as text:
        return text.readline(200).decode(errors="replace").rstrip("\n")[:SHOWN]


def machine() -> str:
    """The processors of this machine."""
    lines = Path("/proc/cpuinfo").read_text(encoding="utf-8").splitlines()
    models = (line.partition(":")[2].strip() for line in lines if line.startswith("model name"))
    return f"{next(models, 'an unknown processor')}, {os.cpu_count()} processors"
