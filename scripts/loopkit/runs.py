"""Runs of `crpd simulate` with a set's bounds, files or length changed."""
from __future__ import annotations

import itertools
import os
import tempfile
import threading
import time
from collections.abc import Callable
from dataclasses import replace
from functools import cached_property
from pathlib import Path

from commonkit.calls import Crpd, Output, Run, Trouble, read_kept, read_run
from commonkit.toml import Document, toml

FREE = 1_000_000  # the largest bound that a set may state
LoopKey = tuple[int, int]  # the places of a task and of its loop
Bounds = dict[LoopKey, int]
PART = 16  # the part of a run in which it is looked first whether it is broken, if the whole takes much longer
MUCH = 4


def processors() -> int:
    """How many processors this process may use."""
    return len(os.sched_getaffinity(0))


class Runner:
    """Runs a script with the loops of a set free except for some, on all processors. The runs are in a folder of their own, in
    which the set's files have short names, since those of folders may be none that a set can state."""

    def __init__(self, crpd: Crpd, document: Document, script: Document) -> None:
        self.document, self.script = document, script
        self.numbers, self.count = itertools.count(), 0
        self.folder = tempfile.TemporaryDirectory(prefix="turns")
        self.place = Path(self.folder.name)
        self.crpd = replace(crpd, path=os.path.abspath(crpd.path), folder=self.place)
        self.turnstile, self.writing = threading.Semaphore(processors()), threading.Lock()
        self.files = {path: f"{k}.elf" for k, path in enumerate(dict.fromkeys(task["file"] for task in document["task"]))}
        for path, name in self.files.items():
            (self.place / name).symlink_to(Path(path).resolve())

    def loops(self) -> list[LoopKey]:
        """The loops of all tasks."""
        return [(t, k) for t, task in enumerate(self.document["task"]) for k in range(len(task.get("loop", [])))]

    def loop(self, key: LoopKey) -> Document:
        """What the set says of a loop."""
        found: Document = self.document["task"][key[0]]["loop"][key[1]]
        return found

    def stated(self, key: LoopKey) -> int:
        """The bound that the set states."""
        return int(self.loop(key)["bound"])

    def run(self, bounds: Bounds, cycles: int | None = None, files: dict[str, str] | None = None) -> Run:
        """A run with these bounds, all others free; for that many cycles, and with other files instead of some."""
        length: int = self.script["cycles"] if cycles is None else cycles
        return read_run(self.answer(bounds, length, files or {}), length)

    def answer(self, bounds: Bounds, cycles: int, files: dict[str, str]) -> Output:
        """What the program writes of such a run."""
        names = f"{next(self.numbers)}-set.toml", self.script_of(cycles)
        (self.place / names[0]).write_text(self.set_text(bounds, files), encoding="utf-8")
        with self.turnstile:
            self.count += 1
            try:
                return simulated(self.crpd, *names)
            except Trouble as fault:
                raise Trouble(self.with_own_names(str(fault), names)) from fault
            finally:
                (self.place / names[0]).unlink(missing_ok=True)

    def script_of(self, cycles: int) -> str:
        """The name of the script of that many cycles, which is written when it is first asked for: it may have many jobs."""
        with self.writing:
            name = f"{cycles}-script.toml"
            if not (self.place / name).exists():
                (self.place / name).write_text(toml({**self.script, "cycles": cycles}), encoding="utf-8")
            return name

    def is_kept(self, bounds: Bounds, cycles: int) -> bool:
        """Whether a run keeps these bounds; a beginning that does not is enough to know."""
        lengths = (cycles // PART, cycles) if self.is_long and cycles > PART else (cycles,)
        return all(read_kept(self.answer(bounds, length, {})) for length in lengths)

    @cached_property
    def is_long(self) -> bool:
        """Whether a run takes much longer than its beginning."""
        times = [time.monotonic()]
        for length in (max(self.script["cycles"] // PART, 1), self.script["cycles"]):
            self.answer({}, length, {})
            times.append(time.monotonic())
        return times[2] - times[1] > MUCH * (times[1] - times[0])

    def with_own_names(self, text: str, names: tuple[str, str]) -> str:
        """A refusal with the names of the set's own files."""
        for path, name in (("the set", names[0]), ("the script", names[1]), *self.files.items()):
            text = text.replace(f" {name} ", f" {path} ")
        return text

    def set_text(self, bounds: Bounds, files: dict[str, str]) -> str:
        """The set with these bounds, all others free, and with other files."""
        tasks = []
        for t, task in enumerate(self.document["task"]):
            loops = [{**loop, "bound": bounds.get((t, k), FREE)} for k, loop in enumerate(task.get("loop", []))]
            tasks.append({**task, "file": files.get(task["file"], self.files[task["file"]]), "loop": loops})
        return toml({**self.document, "task": tasks})


def simulated(crpd: Crpd, set_path: str, script_path: str) -> Output:
    """What the program writes of the run of a script; `Trouble` if it is refused."""
    answer = crpd.ask("simulate", set_path, script_path)
    if answer.status != 0:
        raise Trouble(answer.text.strip())
    return answer


def least(low: int, high: int, holds: Callable[[int], bool]) -> int:
    """The least number for which something holds that holds from some number on: not for `low`, but for `high`."""
    while high - low > 1:
        middle = (low + high) // 2
        if holds(middle):
            high = middle
        else:
            low = middle
    return high

