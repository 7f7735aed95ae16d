"""How often the heads of loops are reached in a run, found by runs with changed bounds."""
from __future__ import annotations

import threading
from collections.abc import Callable
from concurrent.futures import ThreadPoolExecutor
from dataclasses import dataclass
from functools import cache, cached_property
from pathlib import Path
from typing import TypeVar

from commonkit.toml import Document

from .program import Program, read_program_file
from .runs import FREE, Bounds, LoopKey, Runner, least, processors

Item = TypeVar("Item")
Result = TypeVar("Result")
EBREAK = (0x00100073).to_bytes(4, "little")


@cache
def program_of(path: str) -> Program:
    return read_program_file(path)


def side_by_side(work: Callable[[Item], Result], items: list[Item]) -> list[Result]:
    """The results of some work on each item. If it is stopped, what has not begun does not begin."""
    pool = ThreadPoolExecutor(2 * processors())
    try:
        return list(pool.map(work, items))
    finally:
        pool.shutdown(cancel_futures=True)


@dataclass
class Seen:
    """How often a head was reached at most; whether that may also be never; where its bound was first broken."""

    turns: int
    or_never: bool = False
    broken_at: str = ""


class Counter:
    """Counts the turns of all loops in a run of some length. `show` is told how many loops are done."""

    def __init__(self, runner: Runner, cycles: int, show: Callable[[int, int], None] = lambda done, total: None) -> None:
        self.runner, self.cycles, self.show = runner, cycles, show
        self.done, self.lock = 0, threading.Lock()

    def count(self) -> dict[LoopKey, Seen]:
        """The turns of all loops, which are counted side by side."""
        loops = self.runner.loops()
        stated = {key: self.runner.stated(key) for key in loops}
        within = self.kept_by(loops, stated)

        def seen(key: LoopKey) -> Seen:
            found = self.turns(key, stated[key], key in within)
            with self.lock:
                self.done += 1
                self.show(self.done, len(loops))
            return found

        return dict(zip(loops, side_by_side(seen, loops)))

    def is_kept(self, bounds: Bounds) -> bool:
        """Whether the run keeps these bounds."""
        return self.runner.is_kept(bounds, self.cycles)

    def kept_by(self, loops: list[LoopKey], bounds: Bounds) -> set[LoopKey]:
        """Those of the loops that keep their bounds; all at once if all do, otherwise each half of those that are left, side by
        side."""
        found: set[LoopKey] = set()
        left = [loops] if loops else []
        while left:
            judged = list(zip(left, side_by_side(lambda some: self.is_kept({key: bounds[key] for key in some}), left)))
            found.update(key for some, good in judged if good for key in some)
            left = [half for some, good in judged if not good and len(some) > 1
                    for half in (some[:len(some) // 2], some[len(some) // 2:])]
        return found

    def turns(self, key: LoopKey, stated: int, within: bool) -> Seen:
        """The turns of a loop: most loops reach their bounds, so it is looked first whether one less is broken."""
        if within:
            if stated > 1 and not self.is_kept({key: stated - 1}):
                return Seen(stated)
            turns = least(0, max(stated - 1, 1), lambda bound: self.is_kept({key: bound}))
            return self.once(key) if turns == 1 else Seen(turns)
        high = 2 * stated
        while high < FREE and not self.is_kept({key: high}):
            high *= 2
        turns = least(stated, min(high, FREE), lambda bound: self.is_kept({key: bound}))
        return Seen(turns, broken_at=self.place({key: stated}, key[0]))

    def once(self, key: LoopKey) -> Seen:
        """Whether a head that is reached once at most is reached: an `ebreak` at its address shows it."""
        task = self.runner.document["task"][key[0]]
        head = program_of(task["file"]).elf.address(self.runner.loop(key)["head"])
        run = self.runner.run({}, self.cycles, self.with_ebreak(head))
        faults = {job.task for job in run.jobs if job.state == "fault"} - self.faulting
        if not faults:
            return Seen(0)
        return Seen(1, or_never=faults != {task["name"]})

    @cached_property
    def faulting(self) -> set[str]:
        """The tasks of which a job faults in the run as it is."""
        return {job.task for job in self.runner.run({}, self.cycles).jobs if job.state == "fault"}

    def with_ebreak(self, address: int) -> dict[str, str]:
        """Copies of the files, with an `ebreak` at the address in those that have code there."""
        files = {}
        for path, name in self.runner.files.items():
            offset = program_of(path).offset(address)
            if offset is not None:
                data, copy = Path(path).read_bytes(), f"{address:08x}-{name}"
                (self.runner.place / copy).write_bytes(data[:offset] + EBREAK + data[offset + 4:])
                files[path] = copy
        return files

    def first_broken(self, bounds: Bounds) -> int:
        """The first cycle in which a run with these bounds is broken."""
        return least(0, self.cycles, lambda cycles: not self.runner.run(bounds, cycles).kept)

    def place(self, bounds: Bounds, task: int) -> str:
        """In which cycle a run with these bounds is first broken, and in which job of the task."""
        cycle = self.first_broken(bounds)
        name = self.runner.document["task"][task]["name"]
        jobs = [job for job in self.runner.run(bounds, cycle).jobs if job.task == name and job.is_under_way()]
        first = min(jobs, key=lambda job: job.release, default=None)
        return f"in cycle {cycle} by job {first.name() if first else '?'}"


@dataclass
class OtherBreak:
    """Where a run is broken whatever the bounds of loops are, and what may be the reason."""

    cycle: int
    text: str


def other_break(counter: Counter) -> OtherBreak:
    cycle = counter.first_broken({})
    document = counter.runner.document
    order = {task["name"]: k for k, task in enumerate(document["task"])}
    jobs = [job for job in counter.runner.run({}, cycle).jobs if job.is_under_way()]
    highest = min(jobs, key=lambda job: (order[job.task], job.release), default=None)
    name = highest.name() if highest else "?"
    return OtherBreak(cycle, f"broken in cycle {cycle}, most likely by job {name}, and not by a loop's bound: it returned elsewhere"
                      f" than to its call, jumped by a register, or had more than 16 calls under way; {about_stacks(document)}")


def about_stacks(document: Document) -> str:
    """What may be said of the stacks if a run is broken by a return."""
    users: dict[int, list[str]] = {}
    for task in document["task"]:
        users.setdefault(program_of(task["file"]).elf.address(task.get("stack", 0)), []).append(task["name"])
    shared = [names for names in users.values() if len(names) > 1]
    if not shared:
        return "the stacks begin at different places: is one of them too small?"
    return ", ".join(shared[0]) + " have one stack: a job that preempts another overwrites its return addresses"
