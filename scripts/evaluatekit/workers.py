"""Spreads units of work over processes.

Each unit has its own random numbers and files, so results do not depend on the number of processes.
"""
from __future__ import annotations

import shutil
import tempfile
from collections.abc import Callable, Iterable
from concurrent.futures import ProcessPoolExecutor
from functools import partial
from multiprocessing import get_context
from pathlib import Path
from typing import TypeVar

from .kernels import KERNELS, read_image, read_kernels
from .measuring import System
from .program import Crpd

Item = TypeVar("Item")
Result = TypeVar("Result")
# The system of this process, once it is begun.
SYSTEMS: list[System] = []


def made(program: Path, folder: Path, seed: str) -> System:
    """A system with its own folder inside the given one."""
    crpd = Crpd(program, Path(tempfile.mkdtemp(dir=folder)))
    image = read_image((KERNELS / "kernels.elf").read_bytes())
    return System(crpd, read_kernels(KERNELS / "set.toml"), image, seed)


def begin(program: Path, folder: Path, seed: str) -> None:
    """Makes the system of a process."""
    SYSTEMS[:] = [made(program, folder, seed)]


def unit(work: Callable[[System, Item], Result], item: Item) -> tuple[Result, int]:
    """The result of a unit, and how many calls of `crpd` it took."""
    system = SYSTEMS[0]
    before = system.crpd.calls
    return work(system, item), system.crpd.calls - before


class Workers:
    """Processes that share the work, and the calls of `crpd` that they made."""

    def __init__(self, program: Path, seed: str, processes: int) -> None:
        self.program, self.seed, self.calls = program, seed, 0
        self.folder = Path(tempfile.mkdtemp(prefix="evaluate-"))
        self.pool = ProcessPoolExecutor(processes, get_context("fork"), begin,
                                        (program, self.folder, seed))

    def system(self) -> System:
        """A system for this process."""
        return made(self.program, self.folder, self.seed)

    def close(self) -> None:
        """Ends the processes and removes their files."""
        self.pool.shutdown(cancel_futures=True)
        shutil.rmtree(self.folder)

    def map(self, work: Callable[[System, Item], Result], items: Iterable[Item]) -> list[Result]:
        """The results of some work on each item, in the order of the items."""
        results = []
        for result, calls in self.pool.map(partial(unit, work), items):
            results.append(result)
            self.calls += calls
        return results
