"""Proves crates side by side, each over those that it uses."""
from __future__ import annotations

import functools
import os
import shutil
import sys
import time
from concurrent.futures import FIRST_COMPLETED, Future, ThreadPoolExecutor, wait
from dataclasses import dataclass, field
from pathlib import Path

from .crates import MADE
from .inside import Crate, Kit

LOGS = MADE.parent / "build"
# The memory that a proof takes at most, in bytes, and the number of processors that one proof can use.
PROOF_MEMORY = 3 << 30
MOST_JOBS = 4


def say(text: str) -> None:
    """Reports something on standard error."""
    print(f"crpd: {text}", file=sys.stderr, flush=True)


def processors(kit: Kit, wanted: int | None) -> int:
    """How many processors to use: those that there are, at most as many as wanted, and as many as memory holds proofs."""
    most = len(os.sched_getaffinity(0))
    most = most if wanted is None else min(most, wanted)
    return next((number for number in range(most, 1, -1) if kit.fits(number, PROOF_MEMORY)), 1)


def chains(crates: list[Crate]) -> dict[str, int]:
    """For each crate, the lines of the longest chain of crates from it upwards."""
    longest: dict[str, int] = {}
    for crate in reversed(crates):
        above = [longest[other.name] for other in crates if crate in other.deps]
        longest[crate.name] = crate.lines() + max(above, default=0)
    return longest


def mark(crate: Crate) -> Path:
    """The file that has the sum of what a crate was proved of."""
    return crate.made.with_name("proved")


def kept(crates: list[Crate]) -> set[str]:
    """The crates that an earlier run proved exactly as they are, over libraries that are kept too."""
    found: set[str] = set()
    for crate in crates:
        is_whole = crate.made.exists() and mark(crate).is_file() and mark(crate).read_text(errors="replace") == crate.stamp()
        if is_whole and all(low.name in found for low in crate.deps):
            found.add(crate.name)
    return found


def prove(crate: Crate, jobs: int) -> bool:
    """Proves a crate, and keeps what is made of it. It is marked as proved at the end, so that half of it is never used."""
    folder = crate.made.parent
    shutil.rmtree(folder, ignore_errors=True)
    folder.mkdir(parents=True)
    with open(LOGS / f"{crate.name}.log", "w", encoding="utf-8") as log:
        if not crate.prove(jobs, log):
            return False
    mark(crate).write_text(crate.stamp())
    return True


@dataclass
class Build:
    """The crates, each after those that it uses; those that are done or failed, and the proofs under way."""

    crates: list[Crate]
    lanes: int
    done: set[str] = field(default_factory=set)
    failed: list[str] = field(default_factory=list)
    running: dict[Future[bool], tuple[Crate, int]] = field(default_factory=dict)
    start: float = field(default_factory=time.monotonic)

    @functools.cached_property
    def longest(self) -> dict[str, int]:
        """The chains above the crates."""
        return chains(self.crates)

    def finish(self, name: str, how: str) -> None:
        """Counts a finished crate, and reports it."""
        self.done.add(name)
        minutes, seconds = divmod(int(time.monotonic() - self.start), 60)
        say(f"crate {len(self.done)} of {len(self.crates)}: {name} {how}, after {minutes} min {seconds} s")

    def take(self, names: set[str]) -> None:
        """Counts the crates that are kept. No other is taken for proved by a later run, if this one is interrupted."""
        for crate in self.crates:
            if crate.name in names:
                self.finish(crate.name, "was proved earlier")
            else:
                mark(crate).unlink(missing_ok=True)

    def ready(self) -> list[Crate]:
        """The crates that can be proved now, those with the longest chain above them first."""
        begun = self.done | {crate.name for crate, _ in self.running.values()}
        ready = [it for it in self.crates if it.name not in begun and all(low.name in self.done for low in it.deps)]
        return sorted(ready, key=lambda crate: -self.longest[crate.name])

    def plan(self, names: set[str]) -> list[str]:
        """The crates that are kept, and the others in the order in which one processor would begin them."""
        lines = [f"{crate.name}: kept" for crate in self.crates if crate.name in names]
        self.done |= names
        while ready := self.ready():
            self.done.add(ready[0].name)
            lines.append(f"{ready[0].name}: to be proved")
        return lines

    def begin(self, pool: ThreadPoolExecutor) -> None:
        """Begins as many proofs as there are idle processors. A proof gets those for which no other crate is ready."""
        ready = self.ready()
        for at, crate in enumerate(ready):
            idle = self.lanes - sum(jobs for _, jobs in self.running.values())
            if idle <= 0:
                return
            jobs = max(1, min(MOST_JOBS, idle // (len(ready) - at)))
            self.running[pool.submit(prove, crate, jobs)] = crate, jobs

    def end(self, proof: Future[bool]) -> None:
        """Counts a proof that ended, and reports it."""
        crate, _ = self.running.pop(proof)
        if proof.result():
            self.finish(crate.name, "proved")
        else:
            self.failed.append(crate.name)
            say(f"{crate.name} is not proved; no other crate is begun, and those under way ({len(self.running)}) are kept")

    def run(self) -> list[str]:
        """Proves the crates that are not done; gives those that are not proved, once all that were begun have ended."""
        with ThreadPoolExecutor(self.lanes) as pool:
            self.begin(pool)
            while self.running:
                for proof in wait(self.running, return_when=FIRST_COMPLETED).done:
                    self.end(proof)
                if not self.failed:
                    self.begin(pool)
        return self.failed
