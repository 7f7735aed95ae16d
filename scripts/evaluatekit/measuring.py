"""What all measurements share: the system that is evaluated, its random numbers, and the evidence
of its runs."""
import random
import sys
from dataclasses import asdict, astuple, dataclass
from functools import reduce
from operator import or_

from . import windows
from .ending import stop
from .kernels import HUGE, Image, Kernel, Platform, Timed, set_text
from .persistent import Persistent, regions
from .points import Flow, largest
from .program import Crpd, Part, Run

BASE = Platform()
# A task's period, deadline and jitter.
Timing = tuple[int, int, int]
Knowledge = dict[str, "Known"]
# Random sets for each utilization, unless stated otherwise.
SETS = 1000


@dataclass(frozen=True)
class System:
    """What is evaluated, with the seed of all random numbers."""

    crpd: Crpd
    kernels: dict[str, Kernel]
    image: Image
    seed: str

    def generator(self, *names: object) -> random.Random:
        """Separate random numbers for each use, so that one use does not change another."""
        return random.Random("/".join([self.seed, *map(str, names)]))


def progress(words: str) -> None:
    """Tells on standard error how far the evaluation is."""
    print(words, file=sys.stderr, flush=True)


def mask(sets: list[int]) -> int:
    """A set of cache sets as a number with a bit for each."""
    return sum(1 << one for one in sets)


@dataclass(frozen=True)
class Chosen:
    """The part with the smaller bound: the bound that `refine` has for the kernel alone, and what
    is useful by it."""

    bound: int
    useful: int
    points: tuple[int, ...]


@dataclass(frozen=True)
class Known:
    """What is known of a kernel on a platform: its part of a certificate, and the largest of the
    sets that are useful at single nodes, which the evaluation works out itself; and the same with
    persistent blocks, if they make the bound smaller."""

    part: Part
    points: tuple[int, ...]
    chosen: Chosen
    code_bytes: int

    @property
    def useful_at_once(self) -> int:
        """How many cache sets are useful at one node at most."""
        return max(point.bit_count() for point in self.points)

    @property
    def chosen_at_once(self) -> int:
        """The same by the part with the smaller bound."""
        return max(point.bit_count() for point in self.chosen.points)

    def task(self, timing: Timing, bound: int | None = None) -> windows.Task:
        """The kernel as a task, with another bound if one is given."""
        part = self.part
        return windows.Task(part.bound if bound is None else bound, mask(part.evicting),
                            mask(part.useful), *timing, self.points)

    def chosen_task(self, timing: Timing) -> windows.Task:
        """The same with the part that has the smaller bound."""
        chosen = self.chosen
        return windows.Task(chosen.bound, mask(self.part.evicting), chosen.useful, *timing,
                            chosen.points)

    def unsound_task(self, timing: Timing) -> windows.Task:
        """The known mistake: the smaller bound, with what is useful by the greater one."""
        return self.task(timing, self.chosen.bound)


def know(system: System, platform: Platform) -> Knowledge:
    """All kernels on a platform, by one analysis of them together. That the recomputed cache sets
    are those of the certificate is looked at, too."""
    system.crpd.load(system.image)
    tasks = [Timed(kernel, HUGE) for kernel in system.kernels.values()]
    parts = system.crpd.certificate(set_text(platform, tasks))
    return {part.name: know_kernel(system, platform, part) for part in parts}


def union(useful: set[int]) -> int:
    """All cache sets that are in one of these."""
    return reduce(or_, useful, 0)


def choose(system: System, platform: Platform, kernel: Kernel, graph: Flow) -> Chosen:
    """The part of a kernel with the smaller bound, if there is one with persistent blocks."""
    bound = system.crpd.refined_bound(set_text(platform, [Timed(kernel, HUGE)]))
    found = regions(system.image, kernel, graph, platform.line, platform.sets)
    useful = set(Persistent(graph, found, platform.line, platform.sets).useful().values())
    return Chosen(bound, union(useful), largest(useful))


def know_kernel(system: System, platform: Platform, part: Part) -> Known:
    """A kernel on a platform. Of two equal bounds the one without persistent blocks is chosen."""
    image = system.image
    graph = Flow(image, image.symbols[part.name].address)
    useful = set(graph.useful(platform.line, platform.sets).values())
    if (union(useful), graph.evicting(platform.line, platform.sets), len(graph.after)) != (
            mask(part.useful), mask(part.evicting), part.nodes):
        stop(f"{part.name} has other cache sets or nodes than its certificate")
    chosen = choose(system, platform, system.kernels[part.name], graph)
    if chosen.bound == part.bound:
        chosen = Chosen(part.bound, union(useful), largest(useful))
    return Known(part, largest(useful), chosen, graph.code_bytes())


@dataclass
class Evidence:
    """Runs, and how many jobs of the legal and kept ones were later than certified, and than
    refined. A job counts if it completed, or if the run continued beyond its refined response,
    which is the shorter one. `explained` are runs whose reloads were looked at."""

    runs: int = 0
    kept: int = 0
    jobs: int = 0
    late: int = 0
    late_refined: int = 0
    explained: int = 0
    above_delay: int = 0

    def look(self, run: Run, responses: dict[str, int], refined: dict[str, int]) -> None:
        """Compares the jobs of a run with the responses of their tasks: those of the certificate,
        which need not be known of all tasks, and those of `refine`."""
        self.runs += 1
        if not run.is_legal_and_kept():
            return
        self.kept += 1
        for job in run.jobs:
            taken = (job.end if job.is_complete() else run.cycles) - job.arrival
            if job.is_complete() or taken > refined[job.task]:
                self.jobs += 1
                self.late += taken > responses.get(job.task, taken)
                self.late_refined += taken > refined[job.task]

    def look_at_reloads(self, lines: list[list[str]], cycles: int, delay: int) -> None:
        """Compares the cycles of reloads of a job in an explained run with the certified delay."""
        if lines[-1] == ["run", "legal", "kept"]:
            self.explained += 1
            self.above_delay += cycles > delay

    def numbers(self) -> dict[str, int]:
        """The numbers, by their names."""
        return asdict(self)


def total(found: list[Evidence]) -> Evidence:
    """All evidence together."""
    return Evidence(*(sum(values) for values in zip(*map(astuple, found))))
