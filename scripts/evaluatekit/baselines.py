"""What other designs and measured runs accept of a set: a partition of the cache among the tasks, a
cache of one line, and the longest runs seen without any reloads."""
from __future__ import annotations

from dataclasses import dataclass
from functools import cached_property

from . import windows
from .draws import Placed
from .kernels import Platform
from .measuring import Knowledge, Timing
from .windows import Parts, Task, TaskSet

# Sizes of a task's part of a partitioned cache.
SIZES = [1, 2, 4, 8, 16, 32, 64, 128, 256, 512]


@dataclass(frozen=True)
class Slices:
    """The bounds of each kernel in caches of some sizes: of equal bounds only that with the least
    size, so bounds fall as sizes grow."""

    by_kernel: dict[str, list[tuple[int, int]]]

    @staticmethod
    def of(bounds: dict[int, dict[str, int]]) -> Slices:
        """From the bounds of all kernels by size."""
        found: dict[str, list[tuple[int, int]]] = {}
        for size in sorted(bounds):
            for name, bound in bounds[size].items():
                mine = found.setdefault(name, [])
                if not mine or bound < mine[-1][1]:
                    mine.append((size, bound))
        return Slices(found)


@dataclass(frozen=True)
class Basis:
    """What the baselines know besides a set: the platform, the kernels in a cache of one line,
    their bounds by the size of a partition, and their longest runs."""

    platform: Platform
    one_line: Knowledge
    slices: Slices
    longest: dict[str, int]


def accepting(tasks: list[Placed], basis: Basis) -> set[str]:
    """The baselines that accept a set."""
    found = {"partition": Partition(tasks, basis).is_accepted(),
             "one line": fits_one_line(tasks, basis), "seen": fits_runs(tasks, basis)}
    return {name for name, accepts in found.items() if accepts}


def fits_one_line(tasks: list[Placed], basis: Basis) -> bool:
    """Whether `refine` would accept the set with a cache of one line."""
    rows = [(basis.one_line[task.name], task.timing) for task in tasks]
    costs = (basis.platform.switch, basis.platform.miss)
    parts = Parts(TaskSet([known.task(timing) for known, timing in rows], *costs),
                  TaskSet([known.chosen_task(timing) for known, timing in rows], *costs))
    return len(windows.windows_by("refined", parts)) == len(tasks)


def fits_runs(tasks: list[Placed], basis: Basis) -> bool:
    """Whether the longest runs would be in time without any reloads."""
    return fits([basis.longest[task.name] for task in tasks], [task.timing for task in tasks],
                basis.platform)


def fits(bounds: list[int], timings: list[Timing], platform: Platform) -> bool:
    """Whether jobs of these lengths are in time without any reloads."""
    rows = [Task(bound, 0, 0, *timing) for bound, timing in zip(bounds, timings)]
    return first_late(rows, platform) == len(rows)


def first_late(rows: list[Task], platform: Platform) -> int:
    """The first task without a window; how many there are if all have one."""
    found = TaskSet(rows, platform.switch, platform.miss).alone
    return next((i for i, window in enumerate(found) if window is None), len(rows))


@dataclass(frozen=True)
class Partition:
    """A set whose tasks have separate parts of the cache, so that none evicts another's lines."""

    tasks: list[Placed]
    basis: Basis

    @cached_property
    def choices(self) -> list[list[tuple[int, int]]]:
        """The sizes and bounds that each task may have."""
        return [self.basis.slices.by_kernel[task.name] for task in self.tasks]

    def is_accepted(self) -> bool:
        """Whether some split that is tried is accepted: first that with the least utilization, and
        then, as long as another task is late, that with which the late one has the least demand up
        to its deadline."""
        tried: set[int] = set()
        late = self.late_by([1 / task.timing[0] for task in self.tasks])
        while late < len(self.tasks) and late not in tried:
            tried.add(late)
            late = self.late_by(self.demand_of(late))
        return late == len(self.tasks)

    def demand_of(self, late: int) -> list[float]:
        """How many jobs of each task come up to a task's deadline, as weights of their bounds. The
        tasks below it come last."""
        deadline = self.tasks[late].timing[1]
        jobs = [-(-(deadline + jitter) // period)
                for period, _, jitter in (task.timing for task in self.tasks[:late])]
        below = [1e-6 / task.timing[0] for task in self.tasks[late + 1:]]
        return [*jobs, 1, *below]

    def late_by(self, weights: list[float]) -> int:
        """The first late task by the split with the least weighted sum of bounds."""
        bounds = self.least(weights)
        if not bounds:
            return 0
        return first_late([Task(bound, 0, 0, *task.timing)
                           for bound, task in zip(bounds, self.tasks)], self.basis.platform)

    def least(self, weights: list[float]) -> list[int]:
        """The bounds of the split with the least weighted sum; none if the cache has too few
        sets."""
        free = self.basis.platform.sets
        if sum(choice[-1][0] for choice in self.choices) <= free:
            return [choice[-1][1] for choice in self.choices]
        best: dict[int, tuple[float, list[int]]] = {0: (0.0, [])}
        for weight, choice in zip(weights, self.choices):
            following: dict[int, tuple[float, list[int]]] = {}
            for used, (total, bounds) in best.items():
                for size, bound in choice:
                    here, cost = used + size, total + weight * bound
                    if here <= free and (here not in following or cost < following[here][0]):
                        following[here] = cost, [*bounds, bound]
            best = following
        return min(best.values())[1] if best else []
