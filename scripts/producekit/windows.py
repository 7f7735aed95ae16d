"""Windows: how long a job of a task may take from its release to its answer."""
from __future__ import annotations

from dataclasses import dataclass

from .taskset import TaskSet

UNIONS = ("ucb", "ecb")
METHODS = (*UNIONS, "point")


@dataclass(frozen=True)
class Part:
    """What a window needs of a task's code. Sets of cache sets are bits; `at_nodes` has the useful ones of all nodes."""

    bound: int
    evicting: int
    useful: int
    at_nodes: frozenset[int] = frozenset()


@dataclass(frozen=True)
class Window:
    """A window, with the analysis and the method that give it."""

    cycles: int
    analysis: int
    method: str


def jobs_in(taskset: TaskSet, task: int, cycles: int) -> int:
    """The most jobs of a task that are released within some cycles."""
    it = taskset.tasks[task]
    return -(-(cycles + it.jitter) // it.period)


def members(bits: int) -> list[int]:
    """The numbers of the bits that are set."""
    return [k for k in range(bits.bit_length()) if bits >> k & 1]


class Analysis:
    """Parts of tasks in order of priority, as far as they are known, with what delays need of them."""

    def __init__(self, taskset: TaskSet, longest: list[int], parts: list[Part]) -> None:
        self.taskset, self.longest, self.parts = taskset, longest, parts
        self.shared: dict[tuple[str, int, int], int] = {}

    def with_part(self, part: Part) -> Analysis:
        """This analysis with the part of one more task."""
        found = Analysis(self.taskset, self.longest, [*self.parts, part])
        found.shared = dict(self.shared)
        return found

    def evicting_to(self, high: int) -> int:
        """The sets that a task or one above it fills."""
        found = 0
        for part in self.parts[:high + 1]:
            found |= part.evicting
        return found

    def lost(self, method: str, low: int, high: int) -> int:
        """The most reloads of a task by one preemption."""
        key = method, low, high
        if key not in self.shared:
            part, evicting = self.parts[low], self.evicting_to(high)
            sets = [part.useful] if method == "ecb" else part.at_nodes
            self.shared[key] = max(((useful & evicting).bit_count() for useful in sets), default=0)
        return self.shared[key]

    def counts(self, task: int, high: int, cycles: int, windows: list[int]) -> dict[int, int]:
        """How often jobs of a task may disturb those of each task between, within the window of a task."""
        found = {low: jobs_in(self.taskset, high, windows[low]) * jobs_in(self.taskset, low, cycles)
                 for low in range(high + 1, task)}
        return {**found, task: jobs_in(self.taskset, high, cycles)}

    def reloads(self, method: str, task: int, high: int, cycles: int, windows: list[int]) -> int:
        """The most reloads by the jobs of a task in the window of another one."""
        jobs, counts = jobs_in(self.taskset, high, cycles), self.counts(task, high, cycles, windows)
        if method == "ucb":
            return sum(min(jobs, sum(count for low, count in counts.items() if self.parts[low].useful >> own_set & 1))
                       for own_set in members(self.parts[high].evicting))
        total = 0
        for lost, count in sorted(((self.lost(method, low, high), count) for low, count in counts.items()), reverse=True):
            taken = min(count, jobs)
            jobs, total = jobs - taken, total + taken * lost
        return total

    def demand(self, method: str | None, task: int, cycles: int, windows: list[int]) -> int:
        """What the window of a task has to hold; without a method, no reloads."""
        platform = self.taskset.platform
        total = platform.switch + self.parts[task].bound
        if platform.switching == "instruction":
            total += max(self.longest[task:]) - 1
        for high in range(task):
            total += jobs_in(self.taskset, high, cycles) * (self.parts[high].bound + 2 * platform.switch)
            if method:
                total += platform.miss * self.reloads(method, task, high, cycles, windows)
        return total

    def window(self, method: str, task: int, windows: list[int]) -> int | None:
        """The least window of a task by a method, up to its deadline less its jitter: at least the one without reloads."""
        most, cycles = self.taskset.tasks[task].deadline - self.taskset.tasks[task].jitter, 1
        for counted in (None, method):
            while cycles <= most:
                needed = self.demand(counted, task, cycles, windows)
                if needed <= cycles:
                    break
                cycles = needed
        return cycles if cycles <= most else None


def best_window(analyses: list[Analysis], methods: tuple[str, ...], task: int, windows: list[int]) -> Window | None:
    """The least window of a task: of equal ones that of the first analysis, by the first method.

    By `ecb` no window is less than by `point`. It is a method of the first analysis alone.
    """
    found = [Window(cycles, number, method) for number, analysis in enumerate(analyses) for method in methods
             if number == 0 or method != "ecb"
             if (cycles := analysis.window(method, task, windows)) is not None]
    return min(found, key=cycles_of) if found else None


def cycles_of(window: Window) -> int:
    """How long a window is."""
    return window.cycles
