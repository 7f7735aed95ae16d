"""Windows of task sets by several bounds on preemption delays, recomputed from bounds and cache
sets.

Tasks are in the order of priority, the highest first. Sets of cache sets are whole numbers, with
a bit for each cache set. All follows the formulas of the papers and shares nothing with `crpd`; a
switch may happen in every cycle. The names of the papers: i is the task whose window is looked for,
j a higher task whose jobs preempt, and k an affected task, which is i or is between the two.
"""
from collections import Counter
from collections.abc import Callable
from dataclasses import dataclass
from functools import cached_property
from operator import mul


@dataclass(frozen=True)
class Task:
    """What the formulas know of a task. `points` are the sets that are useful at single nodes."""

    bound: int
    evicting: int
    useful: int
    period: int
    deadline: int
    jitter: int = 0
    points: tuple[int, ...] = ()


@dataclass(frozen=True)
class Window:
    """A window, and the method that gave it."""

    length: int
    method: str


class TaskSet:
    """Tasks with the costs of a switch and of a reload, and what several delays count of them:
    lists by task, each with a number for each higher task j."""

    def __init__(self, tasks: list[Task], switch: int, miss: int) -> None:
        self.tasks, self.switch, self.miss = tasks, switch, miss
        self.timing = [(task.period, task.jitter) for task in tasks]
        self.costs = [task.bound + 2 * switch for task in tasks]
        # What each task and those above it evict.
        self.evicting_up: list[int] = []
        for task in tasks:
            above = self.evicting_up[-1] if self.evicting_up else 0
            self.evicting_up.append(task.evicting | above)

    @cached_property
    def alone(self) -> list[int | None]:
        """The windows without any reloads, each on its own."""
        none = PerJob(self, no_reloads)
        return [self.least_window(i, none, 1) for i in range(len(self.tasks))]

    @cached_property
    def lost_to_one(self) -> list[list[int]]:
        """How many sets that are useful to a task j evicts."""
        return [[(task.useful & self.tasks[j].evicting).bit_count() for j in range(i)]
                for i, task in enumerate(self.tasks)]

    @cached_property
    def lost_anywhere(self) -> list[list[int]]:
        """How many sets that are useful at any node of a task j or a task above j evicts."""
        return [[(task.useful & self.evicting_up[j]).bit_count() for j in range(k)]
                for k, task in enumerate(self.tasks)]

    @cached_property
    def lost_at_a_node(self) -> list[list[int]]:
        """The most sets that are useful at one node of a task and that j or a task above j
        evicts."""
        return [[max(((point & self.evicting_up[j]).bit_count() for point in task.points),
                     default=0) for j in range(k)] for k, task in enumerate(self.tasks)]

    @cached_property
    def shared(self) -> list[list[list[tuple[int, tuple[int, ...]]]]]:
        """How many of the sets that j evicts, and that are not useful to a task, which tasks
        between find useful."""
        return [[self.users(i, j) for j in range(i)] for i in range(len(self.tasks))]

    def users(self, i: int, j: int) -> list[tuple[int, tuple[int, ...]]]:
        """For each group of tasks between j and i, how many of these sets exactly they find
        useful."""
        rest, found = self.tasks[j].evicting & ~self.tasks[i].useful, Counter[tuple[int, ...]]()
        between = [(k, self.tasks[k].useful) for k in range(j + 1, i)]
        while rest:
            one = rest & -rest
            rest ^= one
            found[tuple([k for k, useful in between if useful & one])] += 1
        return [(sets, ks) for ks, sets in found.items() if ks]

    def jobs(self, i: int, window: int) -> list[int]:
        """How many jobs of each higher task a window of i can hold."""
        return [-(-(window + jitter) // period) for period, jitter in self.timing[:i]]

    def demand(self, i: int, jobs: list[int], reloads: int) -> int:
        """The cycles that a window of i has to hold."""
        higher: int = sum(map(mul, jobs, self.costs))
        return self.switch + self.tasks[i].bound + higher + self.miss * reloads

    def least_window(self, i: int, delay: "Delay", start: int) -> int | None:
        """The least window of i from `start` on that holds its demand and meets the deadline."""
        limit = self.tasks[i].deadline - self.tasks[i].jitter
        window = max(start, 1)
        while window <= limit:
            jobs = self.jobs(i, window)
            demand = self.demand(i, jobs, delay.reloads(i, jobs))
            if demand <= window:
                return window
            window = demand
        return None


class Delay:
    """A bound on the reloads in the windows of a set's tasks."""

    def note(self, tasks: TaskSet, window: int) -> None:
        """Takes note of the window of the next task; the windows of all higher ones are known."""

    def reloads(self, i: int, jobs: list[int]) -> int:
        """The most reloads in a window of i, for the numbers of jobs of higher tasks in it."""
        raise NotImplementedError


class PerJob(Delay):
    """The same number of reloads for each job of a higher task."""

    def __init__(self, tasks: TaskSet, each: Callable[[TaskSet, int, int], int]) -> None:
        self.each = [[each(tasks, i, j) for j in range(i)] for i in range(len(tasks.tasks))]

    def reloads(self, i: int, jobs: list[int]) -> int:
        total: int = sum(map(mul, jobs, self.each[i]))
        return total


def no_reloads(_tasks: TaskSet, _i: int, _j: int) -> int:
    """As if nothing was ever evicted."""
    return 0


def evicted(tasks: TaskSet, _i: int, j: int) -> int:
    """ECB-only: all cache sets that j fills."""
    return tasks.tasks[j].evicting.bit_count()


def plain_ucb(tasks: TaskSet, i: int, j: int) -> int:
    """UCB-union: what j evicts of all that is useful to the affected tasks."""
    useful = 0
    for task in tasks.tasks[j + 1:i + 1]:
        useful |= task.useful
    return (tasks.tasks[j].evicting & useful).bit_count()


def useful(tasks: TaskSet, i: int, j: int) -> int:
    """UCB-only: all that is useful to the affected task that has the most."""
    return max(task.useful.bit_count() for task in tasks.tasks[j + 1:i + 1])


def plain_ecb(tasks: TaskSet, i: int, j: int) -> int:
    """ECB-union: the most that one affected task loses to j and all tasks above j."""
    return max(lost[j] for lost in tasks.lost_anywhere[j + 1:i + 1])


class Multiset(Delay):
    """What the multiset delays have in common: how many jobs of j a window of k can hold."""

    def __init__(self) -> None:
        self.within: list[list[int]] = []

    def note(self, tasks: TaskSet, window: int) -> None:
        self.within.append(tasks.jobs(len(self.within), window))


class UcbMultiset(Multiset):
    """UCB-union multiset: a cache set that j evicts costs at most one reload for each job of j, and
    one for each time that a job of j can disturb a job to which the set is useful."""

    def __init__(self, tasks: TaskSet) -> None:
        super().__init__()
        self.own, self.shared = tasks.lost_to_one, tasks.shared

    def reloads(self, i: int, jobs: list[int]) -> int:
        # Each job of j can disturb i itself, so what is useful to i costs one reload for each.
        total: int = sum(map(mul, jobs, self.own[i]))
        within = self.within
        for j, most in enumerate(jobs):
            for sets, ks in self.shared[i][j]:
                count = 0
                for k in ks:
                    count += within[k][j] * jobs[k]
                total += sets * (count if count < most else most)
        return total


class LossMultiset(Multiset):
    """ECB-union multiset: each job of j costs what one affected job can lose to it, and the
    largest losses are taken first. `losses` say what each task can lose to a job of j."""

    def __init__(self, losses: list[list[int]]) -> None:
        super().__init__()
        self.own = losses
        # The affected tasks that lose more than i, which all additional jobs of j can disturb.
        self.more = [[sorted(((losses[k][j], k) for k in range(j + 1, i)
                              if losses[k][j] > losses[i][j]), reverse=True)
                      for j in range(i)] for i in range(len(losses))]

    def reloads(self, i: int, jobs: list[int]) -> int:
        total, own, within = 0, self.own[i], self.within
        for j, left in enumerate(jobs):
            for lost, k in self.more[i][j]:
                count = min(left, within[k][j] * jobs[k])
                total += lost * count
                left -= count
                if left == 0:
                    break
            total += left * own[j]
        return total


@dataclass(frozen=True)
class Parts:
    """The tasks of a set by their execution bounds, and by the smaller bounds with persistent
    blocks."""

    plain: TaskSet
    chosen: TaskSet


@dataclass(frozen=True)
class Way:
    """A delay over tasks, with the name of the method that takes it."""

    name: str
    tasks: TaskSet
    delay: Delay


def windows(ways: list[Way], starts: list[int | None]) -> list[Window]:
    """The windows of the tasks up to the first that has none: the least by any of the ways, and of
    equal ones that of the first. `starts` are windows that are certainly not longer."""
    found: list[Window] = []
    for i, start in enumerate(starts):
        if start is None:
            return found
        lengths = ((way.tasks.least_window(i, way.delay, start), way.name) for way in ways)
        possible = [Window(length, name) for length, name in lengths if length is not None]
        if not possible:
            return found
        found.append(min(possible, key=lambda window: window.length))
        for way in ways:
            way.delay.note(way.tasks, found[-1].length)
    return found


def ucb(parts: Parts) -> Way:
    return Way("ucb", parts.plain, UcbMultiset(parts.plain))


def ecb(parts: Parts) -> Way:
    return Way("ecb", parts.plain, LossMultiset(parts.plain.lost_anywhere))


def point(parts: Parts) -> Way:
    return Way("point", parts.plain, LossMultiset(parts.plain.lost_at_a_node))


def persistent_ucb(parts: Parts) -> Way:
    return Way("persistent-ucb", parts.chosen, UcbMultiset(parts.chosen))


def persistent_point(parts: Parts) -> Way:
    return Way("persistent-point", parts.chosen, LossMultiset(parts.chosen.lost_at_a_node))


def no_reloads_at_all(parts: Parts) -> Way:
    return Way("none", parts.chosen, PerJob(parts.chosen, no_reloads))


def per_job(name: str, each: Callable[[TaskSet, int, int], int]) -> Callable[[Parts], Way]:
    return lambda parts: Way(name, parts.plain, PerJob(parts.plain, each))


# What each method takes the least window of. `crpd analyze` is "combination", `crpd classic` is
# "classic", and `crpd refine` is "refined", which adds the delay by points to the combination, and
# both with persistent blocks. "points" is what it would be without them.
METHODS: dict[str, list[Callable[[Parts], Way]]] = {
    "none chosen": [no_reloads_at_all],
    "refined": [ucb, ecb, point, persistent_ucb, persistent_point],
    "none": [per_job("none", no_reloads)],
    "points": [ucb, ecb, point],
    "combination": [ucb, ecb],
    "ucb multiset": [ucb],
    "ecb multiset": [ecb],
    "classic": [per_job("ucb", plain_ucb), per_job("ecb", plain_ecb)],
    "plain ucb": [per_job("ucb", plain_ucb)],
    "plain ecb": [per_job("ecb", plain_ecb)],
    "ucb only": [per_job("useful", useful)],
    "ecb only": [per_job("evicted", evicted)],
}

# Pairs of which the first has no longer window in any set, as follows from the formulas: with the
# same windows of higher tasks its delay is nowhere greater, and windows grow with delays.
ORDER = [
    ("none chosen", "none"), ("none chosen", "refined"), ("refined", "points"), ("none", "points"),
    ("points", "combination"), ("combination", "ucb multiset"),
    ("combination", "ecb multiset"), ("combination", "classic"), ("ucb multiset", "plain ucb"),
    ("ecb multiset", "plain ecb"), ("classic", "plain ucb"), ("classic", "plain ecb"),
    ("plain ucb", "ecb only"), ("plain ecb", "ucb only"),
]


def windows_by(method: str, parts: Parts) -> list[Window]:
    """The windows by one of METHODS. A list that is shorter than the set ends before the first task
    without a window."""
    ways = [make(parts) for make in METHODS[method]]
    persistent = any(way.tasks is parts.chosen for way in ways)
    return windows(ways, (parts.chosen if persistent else parts.plain).alone)


def windows_by_all(parts: Parts) -> dict[str, list[Window]]:
    """The windows by each of METHODS."""
    return {method: windows_by(method, parts) for method in METHODS}


def unsound_windows(tasks: TaskSet) -> list[Window]:
    """The windows of one list of tasks by both multiset delays and by points."""
    parts = Parts(tasks, tasks)
    return windows([ucb(parts), ecb(parts), point(parts)], tasks.alone)


def never_longer(first: list[Window], second: list[Window]) -> bool:
    """Whether the first windows reach as far as the second ones and none of them is longer."""
    return (len(first) >= len(second)
            and all(a.length <= b.length for a, b in zip(first, second)))
