"""Sums windows up again, from the bounds and cache sets of a certificate: an independent reading of the formulas.

    jobs(k, w)    = (w + jitter of k) / period of k, rounded up: the jobs of task k that can be in a window of w cycles
    demand(i, w)  = switch + bound of i + blocking of i
                    + for each higher task j: jobs(j, w) * (bound of j + 2 * switch) + miss * reloads(i, j, w)
    blocking of i = 0, or with `switching = "instruction"` the longest instruction of i and of the lower tasks, less 1
    window of i   = the least w of at least 1 with demand(i, w) <= w; response of i = window of i + jitter of i

The tasks that j affects in a window of i are those below j, down to i. A task k among them can be disturbed by j at most
count(k) = jobs(j, window of k) * jobs(k, w) times, and i itself jobs(j, w) times.

    by the UCB-union method: reloads = the sum, over the cache sets that j evicts, of the smaller of jobs(j, w) and the
        sum of count(k) over the affected tasks to which the set is useful
    by the ECB-union method: task k loses at most that many lines at once as it finds useful sets that j, or a task above j,
        evicts; reloads = the largest sum of jobs(j, w) such losses, in which k comes at most count(k) times
    by points: as by the ECB-union method, with the most of these sets that are useful at one node of k

`refine` takes the least window by these three, and by the first and the last of them with the chosen parts of all tasks.
"""
from __future__ import annotations

from collections import Counter
from collections.abc import Sequence
from dataclasses import dataclass, replace

from commonkit.calls import Trouble

from .parts import Part, Parts
from .reading import Claim, Refined, TaskSet

METHODS = ("ucb", "ecb")
REFINED = ("ucb", "ecb", "point", "persistent-ucb", "persistent-point")
FAR = 64  # windows of sets that are not schedulable are searched up to that many periods


@dataclass(frozen=True)
class Share:
    """What the jobs of a higher task take of a window, in cycles."""

    jobs: int
    execution: int
    switches: int
    reloads: int

    def total(self) -> int:
        return self.execution + self.switches + self.reloads


@dataclass(frozen=True)
class Window:
    """What a window holds, in cycles, with a share for each higher task."""

    method: str
    bound: int
    switch: int
    blocking: int
    jitter: int
    shares: list[Share]

    def higher(self) -> Share:
        """All shares together."""
        shares = self.shares
        return Share(sum(share.jobs for share in shares), sum(share.execution for share in shares),
                     sum(share.switches for share in shares), sum(share.reloads for share in shares))

    def total(self) -> int:
        return self.bound + self.switch + self.blocking + self.higher().total()

    def response(self) -> int:
        return self.total() + self.jitter


def blocking_of(given: TaskSet, longest: Sequence[int]) -> list[int]:
    """The blocking of each task, by the longest instructions of all tasks."""
    if not given.platform.switches_between_instructions():
        return [0] * len(longest)
    return [max(longest[place:]) - 1 for place in range(len(longest))]


class Analysis:
    """The demands and windows of a set, for what a certificate claims. Tasks are named by their places, 0 the highest."""

    def __init__(self, given: TaskSet, claims: list[Claim], blocking: list[int], points: list[list[int]] | None = None) -> None:
        self.given, self.claims, self.blocking, self.points = given, claims, blocking, points or []
        places = range(len(claims))
        self.evicted_down_to = [frozenset().union(*(claim.evicting for claim in claims[:place + 1])) for place in places]
        self.users = {(high, low): self.users_of(high, low) for low in places for high in range(low)}

    def users_of(self, high: int, low: int) -> Counter[tuple[int, ...]]:
        """The sets that a task evicts, counted by the tasks below it, down to `low`, to which they are useful."""
        affected = range(high + 1, low + 1)
        return Counter(tuple(k for k in affected if cache_set in self.claims[k].useful)
                       for cache_set in self.claims[high].evicting)

    def jobs(self, place: int, window: int) -> int:
        task = self.given.tasks[place]
        return -(-(window + task.jitter) // task.period)

    def counts(self, high: int, low: int, window: int, windows: Sequence[int]) -> dict[int, int]:
        """How often a task can disturb each task that it affects in a window of `low`. `windows` are those of higher tasks."""
        between = {k: self.jobs(high, windows[k]) * self.jobs(k, window) for k in range(high + 1, low)}
        return {**between, low: self.jobs(high, window)}

    def reloads(self, high: int, low: int, method: str, window: int, windows: Sequence[int]) -> int:
        """The most lines that a window of `low` loads again since jobs of `high` evicted them."""
        jobs, counts = self.jobs(high, window), self.counts(high, low, window, windows)
        if method == "ucb":
            return sum(sets * min(jobs, sum(counts[k] for k in users)) for users, sets in self.users[high, low].items())
        lost = self.lost_at_a_node if method == "point" else self.lost
        return greatest_sum(jobs, [(lost(k, high), count) for k, count in counts.items()])

    def lost(self, place: int, high: int) -> int:
        """How many useful sets of a task are evicted by a task above it, or by those above that one."""
        return len(self.claims[place].useful & self.evicted_down_to[high])

    def lost_at_a_node(self, place: int, high: int) -> int:
        """The most of these sets that are useful at one node."""
        evicted = sum(1 << member for member in self.evicted_down_to[high])
        return max((point & evicted).bit_count() for point in self.points[place])

    def demand(self, low: int, method: str, window: int, windows: Sequence[int]) -> Window:
        """What has to be in a window of that many cycles."""
        platform, shares = self.given.platform, []
        for high in range(low):
            jobs, reloads = self.jobs(high, window), self.reloads(high, low, method, window, windows)
            shares.append(Share(jobs, jobs * self.claims[high].bound, jobs * 2 * platform.switch, platform.miss * reloads))
        jitter = self.given.tasks[low].jitter
        return Window(method, self.claims[low].bound, platform.switch, self.blocking[low], jitter, shares)

    def least(self, low: int, method: str, windows: Sequence[int], limit: int) -> Window | None:
        """The least window that holds its demand, if it is at most the limit."""
        window = 1
        while window <= limit:
            demand = self.demand(low, method, window, windows)
            if demand.total() <= window:
                return demand
            window = demand.total()
        return None

    def certified(self) -> list[Window]:
        """The certificate's windows, each summed up again by its method. `Trouble` at the first that comes out otherwise."""
        found: list[Window] = []
        for low, (task, claim) in enumerate(zip(self.given.tasks, self.claims)):
            windows = [window.total() for window in found]
            least = self.least(low, claim.method, windows, FAR * task.period)
            sums = (least.total(), least.response()) if least else ("none", "none")
            if not least or sums != (claim.window, claim.response):
                wider = "; a page shows windows that are no wider than needed" if least and least.total() < claim.window else ""
                raise Trouble(f"the sums differ at {task.name}: the certificate has window {claim.window} and response "
                              f"{claim.response}, and its own bounds and cache sets need {sums[0]} and {sums[1]}{wider}")
            found.append(least)
        return found

    def possible(self) -> list[Window]:
        """The least windows whatever the deadlines, up to the first task that may not complete within its period."""
        found: list[Window] = []
        for low, task in enumerate(self.given.tasks):
            windows = [window.total() for window in found]
            choices = [self.least(low, method, windows, FAR * task.period) for method in METHODS]
            best = min((choice for choice in choices if choice), key=Window.total, default=None)
            found += [best] if best else []
            if best is None or best.response() > task.period:
                break
        return found

    def without(self, cost: str) -> Analysis:
        """The same if a switch, or a reload after a preemption (`miss`), costs nothing; bounds are as they were."""
        platform = replace(self.given.platform, **{cost: 0})
        return Analysis(TaskSet(platform, self.given.tasks), self.claims, self.blocking, self.points)


class Refinement:
    """The windows of `refine`, by the parts of all tasks."""

    def __init__(self, given: TaskSet, parts: list[Parts], blocking: list[int]) -> None:
        self.given = given
        self.plain = analysis_of(given, [task.plain for task in parts], blocking)
        self.chosen = analysis_of(given, [task.chosen for task in parts], blocking)

    def least(self, low: int, windows: Sequence[int]) -> Window | None:
        """The least window of a task, by the first method that gives it, if one is within the deadline."""
        task = self.given.tasks[low]
        found: list[Window] = []
        for method in REFINED:
            kind, analysis = method.removeprefix("persistent-"), self.chosen if "-" in method else self.plain
            window = analysis.least(low, kind, windows, task.deadline - task.jitter)
            if window:
                found.append(replace(window, method=method))
        return min(found, key=lambda window: window.total()) if found else None

    def summed(self, refined: list[Refined]) -> list[Window]:
        """Refined windows, each summed up again. `Trouble` at the first that comes out otherwise."""
        found: list[Window] = []
        for low, (task, told) in enumerate(zip(self.given.tasks, refined)):
            least = self.least(low, [window.total() for window in found])
            sums = Refined(least.bound, least.total(), least.response(), least.method) if least else None
            if not least or sums != told:
                raise Trouble(f"the sums differ at {task.name}: `refine` has {words(told)}, and by its code and its stated loops it "
                              f"needs {words(sums) if sums else 'more than its deadline'}")
            found.append(least)
        return found


def words(refined: Refined) -> str:
    return f"bound {refined.bound} window {refined.window} response {refined.response} method {refined.method}"


def analysis_of(given: TaskSet, parts: list[Part], blocking: list[int]) -> Analysis:
    """The demands for parts of all tasks."""
    claims = [Claim(task.name, part.bound, members(part.evicting), members(part.useful), METHODS[0], 0, 0)
              for task, part in zip(given.tasks, parts)]
    return Analysis(given, claims, blocking, [part.points for part in parts])


def members(sets: int) -> frozenset[int]:
    """The cache sets of a number with one bit for each."""
    return frozenset(member for member in range(sets.bit_length()) if sets >> member & 1)


def greatest_sum(jobs: int, lost: list[tuple[int, int]]) -> int:
    """The largest sum of that many losses, each pair a loss and how often it may come."""
    total = 0
    for value, count in sorted(lost, reverse=True):
        total += value * min(jobs, count)
        jobs -= min(jobs, count)
    return total
