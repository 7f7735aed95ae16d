"""The share of random sets that each method accepts, by utilization."""
from __future__ import annotations

import random
from collections import Counter
from dataclasses import dataclass, field, replace
from typing import Any

from . import baselines, bounds, windows
from .baselines import SIZES, Basis, Slices
from .draws import Draw, Placed, Shape, draw, place
from .kernels import HUGE, Image, Platform, Timed, set_text
from .measuring import BASE, Evidence, Knowledge, System, know, progress, total
from .program import Job, Verdict
from .workers import Workers

# Utilizations in percent.
UTILIZATIONS = list(range(5, 101, 5))
# One in that many of the sets that are compared at all is compared with `classic`, and one in that
# many of those that `refine` accepts is run.
CLASSIC_EVERY, RUN_EVERY = 5, 20
LONGEST_RUN, MOST_JOBS = 200_000, 2_000
METHODS = [*windows.METHODS, "partition", "one line", "seen"]

# Methods whose differences the page tells, with how many sets one accepts and the other does not.
PAIRS = [
    ("refined", "combination"), ("refined", "points"), ("refined", "none"),
    ("refined", "partition"), ("refined", "one line"), ("partition", "one line"),
    ("seen", "refined"), ("points", "combination"), ("combination", "classic"),
    ("combination", "ecb only"), ("combination", "ucb only"), ("ucb multiset", "ecb multiset"),
    ("plain ucb", "plain ecb"), ("plain ecb", "ecb only"), ("ecb multiset", "plain ucb"),
]
# Methods of which the page says how far they are above ECB-only.
ABOVE = ["combination", "ucb multiset", "ecb multiset", "classic", "plain ucb", "plain ecb",
         "ucb only"]
# The pairs of which it is counted which sets one accepts and the other does not.
COUNTED = list(dict.fromkeys([*PAIRS, *((method, "ecb only") for method in ABOVE)]))
# The pairs of which the first method is the better one by its formula, directly or not.
BETTER = set(windows.ORDER) | {("combination", "ecb only"), ("combination", "ucb only"),
                               ("refined", "combination")}


@dataclass(frozen=True)
class Family:
    """A kind of random sets, and whether their utilization is that of the longest runs seen or that
    of the certified bounds."""

    name: str
    shape: Shape
    by_runs: bool = False


FAMILIES = [Family("5 tasks, by runs", Shape(5), True), Family("8 tasks, by runs", Shape(8), True),
            Family("5 tasks", Shape(5)), Family("8 tasks", Shape(8))]


def agrees(names: list[str], found: list[windows.Window], verdict: Verdict) -> bool:
    """Whether all windows and methods are the program's, or the first task without a window is."""
    if len(found) == len(names):
        return found == verdict.windows
    return names[len(found)] == verdict.failed


# The commands whose verdicts are compared with recomputed ones, with their method, and in how many
# of the sets that are compared at all one is.
COMPARED = {"analyze": ("combination", 1), "refine": ("refined", 1),
            "classic": ("classic", CLASSIC_EVERY)}


@dataclass(frozen=True)
class Bench:
    """A platform with all that is known of the kernels on it, their image, and which sets are
    compared with `crpd`: each one, or one in so many."""

    known: Knowledge
    basis: Basis
    image: Image
    every: int

    @property
    def platform(self) -> Platform:
        return self.basis.platform

    def lengths(self, by_runs: bool) -> dict[str, int]:
        """The lengths of jobs from which periods follow."""
        if by_runs:
            return self.basis.longest
        return {name: one.part.bound for name, one in self.known.items()}


@dataclass
class Counts:
    """What many sets add up to."""

    sets: int = 0
    accepted: Counter[str] = field(default_factory=Counter)
    only: Counter[str] = field(default_factory=Counter)
    compared: Counter[str] = field(default_factory=Counter)
    agree: Counter[str] = field(default_factory=Counter)
    disorder: int = 0


class Tally:
    """Counts over many sets of a platform: who accepts, and whether the recomputation agrees."""

    def __init__(self, system: System, bench: Bench, rng: random.Random, by_runs: bool) -> None:
        self.system, self.bench, self.rng = system, bench, rng
        self.lengths = bench.lengths(by_runs)
        self.counts, self.evidence, self.accepted_by_refine = Counts(), Evidence(), 0
        system.crpd.load(bench.image)

    def look(self, one: Draw) -> None:
        """Counts a set."""
        counts, tasks = self.counts, place(one, self.bench.known, self.lengths)
        found = windows.windows_by_all(self.parts(tasks))
        if counts.sets % self.bench.every == 0:
            self.compare(tasks, found)
        counts.disorder += sum(not windows.never_longer(found[a], found[b])
                               for a, b in windows.ORDER)
        accepting = {method for method, by in found.items() if len(by) == len(tasks)}
        accepting |= baselines.accepting(tasks, self.bench.basis)
        counts.accepted.update(accepting)
        counts.only.update(f"{a} > {b}" for pair in COUNTED for a, b in (pair, pair[::-1])
                           if a in accepting and b not in accepting)
        counts.sets += 1

    def parts(self, tasks: list[Placed]) -> windows.Parts:
        """The tasks by both of their bounds."""
        costs = (self.bench.platform.switch, self.bench.platform.miss)
        return windows.Parts(
            windows.TaskSet([one.known.task(one.timing) for one in tasks], *costs),
            windows.TaskSet([one.known.chosen_task(one.timing) for one in tasks], *costs))

    def compare(self, tasks: list[Placed], found: dict[str, list[windows.Window]]) -> None:
        """Asks `crpd` for its windows, and lets an accepted set run now and then."""
        counts, names = self.counts, [task.name for task in tasks]
        text = set_text(self.bench.platform, [self.timed(task) for task in tasks])
        verdicts: dict[str, Verdict] = {}
        for command, (method, every) in COMPARED.items():
            if counts.sets // self.bench.every % every == 0:
                verdict = verdicts[command] = self.system.crpd.verdict(command, text)
                counts.compared[command] += 1
                counts.agree[command] += agrees(names, found[method], verdict)
        if not verdicts["refine"].failed:
            if self.accepted_by_refine % RUN_EVERY == 0:
                self.run(tasks, verdicts)
            self.accepted_by_refine += 1

    def timed(self, task: Placed) -> Timed:
        """The task as a task set states it."""
        period, deadline, jitter = task.timing
        return Timed(self.system.kernels[task.name], period, jitter, deadline=deadline)

    def run(self, tasks: list[Placed], verdicts: dict[str, Verdict]) -> None:
        """Lets the set in set.toml run twice: from its critical instant, and from random phases."""
        jitters = [task.timing[2] for task in tasks]
        responses, refined = ({task.name: window.length + jitter for task, window, jitter
                               in zip(tasks, verdicts[command].windows, jitters)}
                              for command in ("analyze", "refine"))
        latest = max(jitters)
        cycles = min(LONGEST_RUN, latest + 2 * verdicts["refine"].windows[-1].length + 1)
        phases = [self.rng.randrange(min(task.timing[0], cycles)) for task in tasks]
        for releases in ([latest] * len(tasks), [latest + phase for phase in phases]):
            run = self.system.crpd.run(cycles, jobs(tasks, releases, cycles))
            self.evidence.look(run, responses, refined)


def jobs(tasks: list[Placed], releases: list[int], cycles: int) -> list[Job]:
    """The jobs of a run: each task's first with all its jitter, and then one a period."""
    found = []
    for task, release in zip(tasks, releases):
        period, _, jitter = task.timing
        first = release - jitter
        found.append(Job(task.name, first, release))
        found += [Job(task.name, at, at) for at in range(first + period, cycles, period)]
    return found[:MOST_JOBS]


@dataclass(frozen=True)
class Unit:
    """Random sets of one utilization on one platform. `stream` names their random numbers."""

    words: str
    stream: tuple[object, ...]
    shape: Shape
    by_runs: bool
    utilization: int
    each: int
    bench: Bench


def tally(system: System, unit: Unit) -> tuple[Counts, Evidence]:
    """What the sets of a unit add up to."""
    rng = system.generator("sets", *unit.stream, unit.utilization)
    phases = system.generator("phases", unit.words, unit.utilization)
    made = Tally(system, unit.bench, phases, unit.by_runs)
    names = list(system.kernels)
    for _ in range(unit.each):
        made.look(draw(rng, names, unit.shape, unit.utilization))
    progress(f"{unit.words}, utilization {unit.utilization} percent")
    return made.counts, made.evidence


@dataclass(frozen=True)
class Row:
    """The counts of one kind of sets by utilization, and the evidence of their runs."""

    utilizations: list[int]
    each: int
    counts: list[Counts]
    evidence: Evidence

    def numbers(self, pairs: list[tuple[str, str]]) -> dict[str, Any]:
        """The counts as they are stored, of pairs of methods those of some alone."""
        both = [(a, b) for pair in pairs for a, b in (pair, pair[::-1])]
        return {"utilizations": self.utilizations, "each": self.each,
                "accepted": {method: [one.accepted[method] for one in self.counts]
                             for method in METHODS},
                "only": {f"{a} > {b}": [one.only[f"{a} > {b}"] for one in self.counts]
                         for a, b in both},
                "compared": {command: sum(one.compared[command] for one in self.counts)
                             for command in COMPARED},
                "agree": {command: sum(one.agree[command] for one in self.counts)
                          for command in COMPARED},
                "out of order": sum(one.disorder for one in self.counts)}


def rows(workers: Workers, kinds: list[list[Unit]]) -> list[Row]:
    """The counts of some kinds of sets, each a list of units."""
    made = iter(workers.map(tally, [unit for units in kinds for unit in units]))
    found = []
    for units in kinds:
        pairs = [next(made) for _ in units]
        found.append(Row([unit.utilization for unit in units], units[0].each,
                         [counts for counts, _ in pairs],
                         total([evidence for _, evidence in pairs])))
    return found


# Benches

def kernel_bounds(system: System, platform: Platform) -> dict[str, int]:
    """The bound that `refine` has for each kernel alone."""
    system.crpd.load(system.image)
    return {name: system.crpd.refined_bound(set_text(platform, [Timed(kernel, HUGE)]))
            for name, kernel in system.kernels.items()}


@dataclass(frozen=True)
class Good:
    """Data with which kernels took longest on some platform, and a platform to run them on."""

    platform: Platform
    values: dict[str, list[bytes]]


def longest_runs(system: System, good: Good) -> dict[str, int]:
    """The longest run of each kernel with these data."""
    found = {}
    for name, some in good.values.items():
        system.crpd.write("set.toml", set_text(good.platform, [Timed(system.kernels[name], HUGE)]))
        found[name] = 0
        for values in some:
            system.crpd.load(system.image.with_values(name, values))
            job = system.crpd.run(bounds.RUN_CYCLES, [Job(name, 0, 0)]).jobs[0]
            found[name] = max(found[name], job.end - good.platform.switch)
    return found


def benches(workers: Workers, found: dict[str, Any], platforms: list[Platform],
            every: int) -> dict[Platform, Bench]:
    """All that is known on some platforms, with the data of the longest runs in `found`."""
    values = {name: [bytes.fromhex(one) for one in dict.fromkeys(row["good"])]
              for name, row in found["kernels"].items()}
    narrow = list(dict.fromkeys(replace(one, sets=1) for one in platforms))
    parts = list(dict.fromkeys(replace(one, sets=size) for one in platforms
                               for size in SIZES if size <= one.sets))
    runs = dict(zip(platforms, workers.map(longest_runs, [Good(one, values) for one in platforms])))
    known = dict(zip(platforms + narrow, workers.map(know, platforms + narrow)))
    sized = dict(zip(parts, workers.map(kernel_bounds, parts)))
    image = bounds.with_longest_data(workers.system().image, found)
    return {one: Bench(known[one], Basis(one, known[replace(one, sets=1)], Slices.of(
        {size: sized[replace(one, sets=size)] for size in SIZES if size <= one.sets}), runs[one]),
        image, every) for one in platforms}


def measure(workers: Workers, found: dict[str, Any], each: int, every: int) -> dict[str, Any]:
    """The numbers of all families, with that many sets for each utilization."""
    bench = benches(workers, found, [BASE], every)[BASE]
    kinds = [[Unit(f"acceptance: {family.name}", (family.name,), family.shape, family.by_runs,
                   utilization, each, bench)
              for utilization in UTILIZATIONS] for family in FAMILIES]
    made = rows(workers, kinds)
    return {"every": every,
            "families": {family.name: {"by runs": family.by_runs, **row.numbers(COUNTED)}
                         for family, row in zip(FAMILIES, made)},
            "evidence": total([row.evidence for row in made]).numbers()}
