"""Random sets with stated execution times and cache sets, as the papers draw them.

Altmeyer, Davis and Maiza (2012) draw sets of 10 tasks: utilizations by UUniFast; periods from 5 to
500 ms whose logarithms are evenly spread; deadlines equal to periods, and the shorter one before
the longer one; a cache of 256 sets and 8 microseconds for a reload; the evicting cache sets by
UUniFast for a sum of 10 caches, one after the other from a random one on; and from none up to 30
percent of these as useful ones, evenly spread. There is no cost of a switch and no jitter.

What is assumed here beyond that: which of its evicting sets are useful to a task is drawn, each as
likely as the others; a task fills at least one set and at most all; times are whole numbers of 10
nanoseconds, and execution times are rounded up. All is drawn by whole numbers alone.
"""
from __future__ import annotations

import random
from collections import Counter
from concurrent.futures import ProcessPoolExecutor
from dataclasses import dataclass
from multiprocessing import get_context
from typing import Any

from .draws import SHARES, split
from .measuring import mask
from .windows import ORDER, Parts, Task, TaskSet, Window, never_longer, windows_by

# Times are in units of so many nanoseconds.
UNIT = 10
SHORTEST, LONGEST, RELOAD = 500_000, 50_000_000, 800
TASKS, CACHE_SETS, CACHES = 10, 256, 10
# Utilizations in percent: for the two kinds of reuse, and for those of the sweep.
UTILIZATIONS, SWEPT = list(range(5, 101, 5)), list(range(10, 101, 10))
METHODS = ["none", "combination", "ucb multiset", "ecb multiset", "classic", "plain ucb",
           "plain ecb", "ucb only", "ecb only"]
# Methods whose differences are written.
PAIRS = [("ecb multiset", "ucb multiset"), ("combination", "ecb multiset"),
         ("combination", "classic"), ("plain ecb", "plain ucb"), ("combination", "ecb only"),
         ("none", "combination")]


@dataclass(frozen=True)
class Reuse:
    """Which part of its evicting sets is useful to a task, in percent: evenly spread from the least
    to the most."""

    name: str
    least: int
    most: int


PUBLISHED, KERNELS = Reuse("as published", 0, 30), Reuse("as the kernels", 97, 97)
REUSES = [PUBLISHED, KERNELS]
SWEEP = [Reuse(f"{share} percent", share, share) for share in (10, 30, 50, 70, 90)]


def log_uniform(rng: random.Random, low: int, high: int) -> int:
    """A number whose logarithm is evenly spread: each is taken with a chance inverse to itself."""
    while True:
        number = rng.randint(low, high)
        if rng.randrange(number) < low:
            return number


def cache_sets(rng: random.Random, part: int, reuse: Reuse) -> tuple[int, int]:
    """The evicting sets of a task with that part of the cache, and those useful to it."""
    count = min(CACHE_SETS, max(1, part * CACHES * CACHE_SETS // SHARES))
    first = rng.randrange(CACHE_SETS)
    evicting = [(first + n) % CACHE_SETS for n in range(count)]
    useful = rng.randint(reuse.least * count // 100, reuse.most * count // 100)
    return mask(evicting), mask(rng.sample(evicting, useful))


def draw(rng: random.Random, reuse: Reuse, utilization: int) -> TaskSet:
    """A random set."""
    found = []
    for share, part in zip(split(rng, TASKS), split(rng, TASKS)):
        period = log_uniform(rng, SHORTEST, LONGEST)
        execution = max(1, -(-period * share * utilization // (100 * SHARES)))
        found.append(Task(execution, *cache_sets(rng, part, reuse), period, period))
    return TaskSet(sorted(found, key=lambda task: task.period), 0, RELOAD)


@dataclass(frozen=True)
class Unit:
    """The sets of one utilization."""

    seed: str
    reuse: Reuse
    utilization: int
    each: int


def tally(unit: Unit) -> dict[str, Counter[str]]:
    """How many of a unit's sets each method accepts, how many one accepts and another does not, and
    how many pairs of methods are out of order."""
    rng = random.Random(f"{unit.seed}/synthetic/{unit.reuse.name}/{unit.utilization}")
    accepted, only, disorder = Counter[str](), Counter[str](), 0
    for _ in range(unit.each):
        tasks = draw(rng, unit.reuse, unit.utilization)
        parts = Parts(tasks, tasks)
        found = {method: windows_by(method, parts) for method in METHODS}
        accepting = {method for method, by in found.items() if len(by) == TASKS}
        accepted.update(accepting)
        only.update(f"{a} > {b}" for pair in PAIRS for a, b in (pair, pair[::-1])
                    if a in accepting and b not in accepting)
        disorder += out_of_order(found)
    return {"accepted": accepted, "only": only, "disorder": Counter({"pairs": disorder})}


def out_of_order(found: dict[str, list[Window]]) -> int:
    """The pairs of methods of which the better one by its formula has a longer window."""
    return sum(not never_longer(found[a], found[b]) for a, b in ORDER
               if a in found and b in found)


def family(units: list[Unit], tallies: list[dict[str, Counter[str]]]) -> dict[str, Any]:
    """The counts of all utilizations, as those of other random sets are stored."""
    reuse, both = units[0].reuse, [f"{a} > {b}" for pair in PAIRS for a, b in (pair, pair[::-1])]
    return {"reuse": [reuse.least, reuse.most], "each": units[0].each,
            "utilizations": [unit.utilization for unit in units],
            "accepted": {method: [one["accepted"][method] for one in tallies]
                         for method in METHODS},
            "only": {pair: [one["only"][pair] for one in tallies] for pair in both},
            "out of order": sum(one["disorder"]["pairs"] for one in tallies)}


def units_of(seed: str, reuse: Reuse, utilizations: list[int], sets: int) -> list[Unit]:
    """The units of a kind of reuse."""
    return [Unit(seed, reuse, utilization, sets) for utilization in utilizations]


def drawn(sets: int) -> int:
    """How many sets are drawn for each utilization, if that many are asked for of other ones. It is
    at least one, and by default 400."""
    return max(1, 2 * sets // 5)


def measure(seed: str, sets: int, processes: int) -> dict[str, Any]:
    """The numbers of both kinds of reuse and of the sweep, with that many sets for each
    utilization. They do not depend on the number of processes."""
    kinds = {reuse.name: units_of(seed, reuse, UTILIZATIONS, sets) for reuse in REUSES}
    kinds |= {reuse.name: units_of(seed, reuse, SWEPT, sets) for reuse in SWEEP}
    with ProcessPoolExecutor(processes, get_context("fork")) as pool:
        made = iter(list(pool.map(tally, [unit for units in kinds.values() for unit in units])))
    rows = {name: family(units, [next(made) for _ in units]) for name, units in kinds.items()}
    return {"tasks": TASKS, "cache sets": CACHE_SETS,
            "families": {reuse.name: rows[reuse.name] for reuse in REUSES},
            "sweep": [rows[reuse.name] for reuse in SWEEP]}


def differences(stored: dict[str, Any], place: int) -> list[str]:
    """Whether the published sets of one utilization, by its place, give what is stored."""
    row = stored["families"][PUBLISHED.name]
    unit = Unit(stored["seed"], PUBLISHED, row["utilizations"][place], row["each"])
    found = tally(unit)["accepted"]
    return [f"synthetic: {method} accepts {found[method]} sets, and {counts[place]} are stored"
            for method, counts in row["accepted"].items() if found[method] != counts[place]]
