"""Random task sets of kernels.

All is drawn by whole numbers alone, which are the same on every machine.
"""
from __future__ import annotations

import random
from dataclasses import dataclass
from fractions import Fraction
from functools import cache
from itertools import count, takewhile

from .kernels import HUGE
from .measuring import Knowledge, Known, Timing

# A task's share of the processor is a whole number of these parts of the set's.
SHARES = 1 << 30
# Periods that are spread over a range are powers of this factor: their logarithms are evenly
# spread, but for the grid.
FACTOR = Fraction(65, 64)
# The shortest of such periods, before all are scaled to the set's utilization.
UNIT = 1 << 20


@dataclass(frozen=True)
class Shape:
    """How sets are drawn: the number of tasks; the most that a jitter is, and what a deadline is,
    in thousandths of the period; and the range of the periods, 0 if they follow from shares."""

    tasks: int = 8
    jitter: int = 0
    deadline: int = 1000
    spread: int = 0


@dataclass(frozen=True)
class Share:
    """A kernel of a set. Its weight is its part of SHARES, or its period before scaling. Its jitter
    is in thousandths of its period."""

    kernel: str
    weight: int
    jitter: int


@dataclass(frozen=True)
class Draw:
    """A random set before its platform is known."""

    utilization: int
    shape: Shape
    shares: list[Share]


@dataclass(frozen=True)
class Placed:
    """A task of a drawn set on its platform."""

    known: Known
    timing: Timing

    @property
    def name(self) -> str:
        return self.known.part.name


def split(rng: random.Random, number: int) -> list[int]:
    """So many shares that are evenly spread over all with the sum SHARES, as those of UUniFast."""
    cuts = sorted(rng.randrange(SHARES + 1) for _ in range(number - 1))
    return [high - low for low, high in zip([0, *cuts], [*cuts, SHARES])]


@cache
def powers(spread: int) -> list[int]:
    """UNIT times the powers of FACTOR up to a range."""
    below = takewhile(lambda power: power <= spread, (FACTOR ** n for n in count()))
    return [int(UNIT * power) for power in below]


def draw(rng: random.Random, names: list[str], shape: Shape, utilization: int) -> Draw:
    """Different kernels with random shares of a utilization, or random periods."""
    kernels = rng.sample(names, shape.tasks)
    if shape.spread:
        grid = powers(shape.spread)
        weights = [rng.choice(grid) for _ in kernels]
    else:
        weights = split(rng, shape.tasks)
    jitters = [rng.randrange(shape.jitter + 1) if shape.jitter else 0 for _ in kernels]
    return Draw(utilization, shape, list(map(Share, kernels, weights, jitters)))


def periods(one: Draw, lengths: dict[str, int]) -> list[int]:
    """The periods with which jobs of these lengths have the set's utilization."""
    work = [lengths[share.kernel] for share in one.shares]
    if one.shape.spread:
        total = sum(Fraction(length, share.weight) for length, share in zip(work, one.shares))
        return [-(-share.weight * total.numerator * 100 // (total.denominator * one.utilization))
                for share in one.shares]
    return [min(HUGE, -(-length * SHARES * 100 // (max(share.weight, 1) * one.utilization)))
            for length, share in zip(work, one.shares)]


def place(one: Draw, known: Knowledge, lengths: dict[str, int]) -> list[Placed]:
    """The tasks with periods by the lengths of their jobs, and the shorter deadline before the
    longer one."""
    found = [Placed(known[share.kernel], (period, max(1, period * one.shape.deadline // 1000),
                                          period * share.jitter // 1000))
             for share, period in zip(one.shares, periods(one, lengths))]
    return sorted(found, key=lambda task: task.timing)
