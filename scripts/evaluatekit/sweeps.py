"""Weighted schedulability of random sets against one of their parameters, the others as usual."""
from __future__ import annotations

from dataclasses import dataclass, replace
from typing import Any

from .acceptance import Bench, Unit, benches, rows
from .draws import Shape
from .kernels import Platform
from .measuring import BASE, total
from .workers import Workers

# Utilizations in percent.
UTILIZATIONS = list(range(10, 101, 10))
# What is varied, with its values; deadlines and jitters in thousandths of the period.
SWEEPS = {
    "tasks": [2, 3, 4, 5, 6, 8, 10, 12, 14, 17], "sets": [8, 16, 32, 64, 128, 256, 512],
    "miss": [1, 2, 5, 10, 20, 40, 80], "deadline": [400, 500, 600, 700, 800, 900, 1000],
    "spread": [10, 20, 50, 100, 200, 500, 1000], "jitter": [0, 20, 50, 100, 200, 300, 500],
}
# The methods whose differences are written.
PAIRS = [("refined", "combination"), ("refined", "partition"), ("combination", "classic"),
         ("combination", "ecb only")]
SCALES = {"by runs": True, "by bounds": False}
# Of the sets for each utilization that a family has, one in so many is drawn at each value of a
# sweep; and one in so many times as many is compared.
SHARE, RARER = 5, 4
USUAL = Shape()


@dataclass(frozen=True)
class Point:
    """A value of a sweep on a scale."""

    scale: str
    key: str
    value: int

    @property
    def shape(self) -> Shape:
        """How its sets are drawn."""
        return USUAL if self.key in ("sets", "miss") else replace(USUAL, **{self.key: self.value})

    @property
    def platform(self) -> Platform:
        """Its platform."""
        if self.key not in ("sets", "miss"):
            return BASE
        return replace(BASE, **{self.key: self.value})

    def units(self, bench: Bench, each: int) -> list[Unit]:
        """Its sets by utilization. Sets of one shape are the same at all platforms."""
        words = f"sweeps: {self.key} {self.value}, {self.scale}"
        return [Unit(words, ("sweep", self.shape), self.shape, SCALES[self.scale], utilization,
                     each, bench) for utilization in UTILIZATIONS]


def measure(workers: Workers, found: dict[str, Any], each: int, every: int) -> dict[str, Any]:
    """The numbers of all sweeps on both scales."""
    points = [Point(scale, key, value) for scale in SCALES for key, values in SWEEPS.items()
              for value in values]
    platforms = list(dict.fromkeys(point.platform for point in points))
    known = benches(workers, found, platforms, every * RARER)
    here = max(1, each // SHARE)
    made = rows(workers, [point.units(known[point.platform], here) for point in points])
    sweeps: dict[str, dict[str, Any]] = {scale: {} for scale in SCALES}
    for point, row in zip(points, made):
        sweep = sweeps[point.scale].setdefault(point.key, {"values": [], "rows": []})
        sweep["values"].append(point.value)
        sweep["rows"].append(row.numbers(PAIRS))
    return {"tasks": USUAL.tasks, "every": every * RARER,
            "each": here, "sweeps": sweeps,
            "evidence": total([row.evidence for row in made]).numbers()}
