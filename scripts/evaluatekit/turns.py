"""How often a run reaches the heads of loops, and how often stated bounds let it.

A bound counts each entry of a loop with the most turns. If an inner loop makes 1, 2, 3 .. turns,
or fewer the more the outer one makes, the bounds allow more turns than there are.
"""
from __future__ import annotations

from dataclasses import dataclass
from fractions import Fraction
from typing import Any

from .kernels import Image, Kernel, Platform
from .persistent import Region, address, regions
from .points import Flow, Node
from .stepping import Walk


@dataclass(frozen=True)
class Turned:
    """A loop in one context: how often the run reached its head, how often the bounds allow that,
    and the cycles that it took, those of inner loops apart."""

    head: Node
    reached: int
    allowed: Fraction
    cycles: int

    def more(self) -> Fraction:
        """What the turns beyond those of the run cost, if each is like those of the run."""
        return (self.allowed - self.reached) * Fraction(self.cycles, self.reached)


class Turns:
    """The loops of a run."""

    def __init__(self, image: Image, kernel: Kernel, platform: Platform, run: Walk) -> None:
        flow = Flow(image, image.symbols[kernel.name].address)
        found = regions(image, kernel, flow, platform.line, platform.sets)
        self.bounds = {address(image, loop.head): loop.bound for loop in kernel.loops}
        # Inner loops come after outer ones.
        self.regions = sorted(found, key=lambda region: -len(region.nodes))
        self.run = run

    def parent(self, region: Region) -> Region | None:
        """The innermost loop round another one."""
        return self.innermost(region.head, [one for one in self.regions if one is not region])

    def innermost(self, node: Node, some: list[Region]) -> Region | None:
        """The innermost of some loops that has a node."""
        return next((region for region in reversed(some) if node in region.nodes), None)

    def counted(self, region: Region) -> tuple[int, int]:
        """How often a loop was entered, and how often its head was reached."""
        nodes = [start.node for start in self.run.starts]
        reached = [n for n, node in enumerate(nodes) if node == region.head]
        return sum(n == 0 or nodes[n - 1] not in region.nodes for n in reached), len(reached)

    def cycles(self) -> dict[Node, int]:
        """The cycles of each loop by its head, those of inner loops apart."""
        found = {region.head: 0 for region in self.regions}
        inner = {node: self.innermost(node, self.regions)
                 for node in {start.node for start in self.run.starts}}
        ends = [start.cycle for start in self.run.starts[1:]] + [self.run.cycles]
        for start, end in zip(self.run.starts, ends):
            region = inner[start.node]
            if region:
                found[region.head] += end - start.cycle
        return found

    def loops(self) -> list[Turned]:
        """All loops that the run reached."""
        found: dict[Node, Turned] = {}
        cycles = self.cycles()
        for region in self.regions:
            entered, reached = self.counted(region)
            parent = self.parent(region)
            outer = found.get(parent.head) if parent else None
            entries = entered * (outer.allowed / outer.reached if outer else Fraction(1))
            if reached:
                allowed = entries * self.bounds[region.head[1]]
                found[region.head] = Turned(region.head, reached, allowed, cycles[region.head])
        return list(found.values())


def numbers(image: Image, kernel: Kernel, platform: Platform, run: Walk) -> dict[str, Any]:
    """How often the heads of the loops were reached, by address, and how often the bounds allow
    that; and the cycles that the difference costs, if each turn is like those of the run."""
    loops = Turns(image, kernel, platform, run).loops()
    return {"heads": {f"{one.head[1]:08x}": [one.reached, round(one.allowed)] for one in loops},
            "more": round(sum((one.more() for one in loops), Fraction(0)))}
