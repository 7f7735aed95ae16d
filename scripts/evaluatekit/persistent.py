"""The cache sets that are useful with persistent blocks, recomputed from a kernel's code and loops.

Where all nodes of a loop's region that access a cache set access the same block, the edge that
enters the region pays for one load of it, and the block counts as loaded from there on. What is
useful follows from the same states: a preemption may cost the reload of a block that was paid for
only once.
"""
from dataclasses import dataclass
from functools import cached_property

from .kernels import Image, Kernel
from .points import Flow, Node


@dataclass(frozen=True)
class Region:
    """The nodes of a loop in one context, with the pairs of a set and a block that stay in it."""

    head: Node
    nodes: frozenset[Node]
    pairs: dict[int, int]


def address(image: Image, place: str) -> int:
    """The address of a place as a task set writes it."""
    name, _, offset = place.partition("+")
    return image.symbols[name].address + (int(offset, 0) if offset else 0)


def steady(nodes: frozenset[Node], line: int, sets: int) -> dict[int, int]:
    """The block of each set of which these nodes access no other block."""
    blocks: dict[int, set[int]] = {}
    for _, at in nodes:
        blocks.setdefault(at // line % sets, set()).add(at // line)
    return {one: min(found) for one, found in blocks.items() if len(found) == 1}


def regions(image: Image, kernel: Kernel, flow: Flow, line: int, sets: int) -> list[Region]:
    """A region for each loop and each context in which its head is reached."""
    found = []
    for loop in kernel.loops:
        head = address(image, loop.head)
        ranges = [range(address(image, first), address(image, end)) for first, end in loop.ranges]
        for context in {calls for calls, at in flow.after if at == head}:
            nodes = frozenset(node for node in flow.after if inside(node, context, ranges))
            found.append(Region((context, head), nodes, steady(nodes, line, sets)))
    return found


def inside(node: Node, context: tuple[int, ...], ranges: list[range]) -> bool:
    """Whether a region holds a node, itself or by a call from it."""
    calls, at = node
    if calls[:len(context)] != context:
        return False
    place = calls[len(context)] if len(calls) > len(context) else at
    return any(place in one for one in ranges)


class Persistent:
    """The prepaid states of a kernel on a cache, and what is useful by them."""

    def __init__(self, flow: Flow, found: list[Region], line: int, sets: int) -> None:
        self.flow, self.line, self.sets = flow, line, sets
        self.regions = {region.head: region for region in found}

    def own(self, node: Node) -> tuple[int, int]:
        """The set and the block that a node accesses."""
        return node[1] // self.line % self.sets, node[1] // self.line

    def entered(self, node: Node, other: Node) -> dict[int, int]:
        """The pairs that stay in the region that an edge enters; none if it enters none."""
        region = self.regions.get(other)
        return region.pairs if region and node not in region.nodes else {}

    def behind(self, node: Node) -> dict[int, int]:
        """The state after a node."""
        one, block = self.own(node)
        return {**self.states[node], one: block}

    @cached_property
    def states(self) -> dict[Node, dict[int, int]]:
        """The blocks that are cached, or paid for, before each node on all paths, by set."""
        first = self.flow.first
        start = self.regions[first].pairs if first in self.regions else {}
        found: dict[Node, dict[int, int]] = {first: dict(start)}
        todo = [first]
        while todo:
            node = todo.pop()
            one, block = self.own(node)
            here = {**found[node], one: block}
            for other in self.flow.after[node]:
                new = joined(found.get(other), {**here, **self.entered(node, other)})
                if new != found.get(other):
                    found[other] = new
                    todo.append(other)
        return found

    def paid(self, node: Node, other: Node) -> int:
        """The sets for which an edge pays."""
        state = self.behind(node)
        return sum(1 << one for one, block in self.entered(node, other).items()
                   if state.get(one) != block)

    def useful(self) -> dict[Node, int]:
        """The sets that are useful at each node: some path from there makes its next access to the
        set at a node that counts as a hit, and no edge up to it pays for the set."""
        paid = {(node, other): self.paid(node, other)
                for node, after in self.flow.after.items() for other in after}
        found = dict.fromkeys(self.flow.after, 0)
        changed = True
        while changed:
            changed = False
            for node in reversed(self.flow.after):
                one, block = self.own(node)
                later = 0
                for other in self.flow.after[node]:
                    later |= found[other] & ~paid[node, other]
                hit = self.states[node].get(one) == block
                here = later | 1 << one if hit else later & ~(1 << one)
                if here != found[node]:
                    found[node], changed = here, True
        return found


def joined(old: dict[int, int] | None, new: dict[int, int]) -> dict[int, int]:
    """What holds by both states; the new one where there is no old one."""
    if old is None:
        return new
    return {one: block for one, block in old.items() if new.get(one) == block}
