"""The regions of a task: its stated loops in each calling context."""
from __future__ import annotations

from dataclasses import dataclass
from itertools import pairwise

from .faults import Unfit
from .graph import Context, Graph


@dataclass(frozen=True)
class Loop:
    """A stated loop by addresses."""

    head: int
    bound: int
    ranges: tuple[tuple[int, int], ...]

    def holds(self, address: int) -> bool:
        """Whether an address belongs to it."""
        return address == self.head or any(first <= address < end for first, end in self.ranges)


@dataclass(frozen=True)
class Edge:
    """An edge: the outermost region that it leaves, the region that it enters, and whether it begins a further turn."""

    source: int
    target: int
    leaves: int | None
    enters: int | None
    back: bool


@dataclass(frozen=True)
class Regions:
    """Regions by number: heads and bounds. For each node the regions that hold it, the outermost first, and the edges from it.

    In `order` each node comes before those that follow it without a further turn.
    """

    heads: list[int]
    bounds: list[int]
    around: list[tuple[int, ...]]
    edges: list[list[Edge]]
    order: list[int]


def find_regions(graph: Graph, loops: list[Loop], name: str) -> Regions:
    """The regions of a graph, or why the stated loops are none."""
    if len({loop.head for loop in loops}) < len(loops):
        raise Unfit(f"{name}: two loops have one head")
    by_head = {loop.head: loop for loop in loops}
    heads = [k for k, (_, address) in enumerate(graph.nodes) if address in by_head]
    stated = [by_head[graph.nodes[head][1]] for head in heads]
    around = nested(graph, holding(graph, heads, stated), name)
    if any(heads[region] != graph.first for region in around[graph.first]):
        raise Unfit(f"{name}: its entry is in a loop and not its head")
    edges = [[edge_of(graph, heads, around, u, v, name) for v in graph.after[u]] for u in range(len(graph.nodes))]
    return Regions(heads, [loop.bound for loop in stated], around, edges, ordered(graph, edges, name))


def holding(graph: Graph, heads: list[int], stated: list[Loop]) -> list[list[int]]:
    """For each node the regions that hold it."""
    by_context: dict[Context, list[int]] = {}
    for region, head in enumerate(heads):
        by_context.setdefault(graph.nodes[head][0], []).append(region)
    found = []
    for context, address in graph.nodes:
        path = (*context, address)
        found.append([region for depth in range(len(path)) for region in by_context.get(path[:depth], [])
                      if stated[region].holds(path[depth])])
    return found


def nested(graph: Graph, held: list[list[int]], name: str) -> list[tuple[int, ...]]:
    """For each node its regions, the outermost first; they have to be nested."""
    sizes: dict[int, int] = {}
    for regions in held:
        for region in regions:
            sizes[region] = sizes.get(region, 0) + 1
    around = [tuple(sorted(regions, key=lambda region: (-sizes[region], region))) for regions in held]
    parents: dict[int, int] = {}
    for node, chain in enumerate(around):
        for outer, inner in pairwise((-1, *chain)):
            if parents.setdefault(inner, outer) != outer:
                raise Unfit(f"{name}: loops overlap at {graph.nodes[node][1]:08x}")
    return around


def edge_of(graph: Graph, heads: list[int], around: list[tuple[int, ...]], u: int, v: int, name: str) -> Edge:
    """An edge, which may enter a region at its head alone."""
    left = [region for region in around[u] if region not in around[v]]
    entered = [region for region in around[v] if region not in around[u]]
    if len(entered) > 1 or entered and heads[entered[0]] != v:
        raise Unfit(f"{name}: a loop is entered beside its head at {graph.nodes[v][1]:08x}")
    back = any(heads[region] == v for region in around[u])
    return Edge(u, v, left[0] if left else None, entered[0] if entered else None, back)


def ordered(graph: Graph, edges: list[list[Edge]], name: str) -> list[int]:
    """The nodes so that each comes before those that follow it; edges of further turns do not count."""
    waiting = [0] * len(graph.nodes)
    for edge in (edge for out in edges for edge in out if not edge.back):
        waiting[edge.target] += 1
    ready = [node for node, count in enumerate(waiting) if count == 0]
    order: list[int] = []
    while ready:
        order.append(ready.pop())
        for edge in (edge for edge in edges[order[-1]] if not edge.back):
            waiting[edge.target] -= 1
            if waiting[edge.target] == 0:
                ready.append(edge.target)
    if len(order) < len(graph.nodes):
        stuck = next(node for node, count in enumerate(waiting) if count > 0)
        raise Unfit(f"{name}: a cycle without a stated loop leads to {graph.nodes[stuck][1]:08x}")
    return order
