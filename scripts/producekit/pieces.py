"""Straight pieces of a task's code, and the lines that each of them visits."""
from __future__ import annotations

from dataclasses import dataclass

from .graph import Graph
from .potentials import Flow
from .regions import Edge, Regions
from .taskset import Platform


@dataclass(frozen=True)
class Visit:
    """Successive nodes in one line."""

    block: int
    own_set: int
    nodes: int


@dataclass(frozen=True)
class Piece:
    """Nodes that follow each other, with their visits."""

    nodes: list[int]
    visits: list[Visit]


@dataclass(frozen=True)
class TaskCode:
    """A task's code: its graph with its regions, and the same by pieces.

    `costs` are those of the way through a piece along each of its edges (or to the end), with no load. `before` has for each piece
    the piece and the place among its edges of each edge towards it.
    """

    name: str
    platform: Platform
    graph: Graph
    regions: Regions
    pieces: list[Piece]
    flow: Flow
    costs: list[list[int]]
    before: list[list[tuple[int, int]]]
    first: int
    around: list[tuple[int, ...]]

    def members(self, region: int) -> list[int]:
        """The pieces that a region holds."""
        return [piece for piece, regions in enumerate(self.around) if region in regions]


def cuts(graph: Graph, regions: Regions) -> set[int]:
    """The nodes at which pieces begin."""
    begun = graph.leaders() | set(regions.heads)
    return begun | {v for v, (u, *_) in ((v, edges) for v, edges in enumerate(graph.before) if edges)
                    if regions.around[u] != regions.around[v]}


def straight(graph: Graph, start: int, begun: set[int]) -> list[int]:
    """The nodes of the piece that begins at a node."""
    nodes = [start]
    while len(graph.after[nodes[-1]]) == 1 and graph.after[nodes[-1]][0] not in begun:
        nodes.append(graph.after[nodes[-1]][0])
    return nodes


def visits_of(graph: Graph, platform: Platform, nodes: list[int]) -> list[Visit]:
    """The lines that nodes visit one after the other."""
    found: list[Visit] = []
    for node in nodes:
        address = graph.nodes[node][1]
        block, count = platform.block(address), 1
        if found and found[-1].block == block:
            count += found.pop().nodes
        found.append(Visit(block, platform.own_set(address), count))
    return found


def cut(name: str, platform: Platform, graph: Graph, regions: Regions) -> TaskCode:
    """A task's code by pieces."""
    begun = cuts(graph, regions)
    starts = [node for node in regions.order if node in begun]
    number = {node: piece for piece, node in enumerate(starts)}
    pieces = [Piece(nodes, visits_of(graph, platform, nodes)) for nodes in (straight(graph, node, begun) for node in starts)]
    edges = [[Edge(piece, number[edge.target], edge.leaves, edge.enters, edge.back) for edge in regions.edges[it.nodes[-1]]]
             for piece, it in enumerate(pieces)]
    before: list[list[tuple[int, int]]] = [[] for _ in pieces]
    for piece, out in enumerate(edges):
        for k, edge in enumerate(out):
            before[edge.target].append((piece, k))
    costs = [costs_of(graph, platform, it.nodes) for it in pieces]
    flow = Flow(list(range(len(pieces))), edges, [number[head] for head in regions.heads], regions.bounds)
    around = [regions.around[node] for node in starts]
    return TaskCode(name, platform, graph, regions, pieces, flow, costs, before, number[graph.first], around)


def costs_of(graph: Graph, platform: Platform, nodes: list[int]) -> list[int]:
    """The cycles through a piece, along each edge from its last node."""
    within = sum(graph.cost(platform, u, v) for u, v in zip(nodes, nodes[1:]))
    last = nodes[-1]
    return [within + graph.cost(platform, last, to) for to in graph.ways(last)]
