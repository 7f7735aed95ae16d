"""Works out the parts of tasks from their code and their stated loops, without and with blocks that stay in a loop: an independent
reading of docs/FORMATS.md, "How a window adds up".

A region is a stated loop with the calls that are under way at its head. Sets of cache sets are whole numbers, one bit for each.
"""
from __future__ import annotations

from collections.abc import Iterable
from dataclasses import dataclass, field

from commonkit.elf import Elf

from .nodes import Instructions, Loop, Node, after, cost, entry_of, stated_loops
from .program import Code
from .reading import Platform, Raw, TaskSet

MOST_NODES = 20_000  # of all tasks together; with more it takes too long

Edge = tuple[int, int]
Held = dict[int, int]  # the block that each cache set holds, if one is known


@dataclass(frozen=True)
class Region:
    """The head and the nodes of a loop where certain calls are under way."""

    head: int
    bound: int
    nodes: frozenset[int]


@dataclass(frozen=True)
class Part:
    """What windows count of a task: its bound, the cache sets that it evicts and that are useful to it, and those that are useful at
    one node, without the ones that another node has too."""

    bound: int
    evicting: int
    useful: int
    points: list[int]


class Flow:
    """The nodes of a task, the entry's first and each behind some node from which it is reached; the nodes after each; the regions."""

    def __init__(self, instructions: Instructions, entry: int, loops: list[Loop]) -> None:
        self.instructions = instructions
        self.nodes = self.ordered(((), entry))
        number = {node: place for place, node in enumerate(self.nodes)}
        self.after = [[number[node] for node in after(here, instructions)] for here in self.nodes]
        self.regions = [Region(place, loop.bound, self.inside(node, loop)) for place, node in enumerate(self.nodes) for loop in loops
                        if node[1] == loop.head]
        self.regions.sort(key=lambda region: len(region.nodes))
        self.around: list[list[int]] = [[] for _ in self.nodes]  # the regions round each node, the innermost first
        for place, region in enumerate(self.regions):
            for u in region.nodes:
                self.around[u].append(place)

    def ordered(self, first: Node) -> list[Node]:
        """The nodes in reverse postorder."""
        found: list[Node] = []
        seen, path = {first}, [(first, iter(after(first, self.instructions)))]
        while path:
            node, rest = path[-1]
            other = next((other for other in rest if other not in seen), None)
            if other is None:
                found.append(node)
                path.pop()
            else:
                seen.add(other)
                path.append((other, iter(after(other, self.instructions))))
        return found[::-1]

    def inside(self, head: Node, loop: Loop) -> frozenset[int]:
        """The nodes of a loop with the calls of a head, with those that it calls."""
        depth, found = len(head[0]), []
        for place, (calls, address) in enumerate(self.nodes):
            if calls[:depth] == head[0] and loop.holds(calls[depth] if len(calls) > depth else address):
                found.append(place)
        return frozenset(found)

    def edges(self) -> Iterable[Edge]:
        return ((u, v) for u, after in enumerate(self.after) for v in after)

    def cost(self, u: int, v: int | None, is_hit: bool, p: Platform) -> int:
        """The cycles of a node's instruction where a node comes next, or none does."""
        goal = None if v is None else self.nodes[v]
        return cost(self.nodes[u], goal, self.instructions, p) + p.miss * (not is_hit)


@dataclass(frozen=True)
class Brought:
    """The blocks that are loaded in advance: at the start, and by the edges into regions."""

    start: Held = field(default_factory=dict)
    edges: dict[Edge, Held] = field(default_factory=dict)


def persistent(flow: Flow, p: Platform) -> Brought:
    """What edges into regions load in advance: each block that is the only one of its cache set in the region."""
    found = Brought()
    for region in flow.regions:
        blocks = {flow.nodes[u][1] // p.line for u in region.nodes}
        sets = [block % p.sets for block in blocks]
        stay = {block % p.sets: block for block in blocks if sets.count(block % p.sets) == 1}
        if region.head == 0:
            found.start.update(stay)
        for u, v in flow.edges():
            if v == region.head and u not in region.nodes:
                found.edges[u, v] = stay
    return found


class Analysis:
    """What the cache sets hold before each node on all paths, with what is loaded in advance; the hits; what edges pay for."""

    def __init__(self, flow: Flow, p: Platform, brought: Brought) -> None:
        self.flow, self.platform, self.brought = flow, p, brought
        self.block = [address // p.line for _, address in flow.nodes]
        self.own = [block % p.sets for block in self.block]
        self.held = self.fixpoint()
        self.hits = [held.get(own) == block for held, own, block in zip(self.held, self.own, self.block)]
        self.paid = {(u, v): {at for at, block in blocks.items() if self.passed(u, self.held[u]).get(at) != block}
                     for (u, v), blocks in brought.edges.items()}

    def passed(self, u: int, held: Held) -> Held:
        """What is held after a node."""
        return {**held, self.own[u]: self.block[u]}

    def fixpoint(self) -> list[Held]:
        held: list[Held | None] = [None] * len(self.flow.nodes)
        held[0] = dict(self.brought.start)
        todo = {0}
        while todo:
            u = min(todo)
            todo.remove(u)
            here = self.passed(u, held[u] or {})
            for v in self.flow.after[u]:
                come, there = {**here, **self.brought.edges.get((u, v), {})}, held[v]
                joined = come if there is None else {at: block for at, block in there.items() if come.get(at) == block}
                if joined != there:
                    held[v] = joined
                    todo.add(v)
        return [found or {} for found in held]

    def price(self, u: int, v: int) -> int:
        return self.platform.miss * len(self.paid.get((u, v), ()))

    def useful(self) -> list[int]:
        """The cache sets that are useful before each node."""
        found = [1 << own if hit else 0 for own, hit in zip(self.own, self.hits)]
        cuts = {edge: sum(1 << at for at in paid) for edge, paid in self.paid.items()}
        changed = True
        while changed:
            changed = False
            for u in reversed(range(len(found))):
                later = 0
                for v in self.flow.after[u]:
                    later |= found[v] & ~cuts.get((u, v), 0)
                here = found[u] | later & ~(1 << self.own[u])
                changed, found[u] = changed or here != found[u], here
        return found

    def bound(self) -> int:
        """The least potential of the first node, or of the outermost region round it, and what the start pays for."""
        values = Potentials(self)
        return values.item(None, 0) + self.platform.miss * len(self.brought.start)

    def part(self) -> Part:
        useful = self.useful()
        points = set(useful)
        largest = sorted(one for one in points if not any(one != other and one & ~other == 0 for other in points))
        return Part(self.bound(), union(1 << own for own in self.own), union(useful), largest)


class Potentials:
    """The numbers of nodes and of regions, raised until no inequality requires more."""

    def __init__(self, analysis: Analysis) -> None:
        self.analysis, self.flow = analysis, analysis.flow
        self.nodes, self.regions = [0] * len(self.flow.nodes), [0] * len(self.flow.regions)
        before: tuple[list[int], list[int]] | None = None
        while before != (self.nodes, self.regions):
            before = list(self.nodes), list(self.regions)
            for u in reversed(range(len(self.nodes))):
                self.nodes[u] = max(self.asked(u), self.nodes[u])
            for place in range(len(self.regions)):
                self.regions[place] = max(self.all_turns(place), self.regions[place])

    def item(self, level: int | None, v: int) -> int:
        """What stands for a node in a region, or outside of all: the outermost region below that holds it, or the node."""
        around = self.flow.around[v]
        below = around if level is None else around[:around.index(level)]
        return self.regions[below[-1]] if below else self.nodes[v]

    def later(self, level: int | None, u: int, v: int) -> int:
        """What comes in a region after an edge, with the edge's price; nothing if the region is left or begins again."""
        if level is not None and (v == self.flow.regions[level].head or level not in self.flow.around[v]):
            return 0
        return self.analysis.price(u, v) + self.item(level, v)

    def asked(self, u: int) -> int:
        """What the edges of a node require of it, or its end."""
        flow, p, hit = self.flow, self.analysis.platform, self.analysis.hits[u]
        level = flow.around[u][0] if flow.around[u] else None
        ways = [flow.cost(u, v, hit, p) + self.later(level, u, v) for v in flow.after[u]]
        return max(ways) if ways else flow.cost(u, None, hit, p)

    def all_turns(self, place: int) -> int:
        """What the turns of a region require, with what comes after it."""
        region = self.flow.regions[place]
        around = self.flow.around[region.head]
        outer = around[around.index(place) + 1:]
        exits = [self.later(outer[0] if outer else None, u, v) for u in region.nodes for v in self.flow.after[u]
                 if v not in region.nodes]
        return region.bound * self.nodes[region.head] + max(exits, default=0)


def union(sets: Iterable[int]) -> int:
    found = 0
    for one in sets:
        found |= one
    return found


@dataclass(frozen=True)
class Parts:
    """A task's part without loads in advance, and the chosen one: that with them if its bound is smaller."""

    plain: Part
    chosen: Part


def parts_of(flow: Flow, p: Platform) -> Parts:
    """The parts of a task."""
    plain = Analysis(flow, p, Brought()).part()
    other = Analysis(flow, p, persistent(flow, p)).part()
    return Parts(plain, other if other.bound < plain.bound else plain)


def all_parts(code: Code, files: dict[str, Elf], given: TaskSet, raw: Raw) -> list[Parts]:
    """The parts of all tasks; none if there are too many nodes."""
    flows: list[Flow] = []
    for task in raw["task"]:
        own = files[task["file"]]
        flows.append(Flow(code.instructions, entry_of(task, own), stated_loops(task, own)))
        if sum(len(flow.nodes) for flow in flows) > MOST_NODES:
            return []
    return [parts_of(flow, given.platform) for flow in flows]
