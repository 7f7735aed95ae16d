"""Where the cycles of a bound go: by loop and by function, on the longest path through the code that the certificate allows.

The path is found again from the certificate: which lines are surely cached before each node, and how often loops turn. If the path
does not come to the bound of the certificate, nothing is said.
"""
from __future__ import annotations

from bisect import bisect_left
from collections import defaultdict
from collections.abc import Callable, Iterable
from dataclasses import dataclass, field
from functools import cached_property

from .nodes import Instructions, Loop, Node, after, cost
from .reading import Platform, Raw


@dataclass(eq=False)
class Region:
    """A stated loop in one calling context, with its nodes; the region round it."""

    loop: Loop
    head: Node
    nodes: set[Node]
    parent: Region | None = None


@dataclass
class Spent:
    """What a loop or a function takes of a bound: how often a loop turns each time, and how often it is entered on the path; the
    cycles of one turn, all cycles, and those of loads among them."""

    address: int
    turns: int = 0
    entries: int = 0
    turn: int = 0
    cycles: int = 0
    loads: int = 0


@dataclass
class Graph:
    """The nodes of a task with where they go."""

    entry: Node
    next: dict[Node, list[Node]] = field(default_factory=dict)


def graph_of(entry: int, code: Instructions) -> Graph:
    """The nodes that a task reaches."""
    graph, todo = Graph(((), entry)), [((), entry)]
    pending: list[Node] = list(todo)
    while pending:
        node = pending.pop()
        if node not in graph.next:
            graph.next[node] = after(node, code)
            pending += graph.next[node]
    return graph


class Path:
    """The longest path of a task."""

    def __init__(self, platform: Platform, code: Instructions, entry: int, loops: list[Loop], claimed: Raw) -> None:
        self.platform, self.code, self.loops = platform, code, loops
        self.graph = graph_of(entry, code)
        self.nodes = sorted(self.graph.next)
        self.number = {node: k for k, node in enumerate(self.nodes)}
        self.cached = {number: dict(zip(flat[::2], flat[1::2])) for number, flat, _ in claimed["states"]}
        self.regions = self.find_regions()
        self.best: dict[Node, int] = {}
        self.choice: dict[Node, Node | None] = {}
        self.totals: dict[int, int] = {}

    # Costs.

    @cached_property
    def misses(self) -> set[Node]:
        """The nodes whose line may have to be loaded."""
        found: set[Node] = set()
        for number, state in self.cached.items():
            self.pass_states(self.nodes[number], dict(state), found)
        return found

    def pass_states(self, node: Node, state: dict[int, int], found: set[Node]) -> None:
        """Takes what is surely cached before a listed node to those after it that are not listed: each has one node before it."""
        while True:
            block = node[1] // self.platform.line
            if state.get(block % self.platform.sets) != block:
                found.add(node)
            state[block % self.platform.sets] = block
            goals = self.graph.next[node]
            if len(goals) != 1 or self.number[goals[0]] in self.cached:
                return
            node = goals[0]

    def load(self, node: Node) -> int:
        """The cycles of loading its line."""
        return self.platform.miss if node in self.misses else 0

    def cost(self, node: Node, goal: Node | None) -> int:
        """The cycles of a node if another one is next."""
        return cost(node, goal, self.code, self.platform) + self.load(node)

    # Regions.

    def find_regions(self) -> list[Region]:
        """The stated loops in all calling contexts, the inner ones first."""
        by_head = {loop.head: loop for loop in self.loops}
        found = {node: Region(by_head[node[1]], node, self.inside(by_head[node[1]], node[0])) for node in self.nodes if node[1] in by_head}
        for region in found.values():
            calls = region.head[0]
            heads = ((calls[:depth], head) for depth in range(len(calls) + 1) for head in by_head)
            around = [found[head] for head in heads if head in found and region.head in found[head].nodes]
            larger = [other for other in around if len(other.nodes) > len(region.nodes)]
            region.parent = min(larger, key=lambda other: len(other.nodes)) if larger else None
        return sorted(found.values(), key=lambda region: len(region.nodes))

    def inside(self, loop: Loop, calls: tuple[int, ...]) -> set[Node]:
        """The nodes that a loop has in a calling context, with those of its calls. Those of a context are side by side."""
        depth = len(calls)
        first, last = bisect_left(self.nodes, (calls, -1)), bisect_left(self.nodes, ((*calls, 1 << 33), -1))
        return {node for node in self.nodes[first:last] if loop.holds(node[1] if len(node[0]) == depth else node[0][depth])}

    @cached_property
    def innermost(self) -> dict[Node, Region]:
        """The innermost region of each node that has one."""
        found: dict[Node, Region] = {}
        for region in self.regions:
            for node in region.nodes:
                found.setdefault(node, region)
        return found

    # The longest path.

    def bound(self) -> int:
        """The cycles of the longest path."""
        for region in self.regions:
            self.measure(region.nodes, region)
        self.measure(set(self.nodes), None)
        outer = self.outermost(self.graph.entry, None)
        return self.all_turns(outer, None) if outer else self.best[self.graph.entry]

    def outermost(self, node: Node, inside: Region | None) -> Region | None:
        """The outermost region that holds a node and is inside another one."""
        found, region = None, self.innermost.get(node)
        while region is not None and region is not inside:
            found, region = region, region.parent
        return found

    def measure(self, nodes: set[Node], region: Region | None) -> None:
        """Finds the most cycles from each node of a region, or of the task, to the end of the turn or of the job; for what is in
        inner regions, those are known."""
        own = [node for node in nodes if self.innermost.get(node) is region]
        for node in self.in_order(own, region):
            options = [(self.cost(node, goal) + self.from_node(goal, region), goal) for goal in self.graph.next[node]]
            self.best[node], self.choice[node] = max(options, default=(self.cost(node, None), None), key=lambda option: option[0])

    def from_node(self, goal: Node, region: Region | None) -> int:
        """The most cycles from a node to the end of a region's turn, or of the job."""
        if region and (goal == region.head or goal not in region.nodes):
            return 0
        inner = self.outermost(goal, region)
        if inner is None:
            return self.best[goal]
        return self.all_turns(inner, region)

    def all_turns(self, inner: Region, region: Region | None) -> int:
        """The most cycles of all turns of an inner region, and of what follows in the outer one."""
        if id(inner) not in self.totals:
            follow = max((self.from_node(goal, region) for goal in self.ways_out(inner)), default=0)
            self.totals[id(inner)] = inner.loop.bound * self.best[inner.head] + follow
        return self.totals[id(inner)]

    def ways_out(self, region: Region) -> list[Node]:
        """The nodes to which a region is left."""
        return list(dict.fromkeys(goal for node in region.nodes for goal in self.graph.next[node] if goal not in region.nodes))

    def in_order(self, own: list[Node], region: Region | None) -> list[Node]:
        """The nodes of a region that no inner one has, each after all that come next in the turn."""
        mine, done, order = set(own), set[Node](), list[Node]()
        for start in own:
            stack = [(start, iter(self.followers(start, region)))]
            while stack:
                node, rest = stack[-1]
                goal = next((goal for goal in rest if goal not in done and goal in mine), None)
                if goal is None:
                    stack.pop()
                    if node not in done:
                        done.add(node)
                        order.append(node)
                else:
                    stack.append((goal, iter(self.followers(goal, region))))
        return order

    def followers(self, node: Node, region: Region | None) -> list[Node]:
        """The own nodes of a region that come after a node in a turn; inner regions are passed."""
        found: list[Node] = []
        todo, seen = list(self.graph.next[node]), set[int]()
        while todo:
            goal = todo.pop()
            if region and (goal == region.head or goal not in region.nodes):
                continue
            inner = self.outermost(goal, region)
            if inner is None:
                found.append(goal)
            elif id(inner) not in seen:
                seen.add(id(inner))
                todo += self.ways_out(inner)
        return found

    # Who takes them.

    def spent(self, starts: Callable[[int], int]) -> tuple[list[Spent], list[Spent]]:
        """What loops, and functions by their starts, take of the longest path, most first."""
        times: dict[Node, int] = defaultdict(int)
        loops: dict[int, Spent] = {}
        self.follow(self.graph.entry, None, 1, times, loops)
        functions: dict[int, Spent] = {}
        for node, count in times.items():
            start = starts(node[1])
            share = functions.setdefault(start, Spent(start))
            self.add(share, node, count)
            for address in {region.head[1] for region in self.round_node(node)}:
                self.add(loops[address], node, count)
        return in_order(loops), in_order(functions)

    def add(self, share: Spent, node: Node, count: int) -> None:
        """Adds a node that is on the path so often."""
        share.cycles += count * self.cost(node, self.choice[node])
        share.loads += count * self.load(node)

    def round_node(self, node: Node) -> Iterable[Region]:
        """The regions round a node, the innermost first."""
        region = self.innermost.get(node)
        while region is not None:
            yield region
            region = region.parent

    def follow(self, node: Node | None, region: Region | None, count: int, times: dict[Node, int], loops: dict[int, Spent]) -> None:
        """Follows the longest path from a node to the end of a region's turn, or of the job, so often."""
        while node is not None and not (region and (node not in region.nodes)):
            inner = self.outermost(node, region)
            if inner is not None:
                share = loops.setdefault(inner.head[1], Spent(inner.head[1], inner.loop.bound))
                share.entries += count
                share.turn = max(share.turn, self.best[inner.head])
                self.follow(inner.head, inner, count * inner.loop.bound, times, loops)
                ways = self.ways_out(inner)
                node = max(ways, key=lambda goal: self.from_node(goal, region)) if ways else None
                continue
            times[node] += count
            node = self.choice[node]
            if region and node == region.head:
                return


def in_order(found: dict[int, Spent]) -> list[Spent]:
    """What was met, most first."""
    return sorted(found.values(), key=lambda share: (-share.cycles, share.address))
