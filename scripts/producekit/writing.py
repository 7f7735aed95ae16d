"""Writes certificates."""
from __future__ import annotations

import json
from typing import Any

from .claims import Claims, evicted
from .faults import Unfit
from .pieces import TaskCode
from .potentials import Flow, least_potentials
from .taskset import Task, TaskSet
from .windows import Window, members

States = dict[int, int]
MOST_ENTRIES = 4_000_000


class Listing:
    """The claims of a task node by node."""

    def __init__(self, claims: Claims) -> None:
        self.claims, self.code = claims, claims.cache.code
        self.states: list[States] = [{} for _ in self.code.graph.nodes]
        for number, piece in enumerate(self.code.pieces):
            state = dict(claims.states_in(number))
            for node in piece.nodes:
                self.states[node] = state
                state = self.after(node)
        self.useful = self.useful_sets()

    def own(self, node: int) -> tuple[int, int]:
        """The cache set and the block of a node."""
        address = self.code.graph.nodes[node][1]
        return self.code.platform.own_set(address), self.code.platform.block(address)

    def after(self, node: int) -> States:
        """The state behind a node."""
        own_set, block = self.own(node)
        return {**self.states[node], own_set: block}

    def hits(self, node: int) -> bool:
        """Whether a node is counted as a hit."""
        own_set, block = self.own(node)
        return self.states[node].get(own_set) == block

    def paid(self, node: int, to: int) -> int:
        """The sets for which an edge pays, as bits."""
        after = self.after(node)
        return sum(1 << own_set for own_set, block in self.states[to].items() if after.get(own_set) != block)

    def useful_sets(self) -> list[int]:
        """The sets that are useful before each node, as bits."""
        code, found = self.code, [0] * len(self.states)
        for number, piece in enumerate(code.pieces):
            useful = self.claims.useful_behind(number, self.claims.useful_at_pieces)
            for node in reversed(piece.nodes):
                own = 1 << self.own(node)[0]
                useful = useful | own if self.hits(node) else useful & ~own
                found[node] = useful
        return found

    def listed(self) -> list[int]:
        """The nodes to be listed: leaders, heads of regions, and those at which something is fixed."""
        pieces = self.code.pieces
        fixed = {pieces[piece].nodes[0] for _, fixed in self.claims.fixed for piece, _ in fixed}
        return sorted(self.code.graph.leaders() | set(self.code.regions.heads) | fixed)

    def leaders(self) -> list[int]:
        """The nodes that have to be listed."""
        return sorted(self.code.graph.leaders())

    def entries(self, nodes: list[int]) -> list[Any]:
        """What the certificate says of nodes."""
        return [[node, [number for pair in sorted(self.states[node].items()) for number in pair], members(self.useful[node])]
                for node in nodes]

    def part(self, nodes: list[int]) -> dict[str, Any]:
        """What a certificate says of the task's code."""
        code, miss = self.code, self.code.platform.miss
        costs = [[code.graph.cost(code.platform, u, v) + (0 if self.hits(u) else miss) for v in code.graph.ways(u)]
                 for u in range(len(self.states))]
        prices = [[miss * self.paid(u, v).bit_count() for v in code.graph.after[u]] for u in range(len(self.states))]
        flow = Flow(code.regions.order, code.regions.edges, code.regions.heads, code.regions.bounds)
        found = least_potentials(flow, costs, prices)
        return {"bound": self.claims.bound, "evicting": members(evicted(self.claims.cache)), "loops": found.regions,
                "name": code.name, "potentials": found.places, "states": self.entries(nodes),
                "useful": members(self.claims.useful)}


def platform_of(taskset: TaskSet) -> dict[str, Any]:
    """The platform as a certificate has it."""
    return {key: getattr(taskset.platform, key) for key in
            ("data", "div", "hit", "line", "miss", "mul", "sets", "switch", "switching", "taken")}


def ends(task: Task, window: Window) -> dict[str, Any]:
    """The window of a task, as a certificate has it."""
    return {"method": window.method, "response": window.cycles + task.jitter, "window": window.cycles}


def expect_room(parts: list[dict[str, Any]]) -> None:
    """A certificate may not list more than the certifier reads."""
    count = sum(len(pairs) // 2 + len(useful) for part in parts for _, pairs, useful in part["states"])
    if count > MOST_ENTRIES:
        raise Unfit(f"the certificate would have {count} entries")


def plain_text(taskset: TaskSet, claims: list[Claims], windows: list[Window]) -> str:
    """A certificate of version 2."""
    tasks = []
    for task, claim, window in zip(taskset.tasks, claims, windows):
        listing = Listing(claim)
        tasks.append({**listing.part(listing.leaders()), **ends(task, window)})
    expect_room(tasks)
    return compact({"platform": platform_of(taskset), "tasks": tasks, "version": 2})


def refined_text(taskset: TaskSet, analyses: list[list[Claims]], windows: list[Window]) -> str:
    """A refined certificate."""
    listings = [[Listing(claim) for claim in claims] for claims in analyses]
    parts = [[it.part(it.listed()) for it in row] for row in listings]
    expect_room([part for row in parts for part in row])
    return compact({
        "analyses": [{"tasks": row} for row in parts],
        "platform": platform_of(taskset),
        "refined": 1,
        "windows": [{**ends(task, window), "analysis": window.analysis, "name": task.name}
                    for task, window in zip(taskset.tasks, windows)],
    })


def compact(value: Any) -> str:
    """The text of a certificate: one line, the keys of all objects in order."""
    return json.dumps(value, sort_keys=True, separators=(",", ":")) + "\n"
