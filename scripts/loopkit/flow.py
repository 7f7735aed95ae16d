"""The flow inside a function: its loops, its cycles with two entries, and what never ends."""
from __future__ import annotations

from collections.abc import Set
from dataclasses import dataclass, field

from commonkit.code import ECALL, RETURN

from .program import Program

Edges = dict[int, list[int]]


@dataclass
class Function:
    """The instructions that a function reaches without those that it calls, with where each goes."""

    entry: int
    edges: Edges
    calls: dict[int, int] = field(default_factory=dict)


@dataclass(eq=False)
class Loop:
    """A natural loop: its head, its nodes, and the sources of its back edges."""

    head: int
    body: frozenset[int]
    latches: tuple[int, ...]
    parent: Loop | None = None
    children: list[Loop] = field(default_factory=list)

    def own(self) -> set[int]:
        """The nodes that no inner loop holds."""
        return set(self.body).difference(*(child.body for child in self.children))

    def depth(self) -> int:
        return 0 if self.parent is None else self.parent.depth() + 1


@dataclass
class Strange:
    """A cycle that is entered at several places, with these."""

    nodes: list[int]
    entries: list[int]


def turned(edges: Edges) -> Edges:
    """The edges the other way round."""
    before: Edges = {a: [] for a in edges}
    for a, after in edges.items():
        for b in after:
            before[b].append(a)
    return before


def reached_from(edges: Edges, starts: list[int]) -> set[int]:
    found, todo = set(), list(starts)
    while todo:
        a = todo.pop()
        if a not in found:
            found.add(a)
            todo.extend(edges[a])
    return found


def flow_of(program: Program, entry: int, endless: Set[int] = frozenset()) -> Function:
    """The flow from an entry; after calls of `endless` functions nothing follows."""
    function = Function(entry, {})
    todo = [entry]
    while todo:
        a = todo.pop()
        if a in function.edges:
            continue
        callee = program.called(a)
        if callee is not None:
            function.calls[a] = callee
        function.edges[a] = [] if callee in endless else program.next(a)
        todo.extend(function.edges[a])
    return function


def call_graph(program: Program, entry: int) -> dict[int, Function]:
    """The functions that a task reaches, the entry first; what follows a call of one that never returns is left out."""
    endless: set[int] = set()
    while True:
        found: dict[int, Function] = {}
        todo = [entry]
        while todo:
            start = todo.pop(0)
            if start not in found and program.word(start) is not None:
                found[start] = flow_of(program, start, endless)
                todo.extend(found[start].calls[a] for a in sorted(found[start].calls))
        more = {e for e, f in found.items() if not ends(program, f, {RETURN})} - endless
        if not more:
            return found
        endless |= more


def ends(program: Program, function: Function, words: set[int]) -> list[int]:
    """The addresses of these instructions in the function."""
    return [a for a in function.edges if program.word(a) in words]


def dominators(entry: int, edges: Edges) -> dict[int, int]:
    """For each address but the entry the last one before it that every way to it passes (Cooper, Harvey, Kennedy)."""
    order = postorder(entry, edges)
    number = {a: k for k, a in enumerate(order)}
    before, above = turned(edges), {entry: entry}

    def meet(a: int, b: int) -> int:
        while a != b:
            while number[a] < number[b]:
                a = above[a]
            while number[b] < number[a]:
                b = above[b]
        return a

    changed = True
    while changed:
        changed = False
        for a in reversed(order[:-1]):
            known = [b for b in before[a] if b in above]
            new = known[0]
            for b in known[1:]:
                new = meet(b, new)
            if above.get(a) != new:
                above[a], changed = new, True
    return above


def postorder(entry: int, edges: Edges) -> list[int]:
    order, seen, stack = [], {entry}, [(entry, iter(edges[entry]))]
    while stack:
        a, rest = stack[-1]
        for b in rest:
            if b not in seen:
                seen.add(b)
                stack.append((b, iter(edges[b])))
                break
        else:
            order.append(a)
            stack.pop()
    return order


def passes(above: dict[int, int], node: int, by: int) -> bool:
    """Whether every way to the node passes `by`."""
    while node != by and above[node] != node:
        node = above[node]
    return node == by


def body_of(before: Edges, head: int, latches: list[int]) -> frozenset[int]:
    body, todo = {head}, list(latches)
    while todo:
        a = todo.pop()
        if a not in body:
            body.add(a)
            todo.extend(before[a])
    return frozenset(body)


def loops_of(function: Function) -> tuple[list[Loop], list[Strange]]:
    """The natural loops by head, each with its place in the nest, and the cycles that are none."""
    above, before = dominators(function.entry, function.edges), turned(function.edges)
    latches: dict[int, list[int]] = {}
    number = {a: k for k, a in enumerate(postorder(function.entry, function.edges))}
    for a, after in function.edges.items():
        for head in after:
            if number[head] >= number[a] and passes(above, a, head):
                latches.setdefault(head, []).append(a)
    loops = [Loop(head, body_of(before, head, sources), tuple(sorted(sources))) for head, sources in sorted(latches.items())]
    nest(loops)
    forward = {a: [b for b in after if a not in latches.get(b, ())] for a, after in function.edges.items()}
    return loops, strange_cycles(function.entry, forward)


def nest(loops: list[Loop]) -> None:
    for loop in loops:
        around = [other for other in loops if other is not loop and loop.head in other.body and loop.body < other.body]
        if around:
            loop.parent = min(around, key=lambda other: len(other.body))
            loop.parent.children.append(loop)


def strange_cycles(entry: int, forward: Edges) -> list[Strange]:
    """The cycles that are left without back edges: each is entered at two places or more."""
    before = turned(forward)
    found = []
    for part in components(entry, forward):
        nodes = set(part)
        if len(part) > 1 or part[0] in forward[part[0]]:
            entries = [a for a in sorted(part) if any(b not in nodes for b in before[a])]
            found.append(Strange(sorted(part), entries))
    return sorted(found, key=lambda cycle: cycle.nodes[0])


def components(entry: int, edges: Edges) -> list[list[int]]:
    """The strongly connected components (Kosaraju)."""
    before, done, found = turned(edges), set(), []
    for start in reversed(postorder(entry, edges)):
        if start not in done:
            part = [start]
            done.add(start)
            for a in part:
                for b in before[a]:
                    if b not in done:
                        done.add(b)
                        part.append(b)
            found.append(part)
    return found


def outs(program: Program, functions: dict[int, Function]) -> dict[int, list[int]]:
    """For each function the addresses at which it returns, ends the job by ecall, or calls one that may end it so."""
    ending = {e for e, f in functions.items() if ends(program, f, {ECALL})}
    while True:
        more = {e for e, f in functions.items() if ending.intersection(f.calls.values())} - ending
        if not more:
            break
        ending |= more
    return {e: ends(program, f, {RETURN, ECALL}) + [a for a, callee in f.calls.items() if callee in ending]
            for e, f in functions.items()}


def has_way_out(function: Function, start: int, out: list[int]) -> bool:
    return not reached_from(function.edges, [start]).isdisjoint(out)
