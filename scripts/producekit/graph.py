"""The flow graph of a task: what may come after what, with the calls under way."""
from __future__ import annotations

from dataclasses import dataclass

from .faults import Unfit
from .image import Code
from .taskset import Platform
from .words import Instruction, Kind, decode

MOST_NODES, MOST_CALLS = 16384, 16
Context = tuple[int, ...]
Node = tuple[Context, int]
REFUSED = {Kind.BREAK: "a breakpoint", Kind.INDIRECT: "an indirect jump", Kind.OTHER_LINK: "another link register"}


@dataclass(frozen=True)
class Graph:
    """Nodes by number, with their instructions, successors and predecessors; and the first node's number."""

    nodes: list[Node]
    instructions: list[Instruction]
    after: list[list[int]]
    before: list[list[int]]
    first: int

    def leaders(self) -> set[int]:
        """The nodes that a certificate has to list."""
        several = {v for u in range(len(self.nodes)) if len(self.after[u]) == 2 for v in self.after[u]}
        return several | {self.first} | {v for v, edges in enumerate(self.before) if len(edges) != 1}

    def ways(self, node: int) -> list[int | None]:
        """Where a node goes on: its successors, or the end."""
        found: list[int | None] = list(self.after[node])
        return found or [None]

    def cost(self, platform: Platform, node: int, to: int | None) -> int:
        """The cycles of an instruction whose line is cached, on its way to a successor or to the end."""
        instruction = self.instructions[node]
        extra = {"data": platform.data, "mul": platform.mul, "div": platform.div}.get(instruction.extra, 0)
        jumps = instruction.kind is Kind.RETURN if to is None else self.nodes[to][1] != self.nodes[node][1] + 4
        return platform.hit + extra + (platform.taken if jumps else 0)

    def longest(self, platform: Platform) -> int:
        """The most that one instruction costs, its line's load included."""
        return platform.miss + max(self.cost(platform, u, v) for u in range(len(self.nodes)) for v in self.ways(u))


class Walker:
    """Finds the nodes of a task from its entry."""

    def __init__(self, code: Code, name: str, entry: int) -> None:
        self.code, self.name, self.entry = code, name, entry
        self.targets: dict[int, int] = {}

    def refuse(self, why: str, address: int) -> Unfit:
        """What stops the walk."""
        return Unfit(f"{self.name}: {why} at {address:08x}")

    def instruction(self, address: int) -> Instruction:
        """The instruction at an address."""
        word = self.code.word(address) if address % 4 == 0 else None
        if word is None:
            raise self.refuse("no word of code", address)
        found = decode(word)
        if found is None or found.kind in REFUSED:
            raise self.refuse(REFUSED[found.kind] if found else "no instruction", address)
        return found

    def successors(self, node: Node, instruction: Instruction) -> list[Node]:
        """Where the flow goes on."""
        context, address = node
        target = address + instruction.offset & 0xFFFFFFFF
        match instruction.kind:
            case Kind.NEXT:
                return [(context, address + 4)]
            case Kind.BRANCH:
                return list(dict.fromkeys([(context, address + 4), (context, target)]))
            case Kind.JUMP:
                return [(context, target)]
            case Kind.CALL:
                return [(self.called(context, address, target), target)]
            case Kind.RETURN if context:
                return [(context[:-1], context[-1] + 4)]
        return []

    def called(self, context: Context, address: int, target: int) -> Context:
        """The context in a call."""
        self.targets[address] = target
        if target == self.entry or any(self.targets[call] == target for call in context):
            raise self.refuse("a call of a function that is under way", address)
        if len(context) == MOST_CALLS:
            raise self.refuse("too many calls under way", address)
        return (*context, address)

    def graph(self) -> Graph:
        """The graph, its nodes ordered by the calls under way, then by address."""
        start: Node = ((), self.entry)
        found: dict[Node, tuple[Instruction, list[Node]]] = {}
        todo = [start]
        while todo:
            node = todo.pop()
            if node not in found:
                instruction = self.instruction(node[1])
                found[node] = instruction, self.successors(node, instruction)
                todo += found[node][1]
            if len(found) > MOST_NODES:
                raise self.refuse("too many nodes", self.entry)
        return numbered(found, start)


def numbered(found: dict[Node, tuple[Instruction, list[Node]]], start: Node) -> Graph:
    """The graph of nodes that were found, with numbers."""
    nodes = sorted(found)
    number = {node: k for k, node in enumerate(nodes)}
    after = [[number[to] for to in found[node][1]] for node in nodes]
    before: list[list[int]] = [[] for _ in nodes]
    for u, edges in enumerate(after):
        for v in edges:
            before[v].append(u)
    return Graph(nodes, [found[node][0] for node in nodes], after, before, number[start])
