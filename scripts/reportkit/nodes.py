"""The nodes of a task's code, with where they go and what they cost, and its stated loops.

A node is an address with the calls that are under way.
"""
from __future__ import annotations

from dataclasses import dataclass

from commonkit.elf import Elf

from .program import Instruction
from .reading import Platform, Raw

Instructions = dict[int, Instruction]
Node = tuple[tuple[int, ...], int]  # the addresses of the calls, and the address


@dataclass(frozen=True)
class Loop:
    """A stated loop: its head, how often that is reached at most, and the first addresses in its ranges and behind them."""

    head: int
    bound: int
    ranges: tuple[tuple[int, int], ...]

    def holds(self, address: int) -> bool:
        """Whether an address is in it."""
        return address == self.head or any(first <= address < end for first, end in self.ranges)


def stated_loops(task: Raw, own: Elf) -> list[Loop]:
    """The loops that the set states of a task, whose places are those of its own file."""
    place = own.address
    return [Loop(place(loop["head"]), loop["bound"], tuple((place(first), place(end)) for first, end in loop["range"]))
            for loop in task.get("loop", [])]


def entry_of(task: Raw, own: Elf) -> int:
    """Where a task begins."""
    return own.entry if task.get("entry") is None else own.address(task["entry"])


def after(node: Node, code: Instructions) -> list[Node]:
    """The nodes that may come next; none where the job completes."""
    calls, address = node
    instruction = code[address]
    if instruction.is_call():
        return [((*calls, address), address + instruction.offset())]
    if instruction.name == "jalr":
        return [(calls[:-1], calls[-1] + 4)] if calls else []
    return [(calls, goal) for goal in dict.fromkeys(instruction.next(address))]


def cost(node: Node, goal: Node | None, code: Instructions, p: Platform) -> int:
    """The cycles of a node's instruction, without those of a load, where a node comes next, or none does."""
    instruction = code[node[1]]
    is_taken = goal[1] != node[1] + 4 if goal else instruction.name == "jalr"
    return p.hit + instruction.more(p) + p.taken * is_taken
