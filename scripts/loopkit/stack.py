"""How many bytes of stack a task takes at most, and which tasks' stacks meet."""
from __future__ import annotations

from dataclasses import dataclass

from .counts import destination, immediate, is_step
from .flow import Function
from .program import Program
from .report import Report

SP = 2
OVERWRITES = "a job that preempts another overwrites its frames"


def depth_of(program: Program, functions: dict[int, Function], entry: int) -> int | None:
    """The bytes below its start that a function and those that it calls may use, or None if that is not known."""
    known: dict[int, int | None] = {}

    def depth(start: int) -> int | None:
        if start not in known:
            known[start] = None  # for a recursion, too
            known[start] = deepest(functions[start])
        return known[start]

    def deepest(function: Function) -> int | None:
        found = 0
        for a, below in places(program, function).items():
            callee = function.calls.get(a)
            more = 0 if callee is None else depth(callee) if callee in functions else None
            if below is None or more is None:
                return None
            found = max(found, below + more)
        return found

    return depth(entry) if entry in functions else None


def places(program: Program, function: Function) -> dict[int, int | None]:
    """For each instruction how far the stack pointer is below its start after it, None if that is not known."""
    found: dict[int, int | None] = {}
    todo: list[tuple[int, int | None]] = [(function.entry, 0)]
    while todo:
        a, below = todo.pop()
        word = program.word(a) or 0
        if destination(word) == SP:
            below = below - immediate(word) if below is not None and is_step(word) and word & 127 == 0x13 else None
        if a not in found or found[a] != below and found[a] is not None:
            found[a] = below if a not in found else None
            todo.extend((b, found[a]) for b in function.edges[a])
    return found


@dataclass(frozen=True)
class Stack:
    """Where a task's stack begins, how many bytes below that it takes (None if that is not known), whether these are its own
    memory in its image, such as an array, and whether the set states it."""

    task: str
    top: int
    depth: int | None
    is_own: bool
    is_stated: bool

    def low(self) -> int:
        """The lowest address that it is known to take."""
        return self.top - (self.depth or 0)

    def meets(self, low: int, high: int) -> bool:
        """Whether it shares bytes with a range of addresses."""
        return self.low() < high and low < self.top


def look_at_stacks(stacks: list[Stack], objects: set[tuple[int, int]], report: Report) -> None:
    """Says which stacks share memory with another one or with data, which are missing, and of which the size is not known."""
    missing = [stack for stack in stacks if not stack.is_stated and stack.depth]
    if missing:
        report.error(", ".join(stack.task for stack in missing), "no `stack` is stated, so x2 starts at 0: give each task its own")
    stated = [stack for stack in stacks if stack not in missing]
    look_at_shared(stated, report)
    for k, stack in enumerate(stated):
        for other in stated[:k]:
            look_at_pair(other, stack, report)
        if not stack.is_own and any(stack.meets(low, high) for low, high in objects):
            report.error(stack.task, f"its stack is too small: the {stack.depth} bytes below 0x{stack.top:x} reach into data")
        if stack.depth is None:
            report.warn(stack.task, "its code does not show the size of its stack: check that it overlaps no other one")


def look_at_shared(stacks: list[Stack], report: Report) -> None:
    """Says which tasks that use a stack have the same one."""
    for top in dict.fromkeys(stack.top for stack in stacks):
        users = [stack.task for stack in stacks if stack.top == top and stack.depth != 0 and stack.is_stated]
        if len(users) > 1:
            report.error(", ".join(users), f"have one stack, 0x{top:x}: {OVERWRITES}")


def look_at_pair(one: Stack, two: Stack, report: Report) -> None:
    """Says that two stacks overlap; a task that takes no bytes of its stack meets none."""
    if 0 in (one.depth, two.depth) or one.top == two.top or not two.meets(one.low(), one.top):
        return
    upper, lower = (one, two) if one.top > two.top else (two, one)
    report.error(upper.task, f"its stack is too small: it takes {upper.depth} bytes below 0x{upper.top:x}, and that of {lower.task}"
                             f" begins {upper.top - lower.top} bytes lower: {OVERWRITES}")
