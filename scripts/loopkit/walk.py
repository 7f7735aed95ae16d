"""Counts the turns of a function's loops by following its code, turn by turn, with what is known of registers and stack.

A branch that is known is followed one way, others both ways, and where ways meet, what both say is kept. So no more turns are
possible than are counted. A loop of which a turn may come after each one has no count. Two passes are made: one that follows inner
loops in each turn of the outer ones, as far as that is not too long; and one in which each loop is counted by itself.
"""
from __future__ import annotations

import heapq
from collections.abc import Callable
from dataclasses import dataclass, field

from commonkit.code import is_branch, is_call

from .flow import Function, Loop, postorder
from .program import Program
from .values import FRAME, SP, STACK, Machine, State, at_entry, decision

MOST_STEPS = 200_000  # in the first pass, and for each loop in the second
PATIENCE = 64  # turns without a known way out, after which a loop has no count

Ways = dict[int, State]


class TooLong(Exception):
    """A pass has come to its end before the function has."""


@dataclass
class Counted:
    """How often a loop's head is reached each time it is entered: at most, 0 if that is not known; whether it is just so often,
    since no way out but by known tests was met; and whether the last time a test alone was done."""

    most: int = 0
    is_exact: bool = False
    is_test_last: bool = False


@dataclass
class Turn:
    """What came of a turn: the state with which the head is reached again, the ways out, the nodes, whether a way out was taken
    or left by a known branch, and the other branches that may leave."""

    again: State | None = None
    out: Ways = field(default_factory=dict)
    nodes: set[int] = field(default_factory=set)
    is_decided: bool = False


class Walk:
    """Follows a function whose cycles are all natural loops."""

    def __init__(self, program: Program, function: Function, loops: list[Loop]) -> None:
        self.function, self.machine = function, Machine(program, function)
        self.number = {a: -k for k, a in enumerate(postorder(function.entry, function.edges))}
        self.child = {(loop.parent.head if loop.parent else None, loop.head): loop for loop in loops}
        self.found: dict[int, list[Counted]] = {loop.head: [] for loop in loops}
        self.unknown: set[int] = set()
        self.active: list[tuple[Loop, Turn]] = []
        self.steps = 0

    def counts(self) -> dict[int, Counted]:
        """The counts of all loops by their heads."""
        for inner in (self.nested, self.alone):
            self.start()
            try:
                self.region(None, self.function.entry, at_entry(), inner)
                break
            except TooLong:
                continue
        else:
            return {head: Counted() for head in self.found}
        return {head: self.joined(head) for head in self.found}

    def start(self) -> None:
        """Nothing is known yet."""
        self.found = {head: [] for head in self.found}
        self.unknown, self.active, self.steps = set(), [], 0

    def joined(self, head: int) -> Counted:
        """What all entries into a loop say together."""
        entries = self.found[head]
        if head in self.unknown or not entries:
            return Counted()
        most = max(entries, key=lambda entry: (entry.most, entry.is_exact))
        return most

    def region(self, loop: Loop | None, start: int, state: State, inner: Callable[[Loop, State], Ways]) -> Turn:
        """Follows a turn of a loop, or the function, with its inner loops by `inner`."""
        turn, pending, order = Turn(), {start: state}, [(self.number[start], start)]
        if loop:
            self.active.append((loop, turn))
        while order:
            _, a = heapq.heappop(order)
            if a not in pending:
                continue
            child = self.child.get((loop.head if loop else None, a))
            here = pending.pop(a)
            for goal, after in (inner(child, here) if child else self.step(a, here)).items():
                self.deliver(loop, turn, goal, after, pending, order)
        if loop:
            self.active.pop()
        return turn

    def deliver(self, loop: Loop | None, turn: Turn, goal: int, state: State, pending: Ways, order: list[tuple[int, int]]) -> None:
        """Takes a state to where it goes on: to the head again, out of the loop, or to a node of the turn."""
        if loop and goal == loop.head:
            if turn.again:
                turn.again.meet(state)
            else:
                turn.again = state
        elif loop and goal not in loop.body:
            join(turn.out, goal, state)
        else:
            if goal not in pending:
                heapq.heappush(order, (self.number[goal], goal))
            join(pending, goal, state)

    def step(self, a: int, state: State) -> Ways:
        """The ways on from an instruction."""
        self.steps += 1
        if self.steps > MOST_STEPS:
            raise TooLong
        if self.active:
            self.active[-1][1].nodes.add(a)
        code, after = self.machine.codes[a], self.function.edges[a]
        if not is_branch(code.word):
            self.machine.do(a, state)
            return {b: state.copy() for b in after} if len(after) > 1 else dict.fromkeys(after, state)
        taken = decision(code, state)
        if taken is None or len(after) < 2:
            return {b: state.copy() for b in after}
        for loop, turn in self.active:
            turn.is_decided = turn.is_decided or any(b not in loop.body for b in after)
        return {after[taken]: state}

    # Loops, each a function from the state at its head to its ways out.

    def nested(self, loop: Loop, state: State) -> Ways:
        """Follows all turns of a loop, with those of its inner loops."""
        return self.turns(loop, state, self.nested)

    def alone(self, loop: Loop, state: State) -> Ways:
        """Counts a loop without its inner ones, and then each of these in a turn of which nothing is known."""
        self.steps = 0
        try:
            self.turns(loop, state.copy(), self.passed)
        except TooLong:
            self.unknown.add(loop.head)
            del self.active[self.depth(loop):]
        self.steps = 0
        self.forget(loop, state)
        return self.region(loop, loop.head, state, self.alone).out

    def depth(self, loop: Loop) -> int:
        """How many loops are round a loop."""
        return loop.depth()

    def passed(self, loop: Loop, state: State) -> Ways:
        """Goes past a loop, whatever it does."""
        self.forget(loop, state)
        return {b: state.copy() for a in loop.body for b in self.function.edges[a] if b not in loop.body}

    def turns(self, loop: Loop, state: State, inner: Callable[[Loop, State], Ways]) -> Ways:
        """Follows turn after turn, and keeps the count."""
        out: Ways = {}
        first: set[int] = set()
        count, is_exact, blind = 0, True, 0
        while True:
            before, turn = state.copy(), self.region(loop, loop.head, state, inner)
            count, first = count + 1, first or turn.nodes
            for goal, after in turn.out.items():
                join(out, goal, after)
            if turn.again is None:
                self.found[loop.head].append(Counted(count, is_exact, self.is_test_last(first, turn.nodes, count)))
                return out
            is_exact = is_exact and not turn.out
            blind = 0 if turn.is_decided else blind + 1
            if blind == PATIENCE or turn.again == before:
                return self.endless(loop, turn.again, out, inner)
            state = turn.again

    def is_test_last(self, first: set[int], last: set[int], count: int) -> bool:
        """Whether the last turn did a part of the first one alone."""
        missing = {a for a in first - last if self.machine.codes[a].word & 0xFFF != 0x6F}
        return count > 1 and bool(missing)

    def endless(self, loop: Loop, state: State, out: Ways, inner: Callable[[Loop, State], Ways]) -> Ways:
        """A loop without a count: one more turn, in which nothing is known of what it changes, has all its ways out."""
        self.unknown.add(loop.head)
        self.forget(loop, state)
        for goal, after in self.region(loop, loop.head, state, inner).out.items():
            join(out, goal, after)
        return out

    def forget(self, loop: Loop, state: State) -> None:
        """Drops what a loop may change."""
        for a in loop.body:
            code = self.machine.codes[a]
            base = state.get(code.left) if code.op == 0x23 else None
            if is_call(code.word) or code.op == 0x67:
                self.machine.call(state)
            elif code.op == 0x23 and code.left in (SP, FRAME) and base and base[0] == STACK:
                state.drop_slots(base[1] + code.number, 4)
        written = {self.machine.codes[a].target for a in loop.body}
        for register in written:
            state.put(register, None)
        if self.stores_elsewhere(loop):
            self.machine.forget_arrays(state)
        if SP in written:
            state.slots.clear()

    def stores_elsewhere(self, loop: Loop) -> bool:
        """Whether a store of the loop is not to a place of the stack by itself."""
        codes = (self.machine.codes[a] for a in loop.body)
        return any(code.op == 0x23 and code.left not in (SP, FRAME) for code in codes)


def join(ways: Ways, goal: int, state: State) -> None:
    """Adds a way, and where there is one already, keeps what both say."""
    if goal in ways:
        ways[goal].meet(state)
    else:
        ways[goal] = state
