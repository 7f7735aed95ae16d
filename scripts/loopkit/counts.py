"""How often the head of a loop is reached at most if its code alone shows it: a register counts to a limit by steps."""
from __future__ import annotations

from dataclasses import dataclass

from commonkit.code import is_branch, is_call, signed

from .flow import Edges, Function, Loop, dominators, passes, turned
from .program import Program

MOST = 1_000_000
SAVED = {0, 2, 3, 4, 8, 9, *range(18, 28)}  # registers that a call leaves as they are


@dataclass(frozen=True)
class Value:
    """A number of 32 bits, relative to the value of a register at some place if there is a base."""

    base: tuple[object, ...] | None
    offset: int


def destination(word: int) -> int:
    """The register that an instruction writes, 0 for none."""
    return 0 if word & 127 in (0x63, 0x23, 0x0F, 0x73) else word >> 7 & 31


def operands(word: int) -> tuple[int, int]:
    """The registers that a branch compares, or that an `add` adds."""
    return word >> 15 & 31, word >> 20 & 31


def is_step(word: int) -> bool:
    """Whether it adds something to a register: `addi` or `add` of the register to itself."""
    register = word >> 7 & 31
    return word & 0x707F == 0x13 and register == word >> 15 & 31 or word & 0xFE00707F == 0x33 and register in operands(word)


def immediate(word: int) -> int:
    return signed(word >> 20, 12)


class Counts:
    """Counts the loops of a function."""

    def __init__(self, program: Program, function: Function, loops: list[Loop]) -> None:
        self.program, self.function = program, function
        self.edges: Edges = function.edges
        self.before = turned(function.edges)
        self.above = dominators(function.entry, function.edges)
        self.by_head = {loop.head: loop for loop in loops}

    def word(self, a: int) -> int:
        return self.program.word(a) or 0

    def writes(self, nodes: frozenset[int], register: int) -> list[int]:
        """The instructions of some that write a register; a call may write those that it need not save."""
        if register == 0:
            return []
        return [a for a in nodes if destination(self.word(a)) == register or is_call(self.word(a)) and register not in SAVED]

    def exits(self, loop: Loop) -> list[int]:
        return [a for a in loop.body if any(b not in loop.body for b in self.edges[a])]

    def has_one_exit(self, loop: Loop) -> bool:
        return len(self.exits(loop)) == 1

    def count(self, loop: Loop) -> int:
        """How often its head is reached at most, 0 if that is not known."""
        own = loop.own()
        exits = [a for a in self.exits(loop) if a in own and is_branch(self.word(a))]
        registers = {register for a in exits for register in operands(self.word(a))}
        return min((count for count in (self.count_by(loop, own, exits, register) for register in registers) if count), default=0)

    def count_by(self, loop: Loop, own: set[int], exits: list[int], register: int) -> int:
        """The count by a register that makes one step each turn: the first turn in which every way round passes a test that
        leaves the loop in this turn."""
        step = self.one_step(loop, own, register)
        if not step:
            return 0
        done = self.steps_done(loop, {a for a in loop.body if self.steps(a, register)})
        if any(done[latch][1] != (1, 1) for latch in loop.latches):
            return 0
        leaving: dict[int, set[int]] = {}
        for test in exits:
            if register in operands(self.word(test)) and done[test][0] in ((0, 0), (1, 1)):
                turn = self.leaves_in(loop, test, register, step, done[test][0][0])
                leaving.setdefault(turn, set()).add(test)
        turns = [turn for turn, tests in leaving.items() if turn and not self.reaches_head(loop, tests)]
        return min(turns, default=0)

    def steps(self, a: int, register: int) -> bool:
        """Whether the instruction adds to the register."""
        return destination(self.word(a)) == register and is_step(self.word(a))

    def one_step(self, loop: Loop, own: set[int], register: int) -> int:
        """What each instruction adds that writes the register in the loop, 0 if that is not known."""
        writes = self.writes(loop.body, register)
        words = {self.word(a) for a in writes}
        if len(words) != 1 or not own.issuperset(writes) or not self.steps(writes[0], register):
            return 0
        return self.step(loop, words.pop(), register)

    def step(self, loop: Loop, word: int, register: int) -> int:
        """What a step adds, 0 if that is not known."""
        if word & 127 == 0x13:
            return immediate(word)
        added = operands(word)[operands(word)[0] == register]
        value = self.at_entry(loop, added)
        return 0 if added == register or self.writes(loop.body, added) or value.base is not None else value.offset

    def steps_done(self, loop: Loop, steps: set[int]) -> dict[int, tuple[tuple[int, int], tuple[int, int]]]:
        """For each node the least and the most steps since the head, before it and after it; more than two are as two."""
        found = {loop.head: ((0, 0), (0, 0))}
        todo = [loop.head]
        while todo:
            a = todo.pop()
            low, high = found[a][0]
            behind = (min(low + (a in steps), 2), min(high + (a in steps), 2))
            found[a] = ((low, high), behind)
            for b in self.edges[a]:
                if b in loop.body and b != loop.head:
                    old = found.get(b, (behind, None))[0]
                    new = (min(old[0], behind[0]), max(old[1], behind[1]))
                    if b not in found or new != old:
                        found[b] = (new, new)
                        todo.append(b)
        return found

    def reaches_head(self, loop: Loop, without: set[int]) -> bool:
        """Whether a turn may come round to the head without some of the nodes."""
        seen, todo = set(), [loop.head]
        while todo:
            a = todo.pop()
            if a not in seen and a not in without:
                seen.add(a)
                if loop.head in self.edges[a]:
                    return True
                todo.extend(b for b in self.edges[a] if b in loop.body)
        return False

    def leaves_in(self, loop: Loop, test: int, counter: int, step: int, before: int) -> int:
        """The first turn in which a test leaves the loop, if that many steps come before it in a turn; 0 if that is not
        known."""
        registers, kind = operands(self.word(test)), self.word(test) >> 12 & 7
        other = registers[registers[0] == counter]
        first, second = self.at_entry(loop, registers[0]), self.at_entry(loop, registers[1])
        if self.writes(loop.body, other) or first.base != second.base or first.base is not None and kind > 1:
            return 0
        stays = [self.edges[test][1] in loop.body, self.edges[test][0] in loop.body]
        if stays[0] == stays[1]:
            return 0
        for turn in range(1, MOST + 1):
            moved = step * (turn - 1 + before)
            left = first.offset + (moved if registers[0] == counter else 0)
            right = second.offset + (moved if registers[1] == counter else 0)
            if compare(kind, left, right) != stays[0]:
                return turn
        return 0

    def at_entry(self, loop: Loop, register: int) -> Value:
        """A register's value when the loop is entered."""
        outside = [a for a in self.before[loop.head] if a not in loop.body]
        if len(outside) != 1 or loop.head == self.function.entry:
            return Value(("head", loop.head, register), 0) if register else Value(None, 0)
        return self.after(outside[0], register)

    def after(self, a: int, register: int) -> Value:
        """A register's value after an instruction, followed back as long as there is one way."""
        offset = 0
        while register:
            word = self.word(a)
            if is_call(word) and register not in SAVED:
                return Value(("call", a, register), offset)
            if destination(word) == register:
                if word & 127 == 0x37:
                    return Value(None, offset + (word & 0xFFFFF000))
                if word & 0x707F != 0x13:
                    return Value(("made", a), offset)
                register, offset = word >> 15 & 31, offset + immediate(word)
            before = self.ways_to(a, register)
            if len(before) != 1:
                return Value(("place", a, register), offset) if register else Value(None, offset)
            a = before[0]
        return Value(None, offset)

    def ways_to(self, a: int, register: int) -> list[int]:
        """What comes before an instruction; before a loop that leaves the register as it is, what comes before that."""
        if a == self.function.entry:
            return []
        loop = self.by_head.get(a)
        if loop is None:
            return self.before[a]
        return [] if self.writes(loop.body, register) else [b for b in self.before[a] if b not in loop.body]


def compare(kind: int, left: int, right: int) -> bool:
    """Whether a branch is taken."""
    left, right = left & 0xFFFFFFFF, right & 0xFFFFFFFF
    if kind < 2:
        return (left == right) == (kind == 0)
    if kind < 6:
        left, right = signed(left, 32), signed(right, 32)
    return (left < right) == (kind in (4, 6))
