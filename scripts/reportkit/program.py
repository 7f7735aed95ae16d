"""Follows the code of a task: which instructions it may reach, and how much stack they take."""
from __future__ import annotations

from dataclasses import dataclass

from commonkit.calls import Crpd
from commonkit.elf import Elf, read_elf

from .reading import Platform, TaskSet, read_bytes

LOADS, STORES = ("lb", "lh", "lw", "lbu", "lhu"), ("sb", "sh", "sw")
BRANCHES = ("beq", "bne", "blt", "bge", "bltu", "bgeu")
MULTIPLIES, DIVIDES = ("mul", "mulh", "mulhsu", "mulhu"), ("div", "divu", "rem", "remu")


@dataclass(frozen=True)
class Instruction:
    """An instruction as `crpd list` writes it."""

    name: str
    operands: list[str]

    def offset(self) -> int:
        """How far a branch or a `jal` goes."""
        return int(self.operands[-1])

    def is_call(self) -> bool:
        return self.name == "jal" and self.operands[0] == "x1"

    def longest(self, p: Platform) -> int:
        """The most cycles that it takes: its line is loaded, its branch is taken."""
        jumps = self.name == "jalr" or (self.name == "jal" or self.name in BRANCHES) and self.offset() != 4
        return p.hit + p.miss + p.taken * jumps + self.more(p)

    def more(self, p: Platform) -> int:
        """The cycles that its kind adds, jumps aside."""
        extra = ((p.data, LOADS + STORES), (p.mul, MULTIPLIES), (p.div, DIVIDES))
        return sum(cost for cost, names in extra if self.name in names)

    def next(self, address: int) -> list[int]:
        """The addresses that may follow in the same function, a call's return aside."""
        if self.name in BRANCHES:
            return [address + 4, address + self.offset()]
        if self.name == "jal":
            return [] if self.is_call() else [address + self.offset()]
        return [] if self.name in ("jalr", "ecall", "ebreak") else [address + 4]


@dataclass
class Reach:
    """The addresses that a function reaches, those of its calls included; whether it returns; and the most bytes of stack below
    x2 that it takes, None if x2 is set in another way than by steps."""

    addresses: set[int]
    returns: bool = False
    stack: int | None = 0

    def deepen(self, below: int, more: int | None = 0) -> None:
        """Some code takes `more` bytes while x2 is `below` bytes under its start."""
        self.stack = None if self.stack is None or more is None else max(self.stack, below + more)


@dataclass(frozen=True)
class Code:
    """The instructions of all tasks, by address."""

    instructions: dict[int, Instruction]

    def reach(self, function: int, known: dict[int, Reach]) -> Reach:
        """What a function may reach. There is no recursion in code that `crpd` does not refuse."""
        if function not in known:
            known[function] = Reach(set())
            known[function] = self.walk(function, known)
        return known[function]

    def walk(self, function: int, known: dict[int, Reach]) -> Reach:
        found, todo, seen = Reach(set()), [(function, 0)], set()
        while todo:
            address, below = todo.pop()
            if address in seen or address not in self.instructions:
                continue
            seen.add(address)
            instruction = self.instructions[address]
            after = instruction.next(address)
            if instruction.is_call():
                callee = self.reach(address + instruction.offset(), known)
                found.addresses |= callee.addresses
                found.deepen(below, callee.stack)
                after = [address + 4] if callee.returns else []
            elif instruction.name == "jalr":
                found.returns = True
            elif instruction.name == "addi" and instruction.operands[:2] == ["x2", "x2"]:
                below -= int(instruction.operands[2])
            elif instruction.operands[:1] == ["x2"] and instruction.name not in STORES + BRANCHES:
                found.stack = None
            found.deepen(below)
            todo += [(goal, below) for goal in after]
        found.addresses |= seen
        return found


@dataclass(frozen=True)
class Body:
    """A task's code: the most cycles of one of its instructions, where its stack starts, and the bytes that it takes at most."""

    longest: int
    stack_start: int
    stack_bytes: int | None


def read_code(crpd: Crpd, name: str, given: TaskSet) -> tuple[Code, dict[str, Elf]]:
    """The code of a set that is not refused, and its files."""
    files: dict[str, Elf] = {}
    code = Code({})
    for task in given.tasks:
        if task.file not in files:
            files[task.file] = read_elf(read_bytes(task.file))
            for address, _, word, *operands in crpd.ask("list", name, task.name).lines():
                code.instructions[int(address, 16)] = Instruction(word, operands[0].split(",") if operands else [])
    return code, files


def read_bodies(crpd: Crpd, name: str, given: TaskSet) -> list[Body]:
    """The bodies of the tasks of a set that is not refused."""
    code, files = read_code(crpd, name, given)
    known: dict[int, Reach] = {}
    found = []
    for task in given.tasks:
        own = files[task.file]
        reach = code.reach(own.entry if task.entry is None else own.address(task.entry), known)
        longest = max(code.instructions[address].longest(given.platform) for address in reach.addresses)
        found.append(Body(longest, own.address(task.stack or 0), reach.stack))
    return found
