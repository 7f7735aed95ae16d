"""Runs a kernel alone, instruction by instruction, and tells when each of its instructions starts.

It is a plain reading of RV32I and M with the costs of a platform. That its runs take as long as
those of `crpd simulate` is looked at wherever they are used.
"""
from __future__ import annotations

from collections.abc import Callable
from dataclasses import dataclass

from commonkit.code import (RETURN, branch_target, is_branch, is_call, is_jump, is_store,
                            jump_target, signed)

from .ending import stop
from .kernels import Image, Platform
from .points import Node

WORD = 0xFFFFFFFF
STACK_POINTER = 2
MOST_INSTRUCTIONS = 1_000_000
LOADED_BYTES = {0: 1, 1: 2, 2: 4, 4: 1, 5: 2}
Operation = Callable[[int, int], int]


def whole(value: int) -> int:
    """The signed number of a register."""
    return signed(value, 32)


def quotient(a: int, b: int) -> int:
    """The signed quotient, towards 0; that by 0 is -1."""
    if b == 0:
        return -1
    found = abs(whole(a)) // abs(whole(b))
    return found if (whole(a) < 0) == (whole(b) < 0) else -found


def remainder(a: int, b: int) -> int:
    """The remainder, with the sign of the dividend; that by 0 is the dividend."""
    return whole(a) - whole(b) * quotient(a, b) if b else a


# What register-register instructions make, by their third and seventh fields.
OPERATIONS: dict[tuple[int, int], Operation] = {
    (0, 0): lambda a, b: a + b, (0, 32): lambda a, b: a - b, (1, 0): lambda a, b: a << (b & 31),
    (2, 0): lambda a, b: int(whole(a) < whole(b)), (3, 0): lambda a, b: int(a < b),
    (4, 0): lambda a, b: a ^ b, (5, 0): lambda a, b: a >> (b & 31),
    (5, 32): lambda a, b: whole(a) >> (b & 31), (6, 0): lambda a, b: a | b,
    (7, 0): lambda a, b: a & b, (0, 1): lambda a, b: a * b,
    (1, 1): lambda a, b: whole(a) * whole(b) >> 32, (2, 1): lambda a, b: whole(a) * b >> 32,
    (3, 1): lambda a, b: a * b >> 32, (4, 1): quotient,
    (5, 1): lambda a, b: a // b if b else WORD, (6, 1): remainder,
    (7, 1): lambda a, b: a % b if b else a,
}
# When a branch is taken, by its third field.
CONDITIONS: dict[int, Callable[[int, int], bool]] = {
    0: lambda a, b: a == b, 1: lambda a, b: a != b, 4: lambda a, b: whole(a) < whole(b),
    5: lambda a, b: whole(a) >= whole(b), 6: lambda a, b: a < b, 7: lambda a, b: a >= b,
}


@dataclass(frozen=True)
class Start:
    """When an instruction starts, counted from the job's first one, and at which node."""

    cycle: int
    node: Node


class Stepper:
    """A job with its registers, memory and cache. `taken` are its cycles up to now."""

    def __init__(self, image: Image, entry: str, stack: str, platform: Platform) -> None:
        self.image, self.platform = image, platform
        self.memory = {segment.address + n: image.content[segment.offset + n]
                       for segment in image.elf.segments for n in range(len(segment.data))}
        self.registers = [0] * 32
        self.registers[STACK_POINTER] = image.symbols[stack].address
        self.node: Node | None = ((), image.symbols[entry].address)
        self.cache: dict[int, int] = {}
        self.taken = 0

    def fetch(self, at: int) -> int:
        """The cycles of the fetch at an address."""
        block = at // self.platform.line
        place = block % self.platform.sets
        missed = self.cache.get(place) != block
        self.cache[place] = block
        return self.platform.hit + self.platform.miss * missed

    def step(self, node: Node) -> None:
        """Makes one instruction."""
        calls, at = node
        word = self.image.word(at)
        self.taken += self.fetch(at) + self.extra(word)
        following = self.next(calls, at, word)
        if following is None or following[1] != at + 4:
            self.taken += self.platform.taken
        self.node = following

    def extra(self, word: int) -> int:
        """The cycles that the kind of an instruction adds, jumps aside."""
        if word & 127 == 3 or is_store(word):
            return self.platform.data
        if word & 127 == 0x33 and word >> 25 == 1:
            return self.platform.div if word >> 14 & 1 else self.platform.mul
        return 0

    def next(self, calls: tuple[int, ...], at: int, word: int) -> Node | None:
        """Has an instruction take effect, and gives the next node; none after the job's end."""
        if word == RETURN:
            return (calls[:-1], calls[-1] + 4) if calls else None
        if is_branch(word):
            taken = CONDITIONS[word >> 12 & 7](self.first(word), self.second(word))
            return calls, branch_target(at, word) if taken else at + 4
        if is_jump(word):
            self.set(word, at + 4)
            return ((*calls, at) if is_call(word) else calls), jump_target(at, word)
        self.effect(at, word)
        return calls, at + 4

    def first(self, word: int) -> int:
        return self.registers[word >> 15 & 31]

    def second(self, word: int) -> int:
        return self.registers[word >> 20 & 31]

    def set(self, word: int, value: int) -> None:
        """Puts a value into the register that an instruction names."""
        if word >> 7 & 31:
            self.registers[word >> 7 & 31] = value & WORD

    def effect(self, at: int, word: int) -> None:
        """What an instruction does that the next one follows."""
        kind, third, constant = word & 127, word >> 12 & 7, signed(word >> 20, 12)
        if kind == 3:
            self.set(word, self.load(self.first(word) + constant, third))
        elif is_store(word):
            self.store(word, third)
        elif kind == 0x33:
            self.set(word, OPERATIONS[third, word >> 25](self.first(word), self.second(word)))
        elif kind == 0x13:
            seventh = word >> 25 if third in (1, 5) else 0
            self.set(word, OPERATIONS[third, seventh](self.first(word), constant & WORD))
        elif kind in (0x37, 0x17):
            self.set(word, (word & 0xFFFFF000) + (at if kind == 0x17 else 0))
        else:
            stop(f"{at:08x} has an instruction that the kernels do not have")

    def load(self, address: int, third: int) -> int:
        """The value of a load."""
        size = LOADED_BYTES[third]
        value = sum(self.memory.get(address + n & WORD, 0) << 8 * n for n in range(size))
        return value if third & 4 else signed(value, 8 * size)

    def store(self, word: int, third: int) -> None:
        address = self.first(word) + signed(word >> 25 << 5 | word >> 7 & 31, 12)
        for n in range(LOADED_BYTES[third]):
            self.memory[address + n & WORD] = self.second(word) >> 8 * n & 255


@dataclass(frozen=True)
class Walk:
    """The instructions of a job that runs alone, and the cycles that it takes."""

    starts: list[Start]
    cycles: int


def walk(image: Image, entry: str, stack: str, platform: Platform) -> Walk:
    """A job of a kernel, alone and from an empty cache, with the data of the image."""
    job, starts = Stepper(image, entry, stack, platform), list[Start]()
    while job.node is not None:
        starts.append(Start(job.taken, job.node))
        if len(starts) > MOST_INSTRUCTIONS:
            stop(f"{entry} does not complete")
        job.step(job.node)
    return Walk(starts, job.taken)
