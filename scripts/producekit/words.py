"""Decodes RV32I and M, as far as flow and costs go."""
from __future__ import annotations

from dataclasses import dataclass
from enum import Enum, auto

ECALL, EBREAK, RETURN = 0x00000073, 0x00100073, 0x00008067
ALL = frozenset(range(8))


class Kind(Enum):
    """Where an instruction goes."""

    NEXT = auto()
    BRANCH = auto()
    JUMP = auto()
    CALL = auto()
    RETURN = auto()
    ANSWER = auto()
    BREAK = auto()
    INDIRECT = auto()
    OTHER_LINK = auto()


@dataclass(frozen=True)
class Instruction:
    """The kind, the offset of a target, and which cost of the platform comes on top (`data`, `mul`, `div` or none)."""

    kind: Kind
    offset: int = 0
    extra: str = ""


# Opcodes whose instructions go on behind themselves: the values of funct3, and the cost on top.
PLAIN: dict[int, tuple[frozenset[int], str]] = {
    0x37: (ALL, ""), 0x17: (ALL, ""), 0x0F: (frozenset({0}), ""),
    0x03: (frozenset({0, 1, 2, 4, 5}), "data"), 0x23: (frozenset({0, 1, 2}), "data"),
}


def bits(word: int, high: int, low: int) -> int:
    """The number in these bits."""
    return word >> low & (1 << high - low + 1) - 1


def signed(value: int, size: int) -> int:
    """The number that so many bits write in two's complement."""
    return value - (value >> size - 1 << size)


def branch_offset(word: int) -> int:
    """The immediate of form B."""
    parts = bits(word, 31, 31) << 12 | bits(word, 7, 7) << 11 | bits(word, 30, 25) << 5 | bits(word, 11, 8) << 1
    return signed(parts, 13)


def jump_offset(word: int) -> int:
    """The immediate of form J."""
    parts = bits(word, 31, 31) << 20 | bits(word, 19, 12) << 12 | bits(word, 20, 20) << 11 | bits(word, 30, 21) << 1
    return signed(parts, 21)


def arithmetic(word: int) -> Instruction | None:
    """An instruction between registers, or with an immediate."""
    three, seven = bits(word, 14, 12), bits(word, 31, 25)
    if bits(word, 6, 0) == 0x13:
        shifts = {1: (0,), 5: (0, 0x20)}
        return Instruction(Kind.NEXT) if three not in shifts or seven in shifts[three] else None
    if seven == 1:
        return Instruction(Kind.NEXT, extra="mul" if three < 4 else "div")
    return Instruction(Kind.NEXT) if seven == 0 or seven == 0x20 and three in (0, 5) else None


def decode(word: int) -> Instruction | None:
    """The instruction that a word writes."""
    opcode, three, target = bits(word, 6, 0), bits(word, 14, 12), bits(word, 11, 7)
    if opcode in PLAIN:
        allowed, extra = PLAIN[opcode]
        return Instruction(Kind.NEXT, extra=extra) if three in allowed else None
    if opcode in (0x13, 0x33):
        return arithmetic(word)
    if opcode == 0x63:
        return Instruction(Kind.BRANCH, branch_offset(word)) if three not in (2, 3) else None
    if opcode == 0x6F:
        kind = {0: Kind.JUMP, 1: Kind.CALL}.get(target, Kind.OTHER_LINK)
        return Instruction(kind, jump_offset(word))
    if opcode == 0x67 and three == 0:
        return Instruction(Kind.RETURN if word == RETURN else Kind.INDIRECT)
    return {ECALL: Instruction(Kind.ANSWER), EBREAK: Instruction(Kind.BREAK)}.get(word)
