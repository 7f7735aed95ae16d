"""Where instructions go, by their words."""
from __future__ import annotations

LINKS = {1, 5}
RETURN, ECALL, EBREAK = 0x00008067, 0x00000073, 0x00100073


def signed(value: int, bits: int) -> int:
    """The number that these bits write in two's complement."""
    return value - (1 << bits) if value >> (bits - 1) else value


def branch_target(address: int, word: int) -> int:
    """Where a branch goes if it is taken."""
    offset = (word >> 31 << 12) | (word >> 7 & 1) << 11 | (word >> 25 & 63) << 5 | (word >> 8 & 15) << 1
    return address + signed(offset, 13)


def jump_target(address: int, word: int) -> int:
    """Where a `jal` goes."""
    offset = (word >> 31 << 20) | (word >> 12 & 255) << 12 | (word >> 20 & 1) << 11 | (word >> 21 & 1023) << 1
    return address + signed(offset, 21)


def is_branch(word: int) -> bool:
    """Whether it is a conditional branch."""
    return word & 127 == 0x63


def is_jump(word: int) -> bool:
    """Whether it is a `jal`."""
    return word & 127 == 0x6F


def is_call(word: int) -> bool:
    """Whether it is a `jal` that keeps the address to return to."""
    return is_jump(word) and word >> 7 & 31 in LINKS


def is_plain_jump(word: int) -> bool:
    """Whether it is a `jal` that keeps no address."""
    return is_jump(word) and not is_call(word)


def is_store(word: int) -> bool:
    """Whether it writes to memory."""
    return word & 127 == 0x23


def makes_constant(word: int) -> bool:
    """Whether it puts a number into a register: `lui`, or `addi` from x0."""
    return word & 127 == 0x37 or word & 0xFF07F == 0x13


def is_end(word: int) -> bool:
    """Whether nothing comes after the instruction in its function: a return, another jump by register, ecall, ebreak."""
    return word & 127 == 0x67 and word >> 7 & 31 not in LINKS or word in (ECALL, EBREAK)
