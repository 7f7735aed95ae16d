"""RV32I and the M extension: the word of an instruction's text, and the text of a word, both as `crpd list` writes texts."""

from __future__ import annotations

import re

from commonkit.code import branch_target, jump_target, signed

MASK = 0xFFFFFFFF
BRANCHES = {"beq": 0, "bne": 1, "blt": 4, "bge": 5, "bltu": 6, "bgeu": 7}
LOADS = {"lb": 0, "lh": 1, "lw": 2, "lbu": 4, "lhu": 5}
STORES = {"sb": 0, "sh": 1, "sw": 2}
IMMEDIATES = {"addi": 0, "slti": 2, "sltiu": 3, "xori": 4, "ori": 6, "andi": 7}
SHIFTS = {"slli": (1, 0), "srli": (5, 0), "srai": (5, 0x20)}
REGISTERS = {
    "add": (0, 0), "sub": (0, 0x20), "sll": (1, 0), "slt": (2, 0), "sltu": (3, 0), "xor": (4, 0), "srl": (5, 0), "sra": (5, 0x20),
    "or": (6, 0), "and": (7, 0), "mul": (0, 1), "mulh": (1, 1), "mulhsu": (2, 1), "mulhu": (3, 1), "div": (4, 1), "divu": (5, 1),
    "rem": (6, 1), "remu": (7, 1),
}  # fmt: skip
UPPER = {"lui": 0x37, "auipc": 0x17}
WHOLE = {"ecall": 0x00000073, "ebreak": 0x00100073, "fence": 0x0000000F}
JUMPS = {**dict.fromkeys(BRANCHES, 13), "jal": 21}


def field(word: int, low: int, width: int) -> int:
    """That many bits of the word, from this one up."""
    return word >> low & ((1 << width) - 1)


def register(text: str) -> int:
    """The number of a register `x0` to `x31`."""
    if not re.fullmatch(r"x([0-9]|[12][0-9]|3[01])", text):
        raise ValueError(f"{text!r} is no register")
    return int(text[1:])


def ranged(text: str, low: int, high: int) -> int:
    """A number from low to high."""
    value = int(text, 0)
    if not low <= value <= high:
        raise ValueError(f"{text} is not from {low} to {high}")
    return value


def immediate(text: str, bits: int) -> int:
    """The bits of a signed number."""
    return ranged(text, -(1 << bits - 1), (1 << bits - 1) - 1) & ((1 << bits) - 1)


def away(text: str, bits: int) -> int:
    """The bits of an even distance, as a branch or a jump has it."""
    far = immediate(text, bits)
    if far & 1:
        raise ValueError(f"the distance {text} is odd")
    return far


def branch_bits(far: int) -> int:
    """The distance of a branch at its places in the word."""
    return field(far, 12, 1) << 31 | field(far, 5, 6) << 25 | field(far, 1, 4) << 8 | field(far, 11, 1) << 7


def jump_bits(far: int) -> int:
    """The distance of `jal` at its places in the word."""
    return field(far, 20, 1) << 31 | field(far, 1, 10) << 21 | field(far, 11, 1) << 20 | field(far, 12, 8) << 12


def at_register(text: str) -> tuple[int, int]:
    """The number and the register of a text such as `12(x2)`."""
    found = re.fullmatch(r"(-?\w+)\((x\d+)\)", text)
    if not found:
        raise ValueError(f"{text!r} is no number with a register")
    return immediate(found[1], 12), register(found[2])


def word_of(text: str) -> int:
    """The word of an instruction; a branch and `jal` have their distance as a number."""
    name, _, rest = text.partition(" ")
    parts = rest.split(",") if rest else []
    if name in WHOLE and not parts:
        return WHOLE[name]
    if name in REGISTERS:
        (rd, first, second), (f3, f7) = map(register, parts), REGISTERS[name]
        return f7 << 25 | second << 20 | first << 15 | f3 << 12 | rd << 7 | 0x33
    if name in JUMPS:
        return jumping(name, parts)
    return with_number(name, parts)


def jumping(name: str, parts: list[str]) -> int:
    """The word of a branch or a `jal`."""
    if name == "jal":
        rd, far = parts
        return jump_bits(away(far, 21)) | register(rd) << 7 | 0x6F
    first, second, far = parts
    return branch_bits(away(far, 13)) | register(second) << 20 | register(first) << 15 | BRANCHES[name] << 12 | 0x63


def with_number(name: str, parts: list[str]) -> int:
    """The word of an instruction with one or two registers and a number."""
    if name in UPPER:
        rd, number = parts
        return ranged(number, 0, 0xFFFFF) << 12 | register(rd) << 7 | UPPER[name]
    if name in LOADS or name == "jalr":
        offset, base = at_register(parts[1])
        f3, opcode = (0, 0x67) if name == "jalr" else (LOADS[name], 0x03)
        return offset << 20 | base << 15 | f3 << 12 | register(parts[0]) << 7 | opcode
    if name in STORES:
        offset, base = at_register(parts[1])
        return field(offset, 5, 7) << 25 | register(parts[0]) << 20 | base << 15 | STORES[name] << 12 | field(offset, 0, 5) << 7 | 0x23
    rd, first, number = parts
    if name in SHIFTS:
        f3, f7 = SHIFTS[name]
        return f7 << 25 | ranged(number, 0, 31) << 20 | register(first) << 15 | f3 << 12 | register(rd) << 7 | 0x13
    if name in IMMEDIATES:
        return immediate(number, 12) << 20 | register(first) << 15 | IMMEDIATES[name] << 12 | register(rd) << 7 | 0x13
    raise ValueError(f"there is no instruction {name!r}")


def named(table: dict[str, int], f3: int) -> str | None:
    """The name that a table gives to funct3."""
    return next((name for name, value in table.items() if value == f3), None)


def distance(word: int) -> int:
    """How far a branch or a `jal` goes."""
    if word & 0x7F == 0x63:
        return branch_target(0, word)
    return jump_target(0, word)


def text_of(word: int) -> str | None:
    """The text of a word, None if the table has no row for it."""
    rd, f3, first, second, f7 = field(word, 7, 5), field(word, 12, 3), field(word, 15, 5), field(word, 20, 5), word >> 25
    number = signed(word >> 20, 12)
    opcode = word & 0x7F
    if opcode == 0x0F and f3 == 0:
        return "fence"
    if opcode == 0x73:
        return next((name for name, whole in WHOLE.items() if whole == word), None)
    if opcode in UPPER.values():
        return f"{named(UPPER, opcode)} x{rd},{word >> 12}"
    if opcode == 0x6F:
        return f"jal x{rd},{distance(word)}"
    if opcode == 0x67:
        return f"jalr x{rd},{number}(x{first})" if f3 == 0 else None
    if opcode == 0x33:
        name = next((name for name, row in REGISTERS.items() if row == (f3, f7)), None)
        return name and f"{name} x{rd},x{first},x{second}"
    if opcode == 0x13 and f3 in (1, 5):
        name = next((name for name, row in SHIFTS.items() if row == (f3, f7)), None)
        return name and f"{name} x{rd},x{first},{second}"
    if opcode == 0x13:
        return f"{named(IMMEDIATES, f3)} x{rd},x{first},{number}"
    return memory_or_branch(word)


def memory_or_branch(word: int) -> str | None:
    """The text of a load, a store or a branch."""
    rd, f3, first, second = field(word, 7, 5), field(word, 12, 3), field(word, 15, 5), field(word, 20, 5)
    tables = {0x03: LOADS, 0x23: STORES, 0x63: BRANCHES}
    opcode = word & 0x7F
    name = named(tables[opcode], f3) if opcode in tables else None
    if name is None:
        return None
    if opcode == 0x63:
        return f"{name} x{first},x{second},{distance(word)}"
    if opcode == 0x03:
        return f"{name} x{rd},{signed(word >> 20, 12)}(x{first})"
    return f"{name} x{second},{signed(word >> 25 << 5 | rd, 12)}(x{first})"
