"""The lists of sources: their blocks, and the file that each block makes."""

from __future__ import annotations

import re
from dataclasses import dataclass, field
from pathlib import Path

from . import elf, table, texts
from .assembler import Code

TOP = Path(__file__).resolve().parent.parent.parent
SOURCES = TOP / "crates" / "command_tests" / "sources"
DATA = TOP / "crates" / "command_tests" / "data"
HEADING = re.compile(r"\[(\S+)\](?: (from|copy of) (\S+))?")


@dataclass
class Block:
    """A heading `[NAME]`, `[NAME] from BASE` or `[NAME] copy of FILE`, its comments, and its lines."""

    name: str
    how: str | None
    base: str | None
    where: str
    notes: list[str] = field(default_factory=list)
    lines: list[str] = field(default_factory=list)


class Sources:
    """All blocks, and the files made from them on request."""

    def __init__(self) -> None:
        self.blocks: dict[str, Block] = {}
        self.made: dict[str, bytes] = {}
        for path in sorted(SOURCES.glob("*.txt")):
            for block in blocks_of(path):
                if block.name in self.blocks:
                    raise ValueError(f"{block.where}: {block.name} stands twice")
                self.blocks[block.name] = block

    def file(self, name: str) -> bytes:
        """The bytes of a file: as its block makes it, or as it is, if it has no block."""
        if name not in self.blocks:
            return (DATA / name).read_bytes()
        if name not in self.made:
            block = self.blocks[name]
            try:
                self.made[name] = self.make(block)
            except (ValueError, KeyError, OSError, IndexError, OverflowError) as error:
                raise ValueError(f"{block.where}: [{name}]: {error}") from error
        return self.made[name]

    def make(self, block: Block) -> bytes:
        """What a block makes."""
        if block.how == "copy of":
            return self.file(str(block.base))
        base = self.file(block.base) if block.base else b""
        if not block.name.endswith(".elf"):
            return texts.changed(base, block.lines)
        if block.base:
            return changed_elf(base, block.lines)
        return assembled(block.lines).bytes()


def blocks_of(path: Path) -> list[Block]:
    """The blocks of a list."""
    blocks: list[Block] = []
    for number, line in enumerate(path.read_text().splitlines(), 1):
        found = HEADING.fullmatch(line)
        if found:
            blocks.append(Block(found[1], found[2], found[3], f"{path.name}:{number}"))
        elif line.startswith("#") or not line:
            if blocks and line:
                blocks[-1].notes.append(line.removeprefix("#").strip())
        elif blocks:
            blocks[-1].lines.append(line)
        else:
            raise ValueError(f"{path.name}:{number}: a line before the first heading")
    return blocks


def instruction_lines(lines: list[str]) -> list[str]:
    """The lines of an ELF file's block without blanks around them and remarks after them."""
    return [line.split("  # ")[0].strip() for line in lines]


def numbers(words: list[str]) -> dict[str, int]:
    """The fields that words such as `flags=6` name."""
    pairs = (word.partition("=") for word in words)
    return {name: int(value, 0) for name, _, value in pairs}


def assembled(lines: list[str]) -> elf.Program:
    """The program that a block lays out: segments with their code, symbols, strings, and fields of the header."""
    lines = instruction_lines(lines)
    program = elf.Program()
    position = elf.HEADER + elf.SEGMENT * sum(1 for line in lines if line.startswith("segment ") and " = " not in line)
    code: Code | None = None
    for line in lines:
        word, _, rest = line.partition(" ")
        if " = " in line:
            name, _, value = line.partition(" = ")
            program.settings[name] = value
        elif word == "segment":
            position += closed(program)
            code = opened(program, rest.split(), position)
        elif word == "symbol":
            program.symbols.append(numbers(rest.split()))
        elif word == "strings":
            program.strings = texts.plain(rest)
            program.strings_first = not program.symbols
        elif code is None:
            raise ValueError(f"{line!r} is before the first segment")
        else:
            code.add(line)
    closed(program)
    return program


def opened(program: elf.Program, words: list[str], position: int) -> Code:
    """Begins a segment at an address, with its fields; a field that is not stated has its default."""
    address = int(words[0], 0)
    fields = {"type": 1, "offset": position, "address": address, "physical": address, "flags": 5, "align": 4} | numbers(words[1:])
    start = (address + position - fields["offset"]) & table.MASK
    program.segments.append(elf.Segment(fields, Code(start, start)))
    return program.segments[-1].code


def closed(program: elf.Program) -> int:
    """Ends the last segment: its size is that of its code unless stated otherwise. Gives the bytes of its code."""
    if not program.segments:
        return 0
    last = program.segments[-1]
    size = last.code.here - last.code.start
    last.fields.setdefault("size", size)
    last.fields.setdefault("memory", last.fields["size"])
    return size


def changed_elf(base: bytes, lines: list[str]) -> bytes:
    """An ELF file with fields, bytes or instructions of its base changed, or cut."""
    data = bytearray(base)
    for line in instruction_lines(lines):
        cut = re.fullmatch(r"cut to (\d+) bytes", line)
        name, _, value = line.partition(" = ")
        at = re.fullmatch(r"(bytes|code) at (\w+)", name)
        if cut:
            del data[int(cut[1]) :]
        elif at and at[1] == "bytes":
            new = bytes.fromhex(value)
            data[int(at[2], 0) : int(at[2], 0) + len(new)] = new
        elif at:
            elf.put(data, offset_of(data, int(at[2], 0)), 4, table.word_of(value))
        else:
            elf.put(data, *elf.place(data, name), int(value, 0))
    return bytes(data)


def offset_of(data: bytes, address: int) -> int:
    """Where the word at an address of the first segment is in the file."""
    start, offset, size = (elf.get(data, *elf.place(data, f"segment 0 {what}")) for what in ("address", "offset", "size"))
    if not start <= address <= start + size - 4:
        raise ValueError(f"the first segment has no word at {address:#x}")
    return offset + address - start
