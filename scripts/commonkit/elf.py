"""Reads ELF32 files: what is loaded of them, and their symbols."""
from __future__ import annotations

import struct
from dataclasses import dataclass
from functools import cached_property

LOAD, EXECUTE, WRITE, SYMBOL_TABLE = 1, 1, 2, 2
COMPRESSED = 1  # the flag of a file whose code may have instructions of 16 bits
OBJECT, FUNCTION, FILE = 1, 2, 4  # kinds of symbols


class BadFile(Exception):
    """A file that is no little-endian ELF32 file."""


@dataclass(frozen=True)
class Segment:
    """The bytes of a segment that are in the file."""

    address: int
    offset: int
    data: bytes
    executable: bool
    writable: bool = False

    def holds(self, address: int, size: int = 1) -> bool:
        """Whether these bytes are in it."""
        return self.address <= address and address + size <= self.address + len(self.data)


@dataclass(frozen=True)
class Symbol:
    """A symbol: its address, how many bytes it names, its kind, and the section of its definition, 0 for none."""

    name: str
    address: int
    size: int
    kind: int
    section: int

    def is_place(self) -> bool:
        """Whether a task set may name a place by it."""
        return bool(self.name and self.section) and self.kind != FILE


@dataclass(frozen=True)
class Elf:
    """A file, with its entry, its loaded segments and its symbols in their order, the bytes of its named sections, and whether its
    code may be compressed."""

    entry: int
    segments: list[Segment]
    symbols: list[Symbol]
    sections: dict[str, bytes]
    is_compressed: bool = False

    @cached_property
    def places(self) -> dict[str, int]:
        """The addresses of places by name, of each name the first."""
        return {symbol.name: symbol.address for symbol in reversed(self.symbols) if symbol.is_place()}

    def address(self, place: int | str) -> int:
        """The address of a place of a task set: a number, `symbol` or `symbol+offset`."""
        if isinstance(place, int):
            return place
        name, _, offset = place.partition("+")
        return self.places[name] + int(offset or "0", 16 if offset.startswith("0x") else 10)


def read_elf(data: bytes) -> Elf:
    """What a file has; `BadFile` if it is no such file, or if something of it is not inside it."""
    if data[:6] != b"\x7fELF\x01\x01" or len(data) < 52:
        raise BadFile("no little-endian ELF32 file")
    try:
        return parts_of(data)
    except (struct.error, IndexError, ValueError) as fault:
        raise BadFile("a damaged ELF file: its headers, sections or symbols are not inside it") from fault


def parts_of(data: bytes) -> Elf:
    """What a file has; an error of `struct`, an IndexError or a ValueError if something is not inside it."""
    entry, headers, tables, flags = struct.unpack_from("<4I", data, 24)
    header_count, _, table_count, names = struct.unpack_from("<4H", data, 44)
    parts = [struct.unpack_from("<8I", data, headers + 32 * k) for k in range(header_count)]
    sections = [struct.unpack_from("<10I", data, tables + 40 * k) for k in range(table_count if tables else 0)]
    segments = [Segment(address, offset, inside(data, offset, size), bool(kinds & EXECUTE), bool(kinds & WRITE))
                for kind, offset, address, _, size, _, kinds, _ in parts if kind == LOAD]
    table = next((section for section in sections if section[1] == SYMBOL_TABLE), None)
    symbols = read_symbols(data, table, sections[table[6]]) if table else []
    return Elf(entry, segments, symbols, read_sections(data, sections, names), bool(flags & COMPRESSED))


def inside(data: bytes, offset: int, size: int) -> bytes:
    """Bytes of a file; a ValueError if they are not all in it."""
    if offset + size > len(data):
        raise ValueError("not inside the file")
    return data[offset:offset + size]


def read_sections(data: bytes, sections: list[tuple[int, ...]], names: int) -> dict[str, bytes]:
    """The bytes of sections by name, as far as they are in the file."""
    if names >= len(sections):
        return {}
    texts = data[sections[names][4]:sections[names][4] + sections[names][5]]
    return {texts[section[0]:].split(b"\0")[0].decode("utf-8", "replace"): data[section[4]:section[4] + section[5]]
            for section in sections if section[1] != 8}


def read_symbols(data: bytes, table: tuple[int, ...], names: tuple[int, ...]) -> list[Symbol]:
    """The symbols of a table, with their names."""
    texts, entries = inside(data, names[4], names[5]), inside(data, table[4], table[5])
    found = []
    for at in range(0, len(entries) - 15, 16):
        name, address, size, info, _, section = struct.unpack_from("<IIIBBH", entries, at)
        text = texts[name:texts.index(b"\0", name)].decode("utf-8", "replace")
        found.append(Symbol(text, address, size, info & 15, section))
    return found
