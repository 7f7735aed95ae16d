"""Reads ELF files, and makes the code of a set of them."""
from __future__ import annotations

import struct
from dataclasses import dataclass, field

from .faults import Unfit
from .taskset import Place

LOAD, EXECUTABLE = 1, 1
SYMBOLS, FILE_SYMBOL = 2, 4
END = 0xFFFFFFFC


@dataclass(frozen=True)
class Stretch:
    """Bytes of code from an address on."""

    first: int
    content: bytes

    def end(self) -> int:
        """The address behind the last byte."""
        return self.first + len(self.content)


@dataclass(frozen=True)
class Image:
    """What a file says: where it starts, its code, and the addresses of its symbols."""

    entry: int
    code: tuple[Stretch, ...]
    symbols: dict[str, int] = field(default_factory=dict)

    def address(self, place: Place, task: str) -> int:
        """The address of a place of a task's set."""
        if place.symbol is None:
            return place.offset
        at = self.symbols.get(place.symbol, 1 << 32) + place.offset
        if at >= 1 << 32:
            raise Unfit(f"{task}: its file has no symbol {place.symbol}")
        return at


def read_image(content: bytes, name: str) -> Image:
    """The image of a file."""
    try:
        if content[:7] != b"\x7fELF\x01\x01\x01" or struct.unpack_from("<HH", content, 16) != (2, 243):
            raise Unfit(f"{name} is no RISC-V executable of 32 bits")
        entry, headers = struct.unpack_from("<II", content, 24)
        size, count = struct.unpack_from("<HH", content, 42)
        return Image(entry, read_code(content, headers, size, count), read_symbols(content))
    except (struct.error, IndexError, ValueError) as error:
        raise Unfit(f"{name} is cut short or damaged") from error


def read_code(content: bytes, headers: int, size: int, count: int) -> tuple[Stretch, ...]:
    """The executable bytes that program headers place."""
    found = []
    for k in range(count):
        kind, at, address, _, length, room, flags, _ = struct.unpack_from("<8I", content, headers + size * k)
        if kind == LOAD and (at + length > len(content) or length > room):
            raise ValueError
        if kind == LOAD and flags & EXECUTABLE and length:
            found.append(Stretch(address, content[at:at + length]))
    return tuple(found)


def read_symbols(content: bytes) -> dict[str, int]:
    """The symbols of the first symbol table, of each name the first."""
    (start,) = struct.unpack_from("<I", content, 32)
    size, count = struct.unpack_from("<HH", content, 46)
    sections = [struct.unpack_from("<10I", content, start + size * k) for k in range(count if start else 0)]
    table = next((section for section in sections if section[1] == SYMBOLS), None)
    if table is None:
        return {}
    names_at, names_size = sections[table[6]][4:6]
    names = content[names_at:names_at + names_size]
    found: dict[str, int] = {}
    for at in range(table[4], table[4] + table[5] // 16 * 16, 16):
        name_at, value, _, info, _, section = struct.unpack_from("<IIIBBH", content, at)
        end = names.find(b"\0", name_at)
        if section and info & 15 != FILE_SYMBOL and end > name_at:
            found.setdefault(names[name_at:end].decode(errors="surrogateescape"), value)
    return found


class Code:
    """The words of all images together."""

    def __init__(self, images: list[Image]) -> None:
        self.stretches = sorted({part for image in images for part in image.code}, key=lambda part: part.first)
        for k, one in enumerate(self.stretches):
            for other in self.stretches[k + 1:]:
                first, end = other.first, min(one.end(), other.end())
                if first < end and one.content[first - one.first:end - one.first] != other.content[:end - first]:
                    raise Unfit(f"two files have different code between {first:08x} and {end:08x}")

    def byte(self, address: int) -> int | None:
        """The byte of code at an address."""
        for part in self.stretches:
            if part.first <= address < part.end():
                return part.content[address - part.first]
        return None

    def word(self, address: int) -> int | None:
        """The word of code at an address that is a multiple of 4."""
        found = [self.byte(address + k) for k in range(4)]
        if address == END or any(byte is None for byte in found):
            return None
        return sum(byte << 8 * k for k, byte in enumerate(found) if byte is not None)
