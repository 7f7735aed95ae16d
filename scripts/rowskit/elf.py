"""ELF files of 32 bits: one laid out from segments and symbols, and the places of the fields that sources name."""

from __future__ import annotations

import re
from dataclasses import dataclass, field

from .assembler import Code

HEADER, SEGMENT, SECTION, SYMBOL = 52, 32, 40, 16
HEADER_FIELDS = {
    "class": (4, 1), "data": (5, 1), "version": (6, 1), "e_type": (16, 2), "e_machine": (18, 2), "e_version": (20, 4),
    "e_entry": (24, 4), "e_phoff": (28, 4), "e_shoff": (32, 4), "e_flags": (36, 4), "e_ehsize": (40, 2), "e_phentsize": (42, 2),
    "e_phnum": (44, 2), "e_shentsize": (46, 2), "e_shnum": (48, 2), "e_shstrndx": (50, 2),
}  # fmt: skip
SEGMENT_FIELDS = {
    "type": (0, 4), "offset": (4, 4), "address": (8, 4), "physical": (12, 4), "size": (16, 4), "memory": (20, 4), "flags": (24, 4),
    "align": (28, 4),
}  # fmt: skip
SECTION_FIELDS = {
    "name": (0, 4), "type": (4, 4), "flags": (8, 4), "address": (12, 4), "offset": (16, 4), "size": (20, 4), "link": (24, 4),
    "info": (28, 4), "align": (32, 4), "entry": (36, 4),
}  # fmt: skip
SYMBOL_FIELDS = {"name": (0, 4), "value": (4, 4), "size": (8, 4), "info": (12, 1), "other": (13, 1), "section": (14, 2)}
SYMBOL_TABLE, STRING_TABLE = 2, 3


def put(data: bytearray, at: int, size: int, value: int) -> None:
    """Writes a number, the low byte first."""
    data[at : at + size] = value.to_bytes(size, "little")


def get(data: bytes, at: int, size: int) -> int:
    """Reads a number, the low byte first."""
    return int.from_bytes(data[at : at + size], "little")


def place(data: bytes, name: str) -> tuple[int, int]:
    """Where a field of this file is, and its size: `e_machine`, `segment 0 size`, `section 1 offset`, `symbol 3 value`."""
    if name in HEADER_FIELDS:
        return HEADER_FIELDS[name]
    found = re.fullmatch(r"(segment|section|symbol) (\d+) (\w+)", name)
    if not found:
        raise ValueError(f"there is no field {name!r}")
    kind, number, what = found[1], int(found[2]), found[3]
    if kind == "segment":
        start, step, fields = get(data, 28, 4), SEGMENT, SEGMENT_FIELDS
    elif kind == "section":
        start, step, fields = get(data, 32, 4), SECTION, SECTION_FIELDS
    else:
        start, step, fields = symbols_at(data), SYMBOL, SYMBOL_FIELDS
    at, size = fields[what]
    return start + step * number + at, size


def symbols_at(data: bytes) -> int:
    """Where the first table of symbols begins."""
    sections = get(data, 32, 4)
    for number in range(get(data, 48, 2)):
        if get(data, sections + SECTION * number + 4, 4) == SYMBOL_TABLE:
            return get(data, sections + SECTION * number + 16, 4)
    raise ValueError("the file has no table of symbols")


@dataclass
class Segment:
    """A program header with its fields, and the code that it stands for."""

    fields: dict[str, int]
    code: Code


@dataclass
class Program:
    """What a file is laid out from, in the order of the source's lines."""

    segments: list[Segment] = field(default_factory=list)
    symbols: list[dict[str, int]] = field(default_factory=list)
    strings: bytes | None = None
    strings_first: bool = False
    settings: dict[str, str] = field(default_factory=dict)

    def labels(self) -> dict[str, int]:
        """The addresses of all labels."""
        return {name: address for segment in self.segments for name, address in segment.code.labels.items()}

    def bytes(self) -> bytes:
        """The whole file: header, program headers, contents, symbols and strings, section headers."""
        data = bytearray(HEADER + SEGMENT * len(self.segments))
        self.put_header(data)
        for number, segment in enumerate(self.segments):
            for name, stated in segment.fields.items():
                put(data, HEADER + SEGMENT * number + SEGMENT_FIELDS[name][0], 4, stated)
        labels = self.labels()
        for segment in self.segments:
            data += segment.code.bytes(labels)
        if self.strings is not None:
            self.add_symbols(data)
        for name, value in self.settings.items():
            put(data, *place(data, name), labels[value] if value in labels else int(value, 0))
        return bytes(data)

    def put_header(self, data: bytearray) -> None:
        """Writes the header of an executable that starts at its first segment."""
        data[0:7] = b"\x7fELF\x01\x01\x01"
        values = {"e_type": 2, "e_machine": 243, "e_version": 1, "e_phoff": HEADER, "e_ehsize": HEADER, "e_phentsize": SEGMENT}
        values |= {"e_phnum": len(self.segments), "e_entry": self.segments[0].fields["address"]}
        for name, value in values.items():
            put(data, *HEADER_FIELDS[name], value)

    def add_symbols(self, data: bytearray) -> None:
        """Adds symbols, strings, and a table of three sections: none, symbols, strings."""
        table = bytearray(SYMBOL * len(self.symbols))
        for number, symbol in enumerate(self.symbols):
            for name, value in symbol.items():
                at, size = SYMBOL_FIELDS[name]
                put(table, SYMBOL * number + at, size, value)
        strings = self.strings or b""
        at_strings = len(data) if self.strings_first else len(data) + len(table)
        at_table = len(data) + len(strings) if self.strings_first else len(data)
        data += strings + table if self.strings_first else table + strings
        sections = bytearray(SECTION * 3)
        for number, values in (
            (1, {"type": SYMBOL_TABLE, "offset": at_table, "size": len(table), "link": 2, "entry": SYMBOL}),
            (2, {"type": STRING_TABLE, "offset": at_strings, "size": len(strings)}),
        ):
            for name, value in values.items():
                put(sections, SECTION * number + SECTION_FIELDS[name][0], 4, value)
        for name, value in {"e_shoff": len(data), "e_shentsize": SECTION, "e_shnum": 3}.items():
            put(data, *HEADER_FIELDS[name], value)
        data += sections
