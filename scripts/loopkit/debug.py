"""What debug data say without other tools: the files that their lines name; and, by readelf, the constants."""
from __future__ import annotations

import re
import shutil
import struct
import subprocess
from dataclasses import dataclass, field
from functools import cached_property

from .expressions import evaluated

READELF = ("riscv64-unknown-elf-readelf", "riscv32-unknown-elf-readelf", "riscv64-linux-gnu-readelf", "readelf", "llvm-readelf")
DIRECTORY, PATH = 2, 1  # kinds of what is said of a file
TEXT, IN_TEXTS, IN_LINE_TEXTS = 0x08, 0x0E, 0x1F  # forms of texts
SIZES = {0x0B: 1, 0x05: 2, 0x06: 4, 0x07: 8, 0x1E: 16}  # bytes of forms of fixed size
ENUMERATOR = re.compile(r"DW_TAG_enumerator\)\s.*?DW_AT_name\s*:[^\n]*?(\w+)\n.*?DW_AT_const_value\s*:\s*(?:\([^)]*\)\s*)?(-?\w+)", re.S)
MACRO = re.compile(r"macro : (\w+) ([^\n]+)")


def files_of(sections: dict[str, bytes]) -> set[str]:
    """The paths of all files that the debug lines name, as far as they can be read."""
    data, found, at = sections.get(".debug_line", b""), set[str](), 0
    texts = {IN_TEXTS: sections.get(".debug_str", b""), IN_LINE_TEXTS: sections.get(".debug_line_str", b"")}
    while at + 15 < len(data):
        length = struct.unpack_from("<I", data, at)[0]
        try:
            found |= Unit(data, at + 4, texts).files()
        except (IndexError, struct.error, ValueError, KeyError):
            pass
        at += 4 + length
    return found


@dataclass
class Unit:
    """Reads the head of the debug lines of one compilation, from a place on."""

    data: bytes
    at: int
    texts: dict[int, bytes]

    def number(self, form: str) -> int:
        value: int = struct.unpack_from(form, self.data, self.at)[0]
        self.at += struct.calcsize(form)
        return value

    def leb(self) -> int:
        """A number of any length."""
        value = shift = 0
        while True:
            byte = self.number("<B")
            value |= (byte & 127) << shift
            shift += 7
            if byte < 128:
                return value

    def text(self) -> str:
        """A text that a zero ends."""
        end = self.data.index(b"\0", self.at)
        found = self.data[self.at:end].decode("utf-8", "replace")
        self.at = end + 1
        return found

    def files(self) -> set[str]:
        """The paths of the files."""
        version = self.number("<H")
        if version >= 5:
            self.at += 2
        self.at += 4  # the length of the head
        self.at += 5 if version >= 4 else 4
        opcodes = self.number("<B")
        self.at += opcodes - 1  # what each of them takes
        return self.new_files() if version >= 5 else self.old_files()

    def old_files(self) -> set[str]:
        """The files of versions 2 to 4."""
        folders, found = [""], set()
        while folder := self.text():
            folders.append(folder)
        while name := self.text():
            number, _, _ = self.leb(), self.leb(), self.leb()
            found.add(joined(folders[number] if number < len(folders) else "", name))
        return found

    def new_files(self) -> set[str]:
        """The files of version 5."""
        folders = [name for name, _ in self.entries()]
        return {joined(folders[folder] if folder < len(folders) else "", name) for name, folder in self.entries()}

    def entries(self) -> list[tuple[str, int]]:
        """A list of names, each with the number of its folder."""
        forms = [(self.leb(), self.leb()) for _ in range(self.number("<B"))]
        return [self.entry(forms) for _ in range(self.leb())]

    def entry(self, forms: list[tuple[int, int]]) -> tuple[str, int]:
        """A name with the number of its folder."""
        name, folder = "", 0
        for kind, form in forms:
            value = self.value(form)
            if kind == PATH:
                name = str(value)
            elif kind == DIRECTORY and isinstance(value, int):
                folder = value
        return name, folder

    def value(self, form: int) -> str | int:
        """A value of some form."""
        if form == TEXT:
            return self.text()
        if form in self.texts:
            at = self.number("<I")
            return self.texts[form][at:self.texts[form].index(b"\0", at)].decode("utf-8", "replace")
        if form == 0x0F:
            return self.leb()
        self.at += SIZES[form]
        return int.from_bytes(self.data[self.at - SIZES[form]:self.at], "little")


def joined(folder: str, name: str) -> str:
    """A file's path."""
    return name if name.startswith("/") or not folder else f"{folder}/{name}"


@dataclass
class Constants:
    """The constants that the debug data of a file have: enumerators, and macros with `-g3`. Those of several values have none."""

    path: str
    values: dict[str, set[str]] = field(default_factory=dict)

    @cached_property
    def known(self) -> dict[str, set[str]]:
        """The texts of the values by name."""
        tool = next((tool for tool in READELF if shutil.which(tool)), None)
        found: dict[str, set[str]] = {}
        if tool is None:
            return found
        for what, form in (("info", ENUMERATOR), ("macro", MACRO)):
            said = subprocess.run([tool, f"--debug-dump={what}", self.path], capture_output=True, text=True, errors="replace",
                                  check=False).stdout
            for name, value in form.findall(said):
                found.setdefault(name, set()).add(value.strip())
        return found

    def value(self, name: str, depth: int = 0) -> int | None:
        """The number that a name stands for, None if it is not known."""
        texts = self.known.get(name, set())
        if len(texts) != 1 or depth > 20:
            return None
        return evaluated(next(iter(texts)), lambda inner: self.value(inner, depth + 1))
