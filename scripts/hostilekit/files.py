"""Large ELF files: of many segments, of many symbols, of 16 MB of code."""
from __future__ import annotations

import struct
from collections.abc import Callable

from .parts import ADDI, ECALL, FILE, LOAD_ONE, LONGEST_PERIOD, Files, Segment, headers, job, loaded, platform, task

TASKS = 32
MOST_HEADERS = 65535
SYMBOL, SECTION = "<IIIBBH", "<IIIIIIIIII"
# Where the symbols of a file begin, and the bytes of its sections.
SYMBOLS_AT = 92
SECTIONS = 120


def many_headers(address: Callable[[int], int]) -> bytes:
    """65,535 segments of a word each, from the same file bytes; the one with the entry comes by its place."""
    end = 52 + 32 * MOST_HEADERS
    return headers(address(0), [Segment(end, address(k), 4, 4) for k in range(MOST_HEADERS)]) + struct.pack("<I", ECALL)


def mixed_headers() -> bytes:
    """As many segments, whose addresses come in no order."""
    return many_headers(lambda k: 0x1000 + 8 * (k * 40503 % 65536))


def headers_of_files() -> Files:
    """Thirty-two files of 65,535 segments each, all at the same places."""
    files: Files = {f"t{i}.elf": mixed_headers() for i in range(TASKS)}
    files["set.toml"] = platform() + "".join(task(f"t{i}", f"t{i}.elf", LONGEST_PERIOD) for i in range(TASKS))
    return files


def symbol(name: int) -> bytes:
    """A function's symbol at the entry, by the place of its name."""
    return struct.pack(SYMBOL, name, 0x1000, 0, 2, 0, 1)


def room(names: bytes) -> int:
    """How many symbols a file holds beside these names."""
    return (FILE - SYMBOLS_AT - len(names) - SECTIONS) // 16


def with_symbols(symbols: bytes, names: bytes) -> bytes:
    """A program of two instructions with these symbols."""
    names_at = SYMBOLS_AT + len(symbols)
    head = headers(0x1000, [Segment(84, 0x1000, 8, 8)], (names_at + len(names), 3))
    table = struct.pack(SECTION, 0, 2, 0, 0, SYMBOLS_AT, len(symbols), 2, 0, 4, 16)
    texts = struct.pack(SECTION, 0, 3, 0, 0, names_at, len(names), 0, 0, 1, 0)
    return head + struct.pack("<II", LOAD_ONE, ECALL) + symbols + names + bytes(40) + table + texts


def many_symbols(name: bytes = b"z\0") -> bytes:
    """A program and a symbol table that fills the file; the last symbol alone is named z."""
    names = b"\0y\0" + name
    return with_symbols(symbol(1) * (room(names) - 1) + symbol(3), names)


def symbol_names() -> Files:
    """Thousands of places by the name of the last of a million symbols."""
    own = '[[task.loop]]\nhead = "z"\nbound = 3\nrange = [' + ",".join(['["z","z"]'] * 100000) + "]\n"
    return {"set.toml": platform() + task(more=own), "one.elf": many_symbols()}


def long_names() -> Files:
    """An entry by a name that no symbol has, while one symbol's name fills half the file."""
    return {"set.toml": platform() + task(more='entry = "z"\n'), "one.elf": many_symbols(b"z" * (FILE // 2) + b"\0")}


def name_tails() -> Files:
    """Symbols whose names are the tails of one name of 8 MB: half a million names, of 4 MB each on average."""
    names = b"\0" + b"z" * (FILE // 2) + b"\0"
    file = with_symbols(b"".join(symbol(1 + 16 * k) for k in range(room(names))), names)
    own = 'entry = "z"\n[[task.loop]]\nhead = "zz"\nbound = 3\nrange = [' + ",".join(['["zzz","zzzz"]'] * 1000) + "]\n"
    return {"set.toml": platform() + task(more=own), "one.elf": file}


def last_symbol() -> Files:
    """An entry by the name of the last of a million symbols."""
    return {"set.toml": platform() + task(more='entry = "z"\n'), "one.elf": many_symbols()}


def one_file_of_all() -> Files:
    """Thirty-two tasks that name one file of a million symbols."""
    tasks = "".join(task(f"t{i}", "one.elf", LONGEST_PERIOD, more='entry = "z"\n') for i in range(TASKS))
    return {"set.toml": platform() + tasks, "one.elf": many_symbols()}


def large_files(data: bytes = b"\0") -> Files:
    """Thirty-two files of 16 MB each, at separate places, with this byte as their data."""
    files: Files = {}
    for i in range(TASKS):
        files[f"t{i}.elf"] = loaded(struct.pack("<II", ADDI, ECALL) + data * (FILE - SYMBOLS_AT), 0x01000000 * i + 0x1000)
    files["set.toml"] = platform() + "".join(task(f"t{i}", f"t{i}.elf", LONGEST_PERIOD) for i in range(TASKS))
    files["script.toml"] = "cycles = 1000\n" + "".join(job(f"t{i}", 0, 0) for i in range(TASKS))
    return files


def large_code() -> bytes:
    """A file of 16 MB of instructions."""
    return loaded(struct.pack("<II", ADDI, ECALL) + struct.pack("<I", ADDI) * ((FILE - 84) // 4 - 2), 0x1000)
