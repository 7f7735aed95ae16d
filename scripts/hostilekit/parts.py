"""The parts of inputs: platforms, tasks, jobs, instructions and ELF files."""
from __future__ import annotations

import struct
from collections.abc import Sequence
from dataclasses import dataclass
from pathlib import Path

MEGA = 1 << 20
FILE = 16 * MEGA
CERTIFICATE = 128 * MEGA
LONGEST_PERIOD = 1 << 40
MOST_NODES = 16384

ADDI, ADDI_X6, LESS, ECALL, RETURN = 0x00128293, 0x00130313, 0xFFF28293, 0x00000073, 0x00008067
LOAD_ONE = 0x00100293

# The contents of an input's files by their names.
Files = dict[str, "bytes | str"]


@dataclass(frozen=True)
class Segment:
    """A segment: where its bytes are in the file, its address, and its bytes in the file and in memory."""

    offset: int
    address: int
    size: int
    memory: int


def platform(line: int = 16, sets: int = 4, miss: int = 10, data: int = 3, taken: int = 2, switch: int = 5) -> str:
    """The head of a set."""
    return f"[platform]\nline = {line}\nsets = {sets}\nhit = 1\nmiss = {miss}\ndata = {data}\ntaken = {taken}\nswitch = {switch}\n"


def task(name: str = "one", file: str = "one.elf", period: int = 100, more: str = "") -> str:
    """A task of a set, whose deadline is its period."""
    return f'[[task]]\nname = "{name}"\nfile = "{file}"\nperiod = {period}\ndeadline = {period}\njitter = 0\n{more}'


def loop(head: int, bound: int, end: int | None = None) -> str:
    """A loop of a task, by the addresses of its head and of its last instruction; with no end it holds its head alone."""
    ranges = "" if end is None else f"[{head}, {end}]"
    return f"[[task.loop]]\nhead = {head}\nbound = {bound}\nrange = [{ranges}]\n"


def job(name: str, arrival: int, release: int) -> str:
    """A job of a script."""
    return f'[[job]]\ntask = "{name}"\narrival = {arrival}\nrelease = {release}\n'


def headers(entry: int, segments: Sequence[Segment], sections: tuple[int, int] = (0, 0)) -> bytes:
    """The ELF header, with the place and the number of the sections, and the program headers."""
    head = b"\x7fELF\x01\x01\x01" + bytes(9)
    head += struct.pack("<HHIIIIIHHHHHH", 2, 243, 1, entry, 52, sections[0], 0, 52, 32, len(segments), 40, sections[1], 0)
    return head + b"".join(
        struct.pack("<IIIIIIII", 1, it.offset, it.address, it.address, it.size, it.memory, 5, 4) for it in segments
    )


def loaded(code: bytes, base: int) -> bytes:
    """An ELF file of one segment, which begins with its entry."""
    return headers(base, [Segment(84, base, len(code), len(code))]) + code


def elf(words: Sequence[int], base: int = 0x1000) -> bytes:
    """An ELF file of these instructions."""
    return loaded(b"".join(struct.pack("<I", word & 0xFFFFFFFF) for word in words), base)


def jal(register: int, by: int) -> int:
    """A jump by so many bytes that puts where it was into a register."""
    b = by & 0x1FFFFF
    return (b >> 20 & 1) << 31 | (b >> 1 & 0x3FF) << 21 | (b >> 11 & 1) << 20 | (b >> 12 & 0xFF) << 12 | register << 7 | 0x6F


def bne(by: int) -> int:
    """A branch by so many bytes while x5 is not 0."""
    b = by & 0x1FFF
    return (b >> 12 & 1) << 31 | (b >> 5 & 0x3F) << 25 | 5 << 15 | 1 << 12 | (b >> 1 & 0xF) << 8 | (b >> 11 & 1) << 7 | 0x63


SMALL = elf([LOAD_ONE, ECALL])
SMALL_SET = platform() + task()


def write_files(files: Files, folder: Path) -> None:
    """Writes an input's files into a folder."""
    for name, data in files.items():
        (folder / name).write_bytes(data.encode() if isinstance(data, str) else data)


def with_file(file: bytes) -> Files:
    """A small set over this file."""
    return {"set.toml": SMALL_SET, "one.elf": file}


def with_set(text: str) -> Files:
    """This set, over a small program."""
    return {"set.toml": text, "one.elf": SMALL}


def with_certificate(text: str) -> Files:
    """A small set, and this certificate."""
    return {**with_set(SMALL_SET), "cert.json": text}


def with_script(text: str) -> Files:
    """A small set, and this script."""
    return {**with_set(SMALL_SET), "script.toml": text}
