"""The kernels of examples/kernels, their image, and the task sets that are made from them."""
import json
import tomllib
from collections.abc import Iterable
from dataclasses import dataclass, replace
from pathlib import Path

from commonkit.elf import Elf, Symbol, read_elf

from .ending import stop

KERNELS = Path(__file__).resolve().parents[2] / "examples" / "kernels"
# A period that no window reaches.
HUGE = 1 << 40


@dataclass(frozen=True)
class Platform:
    """The numbers of a core: bytes of a line, cache sets, and cycles."""

    line: int = 16
    sets: int = 32
    hit: int = 1
    miss: int = 10
    data: int = 1
    taken: int = 2
    mul: int = 3
    div: int = 20
    switch: int = 20

    def text(self) -> str:
        """The platform in a set."""
        keys = ("line", "sets", "hit", "miss", "data", "taken", "mul", "div", "switch")
        return "[platform]\n" + "".join(f"{key} = {getattr(self, key)}\n" for key in keys)


@dataclass(frozen=True)
class Loop:
    """A stated loop, with its places as a task set writes them."""

    head: str
    bound: int
    ranges: list[list[str]]

    def text(self) -> str:
        """The loop in a set."""
        return (f'[[task.loop]]\nhead = "{self.head}"\nbound = {self.bound}\n'
                f"range = {json.dumps(self.ranges)}\n")


@dataclass(frozen=True)
class Kernel:
    """A kernel: its entry, which is its name, and its loops."""

    name: str
    loops: list[Loop]


@dataclass(frozen=True)
class Timed:
    """A task of a set: a kernel with its period, its jitter, and its deadline, which is the period
    if none is given."""

    kernel: Kernel
    period: int
    jitter: int = 0
    name: str = ""
    deadline: int | None = None

    @property
    def timing(self) -> tuple[int, int, int]:
        """Its period, deadline and jitter."""
        return self.period, self.deadline or self.period, self.jitter

    def text(self, place: int) -> str:
        """The task's tables. `place` counts the tasks of the set: each has its own stack."""
        entry = self.kernel.name
        keys = (f'name = "{self.name or entry}"\nfile = "kernels.elf"\nentry = "{entry}"\n'
                f"period = {self.period}\ndeadline = {self.deadline or self.period}\n"
                f"jitter = {self.jitter}\n"
                f'stack = "stack_{place}"\n')
        return "[[task]]\n" + keys + "".join(loop.text() for loop in self.kernel.loops)


def set_text(platform: Platform, tasks: Iterable[Timed]) -> str:
    """The task set's file; the tasks are in the order of priority."""
    return platform.text() + "".join(task.text(place) for place, task in enumerate(tasks))


def read_kernels(path: Path) -> dict[str, Kernel]:
    """The kernels of a task set by name, in its order."""
    with path.open("rb") as handle:
        tasks = tomllib.load(handle)["task"]
    return {task["entry"]: Kernel(task["entry"], [Loop(loop["head"], loop["bound"], loop["range"])
                                                  for loop in task.get("loop", [])])
            for task in tasks}


@dataclass(frozen=True)
class Image:
    """The ELF file of the kernels, whose data can be changed, and its symbols by name."""

    content: bytes
    elf: Elf
    symbols: dict[str, Symbol]

    def offset(self, address: int, size: int) -> int:
        """Where bytes are in the file."""
        for segment in self.elf.segments:
            if segment.holds(address, size):
                return segment.offset + address - segment.address
        stop(f"the file has no bytes for {address:08x}")

    def word(self, address: int) -> int:
        """The word at an address."""
        return int.from_bytes(self.content[self.offset(address, 4):][:4], "little")

    def data(self, kernel: str) -> list[Symbol]:
        """The data that a kernel starts with: its symbols in the file's part of the data
        segment."""
        data = [segment for segment in self.elf.segments if not segment.executable]
        found = [symbol for name, symbol in self.symbols.items() if name.startswith(f"{kernel}_")
                 and any(part.holds(symbol.address, symbol.size) for part in data)]
        return sorted(found, key=lambda symbol: symbol.address)

    def values(self, kernel: str) -> bytes:
        """The bytes of a kernel's data."""
        places = [(self.offset(symbol.address, symbol.size), symbol.size)
                  for symbol in self.data(kernel)]
        return b"".join(self.content[at:at + size] for at, size in places)

    def with_values(self, kernel: str, values: bytes) -> "Image":
        """The image with other bytes in a kernel's data."""
        changed, used = bytearray(self.content), 0
        for symbol in self.data(kernel):
            at = self.offset(symbol.address, symbol.size)
            changed[at:at + symbol.size] = values[used:used + symbol.size]
            used += symbol.size
        return replace(self, content=bytes(changed))


def read_image(content: bytes) -> Image:
    """The image of an ELF32 file; the first symbol of each name counts."""
    elf = read_elf(content)
    return Image(content, elf, {symbol.name: symbol for symbol in reversed(elf.symbols)})
