"""The bytes of a segment from its lines: instructions, labels and data."""

from __future__ import annotations

import re
from dataclasses import dataclass, field

from . import table

SIZES = {".byte": 1, ".half": 2, ".word": 4}


@dataclass
class Code:
    """Lines with the address at which each begins, and the addresses of labels."""

    start: int
    here: int
    lines: list[tuple[int, str]] = field(default_factory=list)
    labels: dict[str, int] = field(default_factory=dict)

    def add(self, line: str) -> None:
        """Takes a line in: a label, or what takes up bytes."""
        label = re.fullmatch(r"(\w+):", line)
        if label:
            if label[1] in self.labels:
                raise ValueError(f"the label {label[1]} stands twice")
            self.labels[label[1]] = self.here
            return
        self.lines.append((self.here, line))
        self.here += size_of(line, self.here)

    def bytes(self, labels: dict[str, int]) -> bytes:
        """The bytes of all lines, once the labels of all segments are known."""
        return b"".join(bytes_of(line, here, labels) for here, line in self.lines)


def times(line: str) -> tuple[int, str]:
    """How often a line's instruction occurs, and the instruction: `16384 times addi x5,x5,1`."""
    found = re.fullmatch(r"(\d+) times (.+)", line)
    return (int(found[1]), found[2]) if found else (1, line)


def size_of(line: str, here: int) -> int:
    """How many bytes a line takes up at this address."""
    name, _, rest = line.partition(" ")
    if name == ".zero":
        return int(rest, 0)
    if name == ".at":
        if int(rest, 0) < here:
            raise ValueError(f"{line}: this address is passed already")
        return int(rest, 0) - here
    if name in SIZES:
        return SIZES[name] * len(rest.split(","))
    return 4 * times(line)[0]


def bytes_of(line: str, here: int, labels: dict[str, int]) -> bytes:
    """The bytes of a line."""
    name, _, rest = line.partition(" ")
    if name in (".zero", ".at"):
        return bytes(size_of(line, here))
    if name in SIZES:
        return b"".join(int(number, 0).to_bytes(SIZES[name], "little") for number in rest.split(","))
    count, text = times(line)
    return table.word_of(numbered(text, here, labels)).to_bytes(4, "little") * count


def numbered(text: str, here: int, labels: dict[str, int]) -> str:
    """A branch's or a jump's text with the distance instead of the label."""
    before, comma, last = text.rpartition(",")
    if text.split(" ")[0] in table.JUMPS and last in labels:
        return f"{before}{comma}{labels[last] - here}"
    return text
