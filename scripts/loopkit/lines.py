"""The source lines of addresses, as addr2line reports them."""
from __future__ import annotations

import shutil
import subprocess
from dataclasses import dataclass
from pathlib import Path

ADDR2LINE = ("riscv64-unknown-elf-addr2line", "riscv32-unknown-elf-addr2line", "riscv64-linux-gnu-addr2line", "llvm-addr2line")


@dataclass(frozen=True)
class Frame:
    """A line of a function; of inlined functions there are several, one called from the next."""

    function: str
    path: str
    line: int

    def text(self) -> str:
        """The line with its function."""
        return f"{Path(self.path).name}:{self.line} {self.function}"


Frames = tuple[Frame, ...]


def tool_name() -> str | None:
    """The addr2line that is installed."""
    return next((tool for tool in ADDR2LINE if shutil.which(tool)), None)


def has_tool() -> bool:
    """Whether there is one."""
    return tool_name() is not None


def lines_of(elf: str, addresses: list[int]) -> dict[int, Frames]:
    """The source lines of addresses, the innermost inlined function first; none if the file has no debug lines."""
    tool = tool_name()
    if tool is None or not addresses:
        return {}
    asked = "\n".join(f"0x{a:x}" for a in addresses)
    return read_answer(subprocess.run([tool, "-a", "-i", "-f", "-e", elf], input=asked, capture_output=True, text=True, errors="replace",
                                      check=False).stdout)


def read_answer(answer: str) -> dict[int, Frames]:
    """The frames by address: an address on a separate line, then for each frame a line with the function and one with the
    place."""
    found: dict[int, list[Frame]] = {}
    address, function = 0, None
    for line in answer.splitlines():
        if function is None and line.startswith("0x"):
            address = int(line, 16)
            found[address] = []
        elif function is None:
            function = line
        else:
            path, _, number = line.split(" (discriminator")[0].rpartition(":")
            if number.isdigit() and int(number) and path and not path.startswith("?"):
                found[address].append(Frame(function, path, int(number)))
            function = None
    return {a: tuple(frames) for a, frames in found.items()}
