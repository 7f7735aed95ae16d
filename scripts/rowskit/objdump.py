"""The texts of words by `objdump` of the RISC-V binutils, as far as it is installed, in the form of `crpd list`."""

from __future__ import annotations

import re
import shutil
import subprocess
import tempfile

from .table import JUMPS

TOOLS = ("riscv64-unknown-elf-objdump", "riscv64-linux-gnu-objdump")
FORM = ("-D", "-b", "binary", "-m", "riscv:rv32", "-M", "numeric,no-aliases")
LINE = re.compile(r"^ *([0-9a-f]+):\t[0-9a-f]{8} +\t(\S+)\t?([^#<\n]*)", re.MULTILINE)


def tool() -> str | None:
    """The program, None if none is installed."""
    return next((name for name in TOOLS if shutil.which(name)), None)


def texts(program: str, words: list[int]) -> list[str]:
    """The texts of some words."""
    with tempfile.NamedTemporaryFile() as file:
        file.write(b"".join(word.to_bytes(4, "little") for word in words))
        file.flush()
        written = subprocess.run([program, *FORM, file.name], stdout=subprocess.PIPE, text=True, check=True).stdout
    return [text(int(address, 16), name, rest.strip()) for address, name, rest in LINE.findall(written)]


def text(address: int, name: str, rest: str) -> str:
    """An instruction with its numbers in decimal, and with the distance instead of an address; `fence` without its bits."""
    if name == "fence" or not rest:
        return name
    *parts, last = rest.split(",")
    if name in JUMPS:
        far = int(last, 16) - address
        last = str(far if far < 1 << 31 else far - (1 << 32))
    elif last.startswith("0x"):
        last = str(int(last, 16))
    return f"{name} {','.join([*parts, last])}"
