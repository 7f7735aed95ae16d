"""Builds programs by gcc and clang at all levels, with the flags of the guide."""
from __future__ import annotations

import shutil
from dataclasses import dataclass
from pathlib import Path

from loopkit.builds import CLANG, LEVELS, PREFIX, run as call

LINK = Path(__file__).resolve().parents[2] / "examples" / "link.ld"
FLAGS = ("-march=rv32im", "-mabi=ilp32", "-ffreestanding", "-fno-pic", "-mcmodel=medlow", "-fno-jump-tables", "-fno-common", "-w")


@dataclass(frozen=True)
class Compiled:
    """A compiler at a level, in a folder with sources."""

    compiler: str
    level: str
    folder: Path

    def compile(self, source: str) -> Path:
        """Compiles a source."""
        made = self.folder / source.replace(".c", ".o")
        if self.compiler == "gcc":
            call(f"{PREFIX}gcc", *FLAGS, self.level, "-g", "-c", "-o", made, self.folder / source)
        else:
            text = made.with_suffix(".s")
            call("clang", *FLAGS, *CLANG, self.level, "-S", "-o", text, self.folder / source)
            call(f"{PREFIX}as", *FLAGS[:2], "-o", made, text)
        return made

    def build(self, sources: tuple[str, ...], name: str) -> None:
        """Builds a program of sources, with the compiler's library."""
        objects = [self.compile(source) for source in sources]
        call(f"{PREFIX}gcc", *FLAGS[:2], "-nostdlib", "-static", f"-Wl,-T,{LINK}", "-Wl,--build-id=none", "-o", self.folder / name, *objects,
             "-lgcc")


def builds(only: str) -> list[tuple[str, str]]:
    """The compilers that are installed, with their levels, as far as their names have a word."""
    tools = {"gcc": f"{PREFIX}gcc", "clang": "clang"}
    found = [(compiler, level) for compiler, levels in LEVELS.items() if shutil.which(tools[compiler]) for level in levels]
    return [build for build in found if only in " ".join(build)]
