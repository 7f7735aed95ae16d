"""Compilers with their options, as the guide names them."""
from __future__ import annotations

import shutil
import subprocess
from dataclasses import dataclass
from pathlib import Path

PREFIX = "riscv64-unknown-elf-"
COMMON = ("-mabi=ilp32", "-ffreestanding", "-fno-pic", "-mcmodel=medlow", "-fno-jump-tables", "-fno-common", "-w")
CLANG = ("--target=riscv32", "-fno-addrsig", "-gline-tables-only", "-gdwarf-4", "-fno-dwarf-directory-asm", "-mllvm",
         "-tail-dup-placement=false")
LEVELS = {"gcc": ("-O0", "-O1", "-O2", "-O3", "-Os", "-Og"), "clang": ("-O0", "-O1", "-O2", "-O3", "-Os")}


class BadBuild(Exception):
    """What a compiler or the linker said."""


def run(*command: object) -> None:
    """Runs a command; `BadBuild` with what it said if it fails."""
    done = subprocess.run([str(word) for word in command], capture_output=True, text=True)
    if done.returncode != 0:
        raise BadBuild(f"{command[0]}: {done.stderr.strip()}")


@dataclass(frozen=True)
class Build:
    """A compiler, the instructions that it may use, and its level of optimization."""

    compiler: str
    arch: str
    level: str

    def name(self) -> str:
        """How the build is called."""
        return f"{self.compiler} {self.arch} {self.level}"

    def make(self, sources: list[Path], examples: Path, out: Path) -> None:
        """Compiles the sources, with examples/divide.c for rv32i, and links them by examples/link.ld."""
        if self.arch == "rv32i":
            sources = [*sources, examples / "divide.c"]
        objects = [self.compile(source, out.with_name(f"{source.stem}.o")) for source in sources]
        run(f"{PREFIX}gcc", f"-march={self.arch}", "-mabi=ilp32", "-nostdlib", "-static", f"-Wl,-T,{examples / 'link.ld'}",
            "-Wl,--build-id=none", "-o", out, *objects)

    def compile(self, source: Path, made: Path) -> Path:
        """Compiles a source to an object file."""
        arch = f"-march={self.arch}"
        if self.compiler == "gcc":
            run(f"{PREFIX}gcc", arch, self.level, *COMMON, "-g1", "-c", "-o", made, source)
            return made
        text = made.with_suffix(".s")
        run("clang", arch, self.level, *COMMON, *CLANG, "-S", "-o", text, source)
        run(f"{PREFIX}as", arch, "-mabi=ilp32", "-o", made, text)
        return made


def builds() -> list[Build]:
    """All builds for which there is a compiler."""
    there = {"gcc": shutil.which(f"{PREFIX}gcc"), "clang": shutil.which(f"{PREFIX}gcc") and shutil.which("clang")}
    return [Build(compiler, arch, level) for compiler, levels in LEVELS.items() if there[compiler]
            for level in levels for arch in ("rv32im", "rv32i")]
