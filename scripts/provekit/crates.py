"""The crates of the program by crates.txt, a copy of their sources, and where what is made of them goes."""
from __future__ import annotations

import shutil
from pathlib import Path

TOP = Path(__file__).resolve().parent.parent.parent
PROGRAM = "crpd"
CRATE = TOP / "crates" / PROGRAM
MADE = CRATE / "out" / PROGRAM
# The kit's checks refuse sources in a folder `out`, except below out/rlib, and a list of crates or a .git anywhere below the top.
KEPT = MADE.parent / "rlib"
# The parts of a crate that a proof reads.
PARTS = ("src", "specs", "proofs")


def listed() -> dict[str, str]:
    """The lines of crates.txt, by the crate that each begins with."""
    lines = (line.partition("#")[0].strip() for line in (TOP / "crates.txt").read_text().splitlines())
    return {line.partition(":")[0].split()[0]: line for line in lines if line}


def needed(name: str, lines: dict[str, str], found: dict[str, str]) -> dict[str, str]:
    """Adds a crate's line, and those of the crates below it, to what was found."""
    if name in lines and name not in found:
        found[name] = lines[name]
        for library in lines[name].partition(":")[2].replace(",", " ").split():
            needed(library, lines, found)
    return found


def copy_sources(tree: Path) -> None:
    """Copies what the program is proved of into a folder, with a list of the crates."""
    crates = needed(PROGRAM, listed(), {})
    (tree / "crates.txt").write_text("".join(f"{line}\n" for line in crates.values()))
    for name in crates:
        for part in PARTS:
            source = TOP / "crates" / name / part
            if source.is_dir():
                shutil.copytree(source, tree / "crates" / name / part)


def place_of(name: str) -> Path:
    """Where the library of a crate is made, or the program."""
    return KEPT / name / (name if name == PROGRAM else f"{name}.rlib")
