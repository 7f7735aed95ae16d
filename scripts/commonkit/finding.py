"""Finds the program `crpd`, by one rule for all scripts. As a command, for scripts of the shell, it prints its path:

    python3 -m commonkit.finding [WORD]
"""
from __future__ import annotations

import os
import shutil
import sys
from pathlib import Path

from .calls import Crpd, Trouble

OUT = Path(__file__).resolve().parents[2] / "crates" / "crpd" / "out"
BUILT = (OUT / "crpd", OUT / "try" / "crpd")


def find_program(word: str | None = None) -> str | None:
    """The program: the one that a word names, otherwise that of the environment variable CRPD, otherwise `crpd` on the PATH,
    otherwise the one that `./crpd` built here, or that `scripts/try` keeps. None if there is none."""
    named = word or os.environ.get("CRPD")
    if named:
        found = shutil.which(named)
        if found is None:
            raise Trouble(f"there is no program {named}")
        return os.path.abspath(found)
    on_path = shutil.which("crpd")
    return on_path or next((str(path) for path in BUILT if os.access(path, os.X_OK) and path.is_file()), None)


def program(word: str | None = None) -> Crpd:
    """The program; `Trouble` if there is none."""
    found = find_program(word)
    if found is None:
        raise Trouble("no program `crpd`: name it by the variable CRPD, put it on the PATH, or run ./crpd or scripts/try once")
    return Crpd(found)


if __name__ == "__main__":
    try:
        print(program(next(iter(sys.argv[1:]), None)).path)
    except Trouble as trouble:
        sys.exit(str(trouble))
