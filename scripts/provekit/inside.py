"""All that this build takes from the inside of the kit, and the plain call of the kit for where that fails.

The kit promises its commands, and not what they are made of. Of these none would do here (docs/DECISIONS.md, "Building and
checking"), so this file, and no other, goes by the following:

- `bin/rtlib.py` beside the page that `rt doc` names: its folders KIT and RATTLE, its calls `crates_below`, `fits`, `guarded` and
  `lock`, and of a crate the fields `name`, `folder`, `deps`, `rlib` and `out` and the calls `below`, `call`, `count`, `stamp` and
  `words`
- the prover's words for a library with its statements and for a program's object, and those of `bin/rattle-link`
- the two libraries under `c` that a program is linked with

A kit that lacks one of the names is found out before anything is proved. Then `plain_build` has `rt run` do all of it, crate after
crate.
"""
from __future__ import annotations

import functools
import subprocess
import sys
from collections.abc import Callable
from dataclasses import dataclass
from importlib.machinery import SourceFileLoader
from operator import attrgetter
from pathlib import Path
from types import ModuleType, SimpleNamespace
from typing import Any, TextIO

USED = (
    "KIT", "RATTLE", "Crate.below", "Crate.call", "Crate.count", "Crate.stamp", "Crate.words", "crates_below", "fits", "guarded", "lock"
)
LINKED = ("c/libos_c.a", "c/liblibc_c.a")
TARGET = "x86_64-unknown-linux-gnu"
NO_WORDS = 3  # the status of the program if it is given no words


class Unfit(Exception):
    """Why nothing can be proved with what is installed."""


class Unlike(Unfit):
    """Why nothing can be proved by the inside of this kit, which may prove all by its commands."""


def kit_folder() -> Path:
    """The folder of the kit; `Unfit` if there is none."""
    try:
        page = subprocess.run(["rt", "doc"], capture_output=True, text=True, check=True).stdout.strip()
    except (OSError, subprocess.CalledProcessError) as error:
        raise Unfit("the command 'rt' of the Rattle kit is not on the PATH, or fails: install the kit, or mend the PATH") from error
    return Path(page).parent


def has(module: ModuleType, name: str) -> bool:
    """Whether the kit's module has what is used of it under this name."""
    try:
        attrgetter(name)(module)
    except AttributeError:
        return False
    return True


def loaded(file: Path) -> ModuleType:
    """The kit's module that proves crates."""
    loader = SourceFileLoader("rtlib", str(file))
    module = ModuleType("rtlib")
    module.__file__ = str(file)
    sys.modules["rtlib"] = module
    loader.exec_module(module)
    return module


@dataclass(eq=False)
class Crate:
    """A crate as this build sees it: the kit's own object of it, the crates that it uses, and where what is made of it goes."""

    kit: Kit
    own: Any
    deps: list[Crate]
    made: Path
    is_program: bool

    @property
    def name(self) -> str:
        """Its name."""
        return str(self.own.name)

    def lines(self) -> int:
        """The lines of its sources."""
        return int(self.own.count(rb"\n"))

    def stamp(self) -> str:
        """A sum of all that it is made from."""
        return str(self.own.stamp())

    def prove(self, jobs: int, log: TextIO) -> bool:
        """Proves it from nothing, and makes the library with its statements, or the program."""
        self.own.out = log
        return not any(self.own.call(*words) for words in self.commands(jobs))

    def commands(self, jobs: int) -> list[list[str]]:
        """The commands for that: a library is made with its statements, the program is linked."""
        words = [self.kit.module.RATTLE, "build", *self.own.words(["--jobs", str(jobs)], keeps=False)]
        if not self.is_program:
            return [[*words, "--statements", "-o", str(self.made)]]
        toolchain, compiled = ["--toolchain", f"{self.kit.folder}/toolchain"], f"{self.made}.o"
        linked = [compiled, *(f"{self.kit.folder}/{name}" for name in LINKED)]
        link = [f"{self.kit.folder}/bin/rattle-link", "--target", TARGET, *toolchain, "-o", str(self.made), *linked]
        return [[*words, *toolchain, "--backend", "llvm", "-o", compiled], link]


@dataclass(frozen=True)
class Kit:
    """The kit's module."""

    module: ModuleType

    @property
    def folder(self) -> str:
        """Where the kit is."""
        return str(self.module.KIT)

    def begin(self, folder: Path) -> object:
        """Gets ready for proofs, in the main thread, since the first call sets a signal's handler. What it gives keeps out, as long as
        it is held, the kit's commands that write to a crate's folder, and other builds."""
        self.module.guarded()
        return self.module.lock([SimpleNamespace(folder=str(folder))])

    def fits(self, number: int, memory: int) -> bool:
        """Whether there are processors and memory for that many proofs at once."""
        return bool(self.module.fits(*[memory] * number))

    def crates(self, tree: Path, program: str, made: Callable[[str], Path]) -> list[Crate]:
        """The crates of a copy of the sources, each after those that it uses, and the program last, with the places of what is made
        of each. What the kit computes once for each path to a crate is computed once."""
        kind = self.module.Crate
        kind.stamp, kind.below = functools.cache(kind.stamp), functools.cache(kind.below)
        last = next(own for own in self.module.crates_below(str(tree)) if own.name == program)
        found: dict[str, Crate] = {}
        for own in [*last.below(), last]:
            own.rlib = str(made(own.name))
            found[own.name] = Crate(self, own, [found[low.name] for low in own.deps], made(own.name), own is last)
        return list(found.values())


def installed_kit() -> Kit:
    """The kit; `Unfit` if there is none, and `Unlike` if it lacks something."""
    folder = kit_folder()
    file = folder / "bin" / "rtlib.py"
    if not file.is_file():
        raise Unlike("this kit has no bin/rtlib.py, which this build uses")
    try:
        module = loaded(file)
    except Exception as fault:
        raise Unlike(f"bin/rtlib.py of this kit cannot be loaded: {fault}") from fault
    lacking = [name for name in USED if not has(module, name)]
    lacking += [name for name in LINKED if has(module, "KIT") and not Path(module.KIT, name).is_file()]
    if lacking:
        raise Unlike(f"this kit lacks {', '.join(lacking)}, which this build uses")
    return Kit(module)


def plain_build(crate: Path, program: Path) -> bool:
    """Has `rt run` prove the crates and build the program, which it leaves in the crate's folder `out`, and runs once."""
    program.unlink(missing_ok=True)
    run = subprocess.Popen(["rt", "run"], cwd=crate, stdin=subprocess.DEVNULL, stdout=subprocess.DEVNULL)
    try:
        return run.wait() == NO_WORDS and program.is_file()
    finally:
        run.terminate()
        run.wait()
