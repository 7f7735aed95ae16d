"""The whole way: from the given linker script to a better one."""
from __future__ import annotations

import os
import random
import shutil
import sys
from dataclasses import dataclass
from pathlib import Path
from tempfile import NamedTemporaryFile, TemporaryDirectory

from commonkit.calls import Trouble

from .follow import differences, with_file
from .judge import Judge
from .linker import Linked, Linker, movable, read_script
from .placement import WORD, Function, Mover, placement_of
from .search import Limit, Search, Tried, Workshop
from .taskset import TaskSet, owners, reached
from .telling import Stand, gains


@dataclass(frozen=True)
class Task:
    """What is asked for: a set, its linker script, and the place of the better one."""

    found: TaskSet
    given: Path
    output: Path
    linker: Linker
    judge: Judge


@dataclass(frozen=True)
class Looked:
    """What a linker script gives: what `crpd` says of it, and what `scripts/loops` finds otherwise than stated."""

    stand: Stand
    loops: list[str]


@dataclass(frozen=True)
class Start:
    """The given linker script, and the workshop for others."""

    looked: Looked
    tried: Tried
    shop: Workshop


def say(text: str) -> None:
    """Tells something on standard error."""
    print(f"layout: {text}", file=sys.stderr, flush=True)


def look(asked: Task, linked: Linked) -> Looked:
    """Judges a linked file."""
    stand = Stand(asked.judge.judged(linked.path), asked.judge.slack(linked.path))
    text = with_file(asked.found.text, asked.found.file, str(linked.path))
    return Looked(stand, differences(text, linked.path.parent))


def begin(asked: Task) -> Start:
    """Links by the given script, and finds what can be placed."""
    text = asked.given.read_text()
    with TemporaryDirectory(prefix="layout-") as place:
        linked = asked.linker.link(asked.given, Path(place) / "linked.elf")
        functions = reached(asked.found, linked)
        script = read_script(text, (name for function in functions for name in function.names))
        can = movable(asked.linker, script, linked, asked.found.line, Path(place))
        looked = look(asked, linked)
        owned = owners(asked.found, linked)
    placed = [function for function in functions if function.names in can]
    warn_of_fixed([function for function in functions if function.names not in can], placed)
    shop = Workshop(asked.found, asked.linker, asked.judge, script, functions, owned)
    tried = Tried(placement_of(placed, asked.found.line), text, looked.stand.judgement)
    return Start(looked, tried, shop)


def warn_of_fixed(fixed: list[Function], placed: list[Function]) -> None:
    """Tells of functions that stay where the linker puts them; `Trouble` if there are no others."""
    if not placed:
        raise Trouble("no function that a task reaches has a section of its own; compile with -ffunction-sections")
    if fixed:
        say(f"not placed, for want of sections of their own: {', '.join(function.name for function in fixed)}")


def look_for_better(asked: Task, start: Start, limit: Limit, seed: int, jobs: int) -> int:
    """Searches, and writes what is better; the status."""
    for line in start.looked.loops:
        say(f"with the given script: {line}")
    mover = Mover(asked.found.line // WORD, random.Random(seed))
    search = Search(start.shop, start.tried, mover, limit)
    best = search.run(jobs)
    if search.failed:
        say(f"{search.failed} of {search.tries} tries failed, one of them so: {start.shop.failures[-1]}")
    if best is start.tried:
        print(f"nothing better in {search.tries} tries; nothing is written")
        return 1
    now = write(asked, best, start.looked)
    print("\n".join(gains(asked.judge.tasks, asked.judge.commands, start.looked.stand, now.stand)))
    print(f"written {asked.output}")
    return 0


def write(asked: Task, best: Tried, before: Looked) -> Looked:
    """Writes the best script in its place, after it was linked and judged there; `Trouble` if it is not as it was found."""
    with NamedTemporaryFile("w", dir=asked.output.parent, prefix=".layout-", suffix=".ld", delete=False) as made:
        made.write(best.script)
    try:
        with TemporaryDirectory(prefix="layout-") as place:
            looked = look(asked, asked.linker.link(Path(made.name), Path(place) / "linked.elf"))
        if looked.stand.judgement != best.judgement:
            raise Trouble("linked again, the best script gives another file; nothing is written")
        if len(looked.loops) > len(before.loops):
            raise Trouble(f"with the best script loops are not where they are stated; nothing is written: {looked.loops[-1]}")
        shutil.copymode(asked.given, made.name)
        os.replace(made.name, asked.output)
    finally:
        Path(made.name).unlink(missing_ok=True)
    return looked
