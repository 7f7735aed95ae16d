"""Names places of code by functions and source lines, and tells of each task where its cycles go."""
from __future__ import annotations

import bisect
from dataclasses import dataclass
from functools import cached_property

from commonkit.calls import Crpd
from commonkit.elf import FUNCTION, Elf, read_elf
from commonkit.sets import BadSet
from commonkit.toml import read_toml_file
from loopkit.carry import origin_text
from loopkit.lines import lines_of
from loopkit.taskset import read_set as read_parts

from .nodes import entry_of, stated_loops
from .program import read_code
from .reading import Raw, read_bytes, read_set
from .spent import Path, Spent


@dataclass(frozen=True)
class Cost:
    """A loop or a function, with its name and its source line, and what it takes of a bound."""

    place: str
    source: str
    spent: Spent


@dataclass(frozen=True)
class Costs:
    """Where the cycles of a task's bound go, most first."""

    loops: list[Cost]
    functions: list[Cost]


@dataclass
class Image:
    """A file with its symbols."""

    path: str
    elf: Elf

    @cached_property
    def starts(self) -> list[tuple[int, str]]:
        """The starts of functions, with their names."""
        return sorted((symbol.address, symbol.name) for symbol in self.elf.symbols if symbol.kind == FUNCTION and symbol.is_place())

    def start(self, address: int) -> int:
        """Where the function of an address begins, 0 if that is not known."""
        at = bisect.bisect_right(self.starts, (address, "\U0010ffff")) - 1
        return self.starts[at][0] if at >= 0 else 0

    def name(self, address: int) -> str:
        """An address by its function."""
        start = self.start(address)
        known = next((name for at, name in self.starts if at == start), "")
        if not known:
            return f"0x{address:x}"
        return known if address == start else f"{known}+0x{address - start:x}"

    def sources(self, addresses: list[int]) -> dict[int, str]:
        """The source lines of addresses, as far as they are known."""
        return {a: frames[0].text() for a, frames in lines_of(self.path, addresses).items() if frames}


class Places:
    """The places of a set's tasks."""

    def __init__(self, tasks: list[Raw]) -> None:
        self.tasks = tasks
        self.images = {task["file"]: Image(task["file"], read_elf(read_bytes(task["file"]))) for task in tasks}

    def of_task(self, name: str, address: int) -> str:
        """An address of a task's code by function and source line."""
        image = next((self.images[task["file"]] for task in self.tasks if task["name"] == name), None)
        if image is None:
            return ""
        source = image.sources([address]).get(address, "")
        return f"{image.name(address)} ({source})" if source else image.name(address)


def read_costs(crpd: Crpd, name: str, raw: Raw, claimed: list[Raw]) -> list[Costs | None]:
    """Where the cycles of each task go, by what a certificate claims of it; None if the path does not come to its bound."""
    if not claimed:
        return [None] * len(raw["task"])
    given = read_set(raw)
    code, places, texts = read_code(crpd, name, given)[0], Places(raw["task"]), origins_of(name)
    found: list[Costs | None] = []
    for task, claim in zip(raw["task"], claimed):
        image = places.images[task["file"]]
        path = Path(given.platform, code.instructions, entry_of(task, image.elf), stated_loops(task, image.elf), claim)
        origins = {image.elf.address(head): text for head, text in texts.get(task["name"], {}).items()}
        found.append(costs_of(path, image, origins) if path.bound() == claim["bound"] else None)
    return found


def origins_of(name: str) -> dict[str, dict[int | str, str]]:
    """For each task the loops of the source by the heads of its tables, as scripts/loops wrote them into the comments."""
    try:
        tasks = read_parts(read_toml_file(name)[0]).tasks()
    except BadSet:
        return {}
    return {task.keys["name"]: {table.head: origin_text(table.comment) for table in task.tables} for task in tasks}


def costs_of(path: Path, image: Image, origins: dict[int, str]) -> Costs:
    """What the loops and the functions of a path take, with their names; loops of the source by the comments of their tables."""
    loops, functions = path.spent(image.start)
    sources = image.sources([share.address for share in loops + functions])
    at_heads = {**sources, **{address: text for address, text in origins.items() if text}}
    return Costs([Cost(image.name(share.address), at_heads.get(share.address, ""), share) for share in loops],
                 [Cost(image.name(share.address), sources.get(share.address, ""), share) for share in functions])
