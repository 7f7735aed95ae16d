"""The task set whose code is placed."""
from __future__ import annotations

import tomllib
from dataclasses import dataclass
from pathlib import Path
from typing import Any

from commonkit.calls import Trouble
from commonkit.elf import Elf
from loopkit.flow import call_graph
from loopkit.program import Program, read_program

from .linker import Linked
from .placement import WORD, Function, Names

Document = dict[str, Any]
Owners = dict[str, tuple[Names, int] | None]
KEYS = {"name": str, "file": str, "period": int, "deadline": int}


@dataclass(frozen=True)
class TaskSet:
    """A set by its text and its document, and the file of it that is linked."""

    text: str
    document: Document
    file: str

    @property
    def line(self) -> int:
        """The bytes of a cache line."""
        return int(self.document["platform"]["line"])

    def tasks(self) -> list[Document]:
        """The tasks whose program is the linked file."""
        return [task for task in self.document["task"] if task["file"] == self.file]


def read_set(path: Path, file: str | None) -> TaskSet:
    """The set of a file; `Trouble` if it has not what is needed here. Everything else is left to `crpd`."""
    try:
        text = path.read_text(encoding="utf-8")
        document = tomllib.loads(text)
    except (UnicodeDecodeError, tomllib.TOMLDecodeError) as error:
        raise Trouble(f"{path}: {error}") from error
    tasks, platform = document.get("task"), document.get("platform")
    if not isinstance(platform, dict) or not isinstance(platform.get("line"), int) or platform["line"] < WORD:
        raise Trouble(f"{path}: states no line of the cache")
    if not isinstance(tasks, list) or not tasks or not all(map(is_task, tasks)):
        raise Trouble(f"{path}: each [[task]] needs {', '.join(KEYS)}")
    return TaskSet(text, document, chosen_file(path, [task["file"] for task in tasks], file))


def is_task(task: object) -> bool:
    """Whether it has the keys that are needed here."""
    return isinstance(task, dict) and all(type(task.get(key)) is kind for key, kind in KEYS.items())


def chosen_file(path: Path, files: list[str], file: str | None) -> str:
    """The file of the set that the command links."""
    if file is None and len(set(files)) > 1:
        names = ", ".join(dict.fromkeys(files))
        raise Trouble(f"{path}: names several files; --file says which of them the command links: {names}")
    if file is not None and file not in files:
        raise Trouble(f"{path}: no task has the file {file}")
    return files[0] if file is None else file


def places_of(task: Document) -> list[object]:
    """The places in code that a task states; `None` stands for the entry of its file."""
    places: list[object] = [task.get("entry")]
    for loop in task.get("loop", []):
        places += [loop.get("head"), *(place for pair in loop.get("range", []) for place in pair)]
    return places


def owners(found: TaskSet, linked: Linked) -> Owners:
    """For each symbol by which a place is stated, in which function it is, and where; the empty one is the file's entry."""
    stated = {str(place or "").partition("+")[0] for task in found.tasks() for place in places_of(task)}
    places = {"": linked.elf.entry, **linked.elf.places}
    return {symbol: owner(linked, places[symbol]) for symbol in stated if symbol in places}


def owner(linked: Linked, address: int) -> tuple[Names, int] | None:
    """The function that holds an address, and where in it that is."""
    held = (one for one in linked.functions if one.address <= address < one.end)
    return next(((one.names, address - one.address) for one in held), None)


def reached(found: TaskSet, linked: Linked) -> list[Function]:
    """The functions that the tasks reach; `Trouble` if a place is not stated by a symbol of the file."""
    program = read_program(linked.path.read_bytes())
    addresses = set().union(*(instructions(task, linked.elf, program) for task in found.tasks()))
    return [function for function in linked.functions if any(a in addresses for a in range(function.address, function.end, WORD))]


def instructions(task: Document, elf: Elf, program: Program) -> set[int]:
    """The addresses that a task reaches."""
    if any(isinstance(place, int) for place in places_of(task)):
        raise Trouble(f"{task['name']}: states places of code as numbers, which do not move with functions; state symbols, as"
                      " scripts/loops writes them")
    functions = call_graph(program, entry_of(task, elf)).values()
    return {address for function in functions for address in function.edges}


def entry_of(task: Document, elf: Elf) -> int:
    """The address at which a task's jobs begin."""
    try:
        return elf.address(task["entry"]) if "entry" in task else elf.entry
    except (KeyError, ValueError):
        raise Trouble(f"{task['name']}: the linked file has no symbol {task['entry']}") from None
