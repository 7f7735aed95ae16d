"""Reads a task set."""
from __future__ import annotations

import re
import tomllib
from dataclasses import dataclass
from pathlib import Path
from typing import Any

from .faults import Unfit

Table = dict[str, Any]
MOST_TIME = 1 << 40
PLACE = re.compile(r"([^+]+)(?:\+(0x[0-9a-fA-F]{1,8}|[0-9]{1,10}))?", re.DOTALL)
COSTS = ("hit", "miss", "data", "taken", "switch", "mul", "div")
KEYS = {
    "set": ("platform", "task"), "platform": ("line", "sets", *COSTS, "switching"), "loop": ("head", "bound", "range"),
    "task": ("name", "file", "entry", "period", "deadline", "jitter", "stack", "global", "loop"),
}


@dataclass(frozen=True)
class Platform:
    """The cache, and costs in cycles."""

    line: int
    sets: int
    hit: int
    miss: int
    data: int
    taken: int
    switch: int
    mul: int = 0
    div: int = 0
    switching: str = "cycle"

    def block(self, address: int) -> int:
        """The block of an address."""
        return address // self.line

    def own_set(self, address: int) -> int:
        """The cache set of an address."""
        return address // self.line % self.sets


@dataclass(frozen=True)
class Place:
    """An address, or a symbol with an offset."""

    symbol: str | None
    offset: int


@dataclass(frozen=True)
class StatedLoop:
    """A stated loop."""

    head: Place
    bound: int
    ranges: tuple[tuple[Place, Place], ...]


@dataclass(frozen=True)
class Task:
    """A task; one without `entry` starts at its file's."""

    name: str
    file: str
    period: int
    deadline: int
    jitter: int
    entry: Place | None = None
    loops: tuple[StatedLoop, ...] = ()


@dataclass(frozen=True)
class TaskSet:
    """The tasks in order of priority."""

    platform: Platform
    tasks: tuple[Task, ...]


def number(table: Table, key: str, least: int, most: int, where: str) -> int:
    """A whole number of a table."""
    value = table.get(key)
    if not isinstance(value, int) or isinstance(value, bool) or not least <= value <= most:
        raise Unfit(f"{where}.{key} is no number from {least} to {most}")
    return value


def expect_keys(table: Table, kind: str, where: str) -> None:
    """Other keys than those of its kind are not expected in a table."""
    if other := [key for key in table if key not in KEYS[kind]]:
        raise Unfit(f"{where}.{min(other)} is no key")


def place(value: Any, where: str) -> Place:
    """A place that the set names."""
    if isinstance(value, int) and not isinstance(value, bool) and 0 <= value < 1 << 32:
        return Place(None, value)
    named = PLACE.fullmatch(value) if isinstance(value, str) else None
    if named is None:
        raise Unfit(f"{where} is no address and no symbol")
    return Place(named[1], int(named[2], 0) if named[2] and named[2][:2] == "0x" else int(named[2] or "0"))


def read_platform(table: Any) -> Platform:
    """The platform of a document."""
    if not isinstance(table, dict):
        raise Unfit("platform is no table")
    expect_keys(table, "platform", "platform")
    costs = {key: number(table, key, 1 if key == "hit" else 0, 65535, "platform")
             for key in COSTS if key in table or key not in ("mul", "div")}
    switching = table.get("switching", "cycle")
    line = number(table, "line", 4, 64, "platform")
    if line & (line - 1) or switching not in ("cycle", "instruction"):
        raise Unfit("platform.line is no power of two, or platform.switching not as it may be")
    return Platform(line=line, sets=number(table, "sets", 1, 512, "platform"), switching=switching, **costs)


def read_loop(table: Table, where: str) -> StatedLoop:
    """A stated loop of a document."""
    expect_keys(table, "loop", where)
    pairs = table.get("range")
    if not isinstance(pairs, list) or not all(isinstance(pair, list) and len(pair) == 2 for pair in pairs):
        raise Unfit(f"{where}.range is no list of pairs")
    ranges = tuple((place(first, f"{where}.range"), place(end, f"{where}.range")) for first, end in pairs)
    return StatedLoop(place(table.get("head"), f"{where}.head"), number(table, "bound", 1, 1_000_000, where), ranges)


def read_task(table: Any, where: str) -> Task:
    """A task of a document."""
    if not isinstance(table, dict) or not all(isinstance(table.get(key), str) for key in ("name", "file")):
        raise Unfit(f"{where} has no name or no file")
    expect_keys(table, "task", where)
    times = {key: number(table, key, 0 if key == "jitter" else 1, MOST_TIME, where)
             for key in ("period", "deadline", "jitter")}
    entry = place(table["entry"], f"{where}.entry") if "entry" in table else None
    loops = table.get("loop", [])
    if not isinstance(loops, list) or not all(isinstance(loop, dict) for loop in loops):
        raise Unfit(f"{where}.loop is no list of tables")
    stated = tuple(read_loop(loop, f"{where}.loop.{k}") for k, loop in enumerate(loops))
    return Task(table["name"], table["file"], entry=entry, loops=stated, **times)


def read_task_set(path: Path) -> TaskSet:
    """The task set of a file."""
    try:
        document = tomllib.loads(path.read_text(encoding="utf-8-sig"))
    except (ValueError, RecursionError) as error:
        raise Unfit(f"{path} is no TOML of version 1.0: {error}") from error
    expect_keys(document, "set", str(path))
    tasks = document.get("task")
    if not isinstance(tasks, list) or not 1 <= len(tasks) <= 32:
        raise Unfit("task is no list of 1 to 32 tables")
    return TaskSet(read_platform(document.get("platform")),
                   tuple(read_task(table, f"task.{k}") for k, table in enumerate(tasks)))
