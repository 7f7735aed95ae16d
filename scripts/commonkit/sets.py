"""Looks at whether the document of a task set or a script has the form that the scripts go by."""
from __future__ import annotations

from typing import Any

from .toml import Document, read_toml_file

MOST = 1 << 63


class BadSet(Exception):
    """A set or a script that has not the form, or cannot be taken apart."""


def checked_set(document: Document) -> Document:
    """A document that has the form of a set; `BadSet` with the key that has not. Ranges of numbers are left to `crpd`."""
    expect(isinstance(document.get("platform"), dict), "platform", "a table")
    tasks = document.get("task")
    expect(isinstance(tasks, list) and bool(tasks), "task", "a list of tables, [[task]]")
    for k, task in enumerate(tasks or []):
        check_task(task, f"task.{k}")
    return document


def expect(good: bool, key: str, what: str) -> None:
    """A `BadSet` if a key is not as it has to be."""
    if not good:
        raise BadSet(f"{key} is missing, or is not {what}")


def check_task(task: Any, key: str) -> None:
    """Looks at a task."""
    expect(isinstance(task, dict), key, "a table")
    for name in ("name", "file"):
        expect(isinstance(task.get(name), str), f"{key}.{name}", "a text")
    for name in ("entry", "stack", "global"):
        expect(name not in task or is_place(task[name]), f"{key}.{name}", "an address, a symbol, or a symbol with an offset")
    for name in ("period", "deadline", "jitter"):
        expect(name not in task or is_number(task[name]), f"{key}.{name}", "a number")
    loops = task.get("loop", [])
    expect(isinstance(loops, list), f"{key}.loop", "a list of tables, [[task.loop]]")
    for k, loop in enumerate(loops):
        check_loop(loop, f"{key}.loop.{k}")


def check_loop(loop: Any, key: str) -> None:
    """Looks at a stated loop."""
    expect(isinstance(loop, dict), key, "a table")
    for name in loop:
        expect(name in ("head", "bound", "range"), f"{key}.{name}", "a key of a loop")
    expect(is_place(loop.get("head")), f"{key}.head", "an address, a symbol, or a symbol with an offset")
    expect(is_number(loop.get("bound")), f"{key}.bound", "a number")
    ranges = loop.get("range")
    expect(isinstance(ranges, list) and all(is_pair(pair) for pair in ranges), f"{key}.range", "a list of pairs of places")


def is_number(value: Any) -> bool:
    """Whether a value is a whole number that a set may state."""
    return isinstance(value, int) and not isinstance(value, bool) and 0 <= value < MOST


def is_pair(value: Any) -> bool:
    return isinstance(value, list) and len(value) == 2 and all(map(is_place, value))


def is_place(value: Any) -> bool:
    """Whether a value is a place: an address, or a symbol, which an offset may follow."""
    if not isinstance(value, str):
        return is_number(value) and value < 1 << 32
    _, plus, offset = value.partition("+")
    return not plus or is_offset(offset)


def is_offset(text: str) -> bool:
    """Whether a text is the offset of a place: 1 to 10 decimal digits, or 0x and 1 to 8 hexadecimal ones."""
    if text.startswith("0x"):
        return 3 <= len(text) <= 10 and all(c in "0123456789abcdefABCDEF" for c in text[2:])
    return 1 <= len(text) <= 10 and all(c in "0123456789" for c in text)


def checked_script(document: Document) -> Document:
    """A document that has the form of a script; `BadSet` with the key that has not."""
    expect(is_number(document.get("cycles")), "cycles", "a number")
    jobs = document.get("job", [])
    expect(isinstance(jobs, list) and all(isinstance(job, dict) for job in jobs), "job", "a list of tables, [[job]]")
    return document


def read_set_file(path: str) -> tuple[str, Document]:
    """The text and the document of a file that has the form of a set; `BadToml` or `BadSet` with its name."""
    text, document = read_toml_file(path)
    try:
        return text, checked_set(document)
    except BadSet as fault:
        raise BadSet(f"{path}: {fault}") from fault


def read_script_file(path: str) -> Document:
    """The document of a file that has the form of a script; `BadToml` or `BadSet` with its name."""
    try:
        return checked_script(read_toml_file(path)[1])
    except BadSet as fault:
        raise BadSet(f"{path}: {fault}") from fault
