"""Reads and writes TOML. What is newer than TOML 1.0, and read by `crpd` too, is written in the older way before it is read."""
from __future__ import annotations

import re
import tomllib
from pathlib import Path
from typing import Any

Document = dict[str, Any]

BOM = "\ufeff"
PARTS = re.compile(r'''
    (?P<long>    """(?:\\.|[^\\])*?"{3,5} | \'\'\'.*?'{3,5}) |
    (?P<text>    "(?:\\.|[^"\\\n])*") |
    (?P<plain>   '[^'\n]*') |
    (?P<comment> \#[^\n]*) |
    (?P<mark>    [][{},]) |
    (?P<space>   \s+) |
    (?P<other>   [^][{},"'\#\s]+ | .)''', re.S | re.X)
NEW_ESCAPE = re.compile(r"\\(?:(e)|x([0-9a-fA-F]{2})|(.))", re.S)


class BadToml(Exception):
    """A text that is no TOML document, with what is wrong."""


def read_toml_file(path: str) -> tuple[str, Document]:
    """The text of a file, without its byte order mark, and its document; `BadToml` if it is none."""
    try:
        text = Path(path).read_bytes().decode("utf-8").removeprefix(BOM)
        return text, read_toml_text(text)
    except UnicodeDecodeError as fault:
        raise BadToml(f"{path}: no UTF-8 text, from byte {fault.start} on") from fault
    except BadToml as fault:
        raise BadToml(f"{path}: {fault}") from fault


def read_toml_text(text: str) -> Document:
    """The document of a text; `BadToml` if it is none."""
    try:
        return tomllib.loads(text)
    except RecursionError as fault:
        raise BadToml("lists or tables are nested too deep") from fault
    except ValueError as first:
        try:
            return tomllib.loads(in_older_way(text))
        except (ValueError, RecursionError):
            raise BadToml(f"no TOML: {str(first).split('; use sys')[0]}") from first


def in_older_way(text: str) -> str:
    """A text in which inline tables have no line ends, comments and last commas, and texts none of the newer escapes."""
    made: list[str] = []
    opened: list[str] = []
    for found in PARTS.finditer(text):
        kind, part = found.lastgroup, found[0]
        is_inside = "{" in opened
        if kind in ("long", "text") and part[0] == '"':
            part = NEW_ESCAPE.sub(older_escape, part)
        elif kind == "mark" and part in "[{":
            opened.append(part)
        elif kind == "mark" and part in "]}" and opened:
            opened.pop()
            if part == "}":
                drop_last_comma(made)
        elif is_inside and kind == "comment":
            part = ""
        elif is_inside and kind == "space":
            part = " "
        made.append(part)
    return "".join(made)


def older_escape(found: re.Match[str]) -> str:
    """An escape as TOML 1.0 has it."""
    if found[1]:
        return "\\u001b"
    return f"\\u00{found[2]}" if found[2] else found[0]


def drop_last_comma(made: list[str]) -> None:
    """Takes a comma away that nothing but space follows."""
    at = len(made) - 1
    while at >= 0 and not made[at].strip():
        at -= 1
    if at >= 0 and made[at] == ",":
        made[at] = ""


def quoted(text: str) -> str:
    """A text in quotes, with escapes for what may not be written as it is."""
    escaped = "".join(f"\\{c}" if c in '"\\' else c if c.isprintable() else f"\\U{ord(c):08x}" for c in text)
    return f'"{escaped}"'


def written(value: Any) -> str:
    """A value as it is written: a truth, a number, a text or a list."""
    if isinstance(value, bool):
        return "true" if value else "false"
    if isinstance(value, str):
        return quoted(value)
    if isinstance(value, list):
        return f"[{', '.join(map(written, value))}]"
    if isinstance(value, dict):
        return "{" + ", ".join(f"{key_of(key)} = {written(entry)}" for key, entry in value.items()) + "}"
    return str(value)


def key_of(key: str) -> str:
    """A key as it is written."""
    return key if re.fullmatch(r"[A-Za-z0-9_-]+", key) else quoted(key)


def toml(document: Document, prefix: str = "") -> str:
    """The text of a set or a script."""
    plain, tables = "", ""
    for key, value in document.items():
        if isinstance(value, dict):
            tables += f"\n[{prefix}{key_of(key)}]\n{toml(value, prefix + key_of(key) + '.')}"
        elif isinstance(value, list) and value and isinstance(value[0], dict):
            tables += "".join(f"\n[[{prefix}{key_of(key)}]]\n{toml(entry, prefix + key_of(key) + '.')}" for entry in value)
        else:
            plain += f"{key_of(key)} = {written(value)}\n"
    return plain + tables
