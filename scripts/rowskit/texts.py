r"""Texts made from pieces, and texts with some of a base's characters replaced.

In a text of a source a backslash begins `\n`, `\\`, or `\x` with two digits, as in Python; other characters stand for themselves.
"""

from __future__ import annotations

import re

ESCAPES = re.compile(r"\\(n|\\|x[0-9a-f]{2})")


def plain(text: str) -> bytes:
    """The bytes of a source's text."""

    def meant(found: re.Match[str]) -> str:
        return {"n": "\n", "\\": "\\"}.get(found[1]) or chr(int(found[1][1:], 16))

    return ESCAPES.sub(meant, text).encode("latin-1")


def replaced(data: bytes, old: bytes, new: bytes) -> bytes:
    """The text with its one occurrence of these bytes replaced."""
    if data.count(old) != 1:
        raise ValueError(f"{old!r} occurs {data.count(old)} times")
    return data.replace(old, new)


def changed(data: bytes, lines: list[str]) -> bytes:
    """A base, or nothing, after the changes of a block's lines, from the first to the last."""
    old: bytes | None = None
    for line in lines:
        word, _, text = line.partition(": ") if ": " in line else (line.removesuffix(":"), "", "")
        if word == "old" and old is None:
            old = plain(text)
        elif word == "new" and old is not None:
            data, old = replaced(data, old, plain(text)), None
        elif word == "drop":
            data = replaced(data, plain(text) + b"\n", b"")
        elif word == "no line feed":
            data = data.removesuffix(b"\n")
        else:
            data += piece(word, text)
    if old is not None:
        raise ValueError(f"nothing is new for {old!r}")
    return data


def piece(word: str, text: str) -> bytes:
    """What `line: TEXT`, `piece: TEXT`, `5 lines: TEXT` or `5 pieces: TEXT` adds; a line ends with a line feed."""
    found = re.fullmatch(r"line|piece|(\d+) (lines|pieces)", word)
    if not found:
        raise ValueError(f"{word!r} is no change of a text")
    one = plain(text) + (b"\n" if "line" in word else b"")
    return one * int(found[1] or 1)
