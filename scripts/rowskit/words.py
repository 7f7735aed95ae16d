"""The words in the sources of crates/layer_tests that are instructions' words, with their assembly."""

from __future__ import annotations

import re
from collections.abc import Iterator
from dataclasses import dataclass

from . import objdump
from .sources import TOP
from .table import text_of

FOLDER = TOP / "crates" / "layer_tests" / "src"
WORD = re.compile(r"0x([0-9A-F]{4}_[0-9A-F]{4})\b")


@dataclass(frozen=True)
class Line:
    """A line of a source with words that the table has a row for: their assembly, and the comment after them."""

    where: str
    words: list[str]
    texts: list[str]
    comment: str

    def is_told(self) -> bool:
        """Whether the comment is the assembly of the line's one word."""
        return [self.comment] == self.texts


def value(word: str) -> int:
    """The number of a word as sources write it."""
    return int(word.replace("_", ""), 16)


def lines() -> Iterator[Line]:
    """The lines of all sources that have such words."""
    for path in sorted(FOLDER.glob("*.rt")):
        for number, line in enumerate(path.read_text().splitlines(), 1):
            code, _, comment = line.partition("//")
            known = [(word, text) for word in WORD.findall(code) if (text := text_of(value(word)))]
            if known:
                words, texts = zip(*known)
                yield Line(f"{path.name}:{number}", list(words), list(texts), comment.strip())


def listed() -> int:
    """Prints each word with file, line and assembly."""
    count = 0
    for line in lines():
        for word, text in zip(line.words, line.texts):
            print(f"{line.where}: 0x{word} {text}")
            count += 1
    print(f"{count} words")
    return 0


def check() -> int:
    """Counts the lines whose comment is not the assembly of one word, and the words of which objdump writes another one."""
    wrong = 0
    for line in lines():
        if not line.is_told():
            print(f"{line.where}: the comment of 0x{' 0x'.join(line.words)} is {line.comment!r}, not {'; '.join(line.texts)!r}")
            wrong += 1
    return wrong + by_objdump()


def by_objdump() -> int:
    """Counts the words of which objdump writes another text than the table; 0 if it is not installed. For a `fence` with
    registers it has no text."""
    program = objdump.tool()
    if program is None:
        return 0
    wrong, known = 0, {word: text for line in lines() for word, text in zip(line.words, line.texts)}
    for (word, text), other in zip(known.items(), objdump.texts(program, [value(word) for word in known]), strict=True):
        if text != other and (text, other[:1]) != ("fence", "."):
            print(f"0x{word} is {text!r}, and by {program} {other!r}")
            wrong += 1
    return wrong
