"""What scripts write into pages: a table, a paragraph, and the place between two marks where they go."""
from __future__ import annotations

import textwrap
from collections.abc import Iterable, Sequence
from datetime import date
from pathlib import Path

from .calls import Trouble
from .usage import machine

WIDTH = 100


def table(heads: Sequence[str], rows: Iterable[Sequence[str]]) -> str:
    """A table with these heads, a line for each row."""
    line, *lines = (f"| {' | '.join(cells)} |" for cells in (heads, *rows))
    return "\n".join([line, "|" + "---|" * len(heads), *lines])


def paragraph(text: str) -> str:
    """A paragraph in lines of a page's width."""
    return textwrap.fill(text, WIDTH, break_long_words=False, break_on_hyphens=False)


def where_and_when() -> str:
    """The machine and the day, for the line above a table."""
    return f"{machine()}, {date.today().isoformat()}"


def split(page: Path, script: str) -> list[str]:
    """A page in three: up to the first mark of a script, between its marks, and the rest; `Trouble` if it has not both once."""
    first, last = f"<!-- scripts/{script} writes from here -->", f"<!-- scripts/{script} writes up to here -->"
    text = page.read_text(encoding="utf-8")
    if not text.count(first) == text.count(last) == 1 or text.index(first) > text.index(last):
        raise Trouble(f"{page.name} has not one place that scripts/{script} writes")
    before, _, rest = text.partition(first)
    inside, _, after = rest.partition(last)
    return [before + first, inside, last + after]


def held(page: Path, script: str) -> str:
    """What a script wrote into a page."""
    return split(page, script)[1].strip("\n")


def put(page: Path, script: str, text: str) -> None:
    """Puts a text into a page between the two marks of a script; `Trouble` if the page has not both once."""
    before, _, after = split(page, script)
    page.write_text(f"{before}\n\n{text}\n\n{after}", encoding="utf-8")
