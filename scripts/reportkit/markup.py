"""Makes elements of HTML and SVG, and writes numbers."""
from __future__ import annotations

import re
from collections.abc import Iterable
from dataclasses import asdict, dataclass
from html import escape

HUES = 8  # colours of tasks; the tasks after these have the same colours with stripes


def tag(name: str, *inside: str, **attributes: object) -> str:
    """An element. Its inside is markup; its attributes are texts, without those that are None. A `_` at a name's end is left
    away, and any other stands for `-`."""
    words = "".join(f' {key.rstrip("_").replace("_", "-")}="{escape(str(value))}"' for key, value in attributes.items()
                    if value is not None)
    return f"<{name}{words}>{''.join(inside)}</{name}>"


def section(title: str, *inside: str) -> str:
    """A part of the page with its title."""
    return tag("section", tag("h2", title), *inside)


def paragraph(words: str, css: str | None = None) -> str:
    """A paragraph of markup."""
    return tag("p", words, class_=css)


def table(caption: str, kinds: str, heads: Iterable[str], rows: Iterable[list[str]], foot: Iterable[list[str]] = ()) -> str:
    """A table of cells in HTML; a column is `l` (words) or `r` (numbers), and the first cell names its row."""
    def line(cells: list[str]) -> str:
        """A row of cells."""
        return tag("tr", tag("th", cells[0], scope="row"),
                   *(tag("td", cell, class_=kind) for kind, cell in zip(kinds[1:], cells[1:])))

    head = tag("thead", tag("tr", *(tag("th", words, class_=kind, scope="col") for kind, words in zip(kinds, heads))))
    body = tag("tbody", *map(line, rows)) + (tag("tfoot", *map(line, foot)) if foot else "")
    return tag("div", tag("table", tag("caption", tag("span", caption)), head, body), class_="scroll")


def title(words: str) -> str:
    """What a shape says of itself."""
    return tag("title", escape(words))


def hue(place: int) -> str:
    """The class of a task's colour."""
    return f"t{place % HUES}"


@dataclass(frozen=True)
class Frame:
    """Where a rectangle is; across in per cent or pixels, down in pixels."""

    x: str
    y: int
    width: str
    height: int


def box(css: str, frame: Frame, words: str = "", place: int = 0) -> str:
    """A rectangle with a title. With the place of a task after the eighth it has stripes."""
    inside, shape = title(words) if words else "", asdict(frame)
    stripes = tag("rect", inside, class_=f"s{place // HUES}", **shape) if place >= HUES else ""
    return tag("rect", inside, class_=css, **shape) + stripes


def marked(text: str) -> str:
    """Text whose code is between backticks."""
    return re.sub("`([^`]*)`", r"<code>\1</code>", escape(text, quote=False))


def num(value: int) -> str:
    """A number with commas."""
    return f"{value:,}"


def per_cent(part: float, whole: float) -> str:
    """A share in per cent."""
    return f"{100 * part / whole:.1f}\u00a0%"


def counted(count: int, word: str) -> str:
    """A number of things."""
    return f"{count:,} {word}" + ("" if count == 1 else "s")


def listed(words: Iterable[str]) -> str:
    """Words with commas, and an `and` before the last."""
    *most, last = words
    return f"{', '.join(most)} and {last}" if most else last


def joined(spans: Iterable[tuple[int, int]]) -> list[tuple[int, int]]:
    """Spans, each up to just after its last number, in order and joined where they meet."""
    found: list[tuple[int, int]] = []
    for start, end in sorted(spans):
        if found and start <= found[-1][1]:
            found[-1] = (found[-1][0], max(end, found[-1][1]))
        else:
            found.append((start, end))
    return found


def ranges(members: Iterable[int]) -> str:
    """Numbers in order, as ranges where they follow each other."""
    spans = joined((member, member + 1) for member in members)
    return ", ".join(str(a) if a + 1 == b else f"{a}–{b - 1}" for a, b in spans) or "none"


def step(length: int, most: int) -> int:
    """1, 2 or 5 times a power of ten, so that a length has at most that many steps."""
    sizes = (factor * int(10 ** power) for power in range(16) for factor in (1, 2, 5))
    return next(size for size in sizes if length <= most * size)
