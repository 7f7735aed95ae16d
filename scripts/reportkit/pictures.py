"""Draws what windows hold and what is in the cache: pictures of rows, for a page or as separate files.

Places across are in per cent of the width, so that a row fits a page of any width.
"""
from __future__ import annotations

import re
from dataclasses import dataclass
from html import escape
from pathlib import Path

from .facts import Facts
from .markup import Frame, box, counted, hue, joined, num, per_cent, ranges, step, tag, title
from .reading import Task
from .windows import Window

REACH = 1.4  # bars of windows end at that many deadlines at most
THIN = 0.5  # per cent of a row; thinner pieces of a window have no edge
WIDE, NARROW = 780, 320  # pixels of a row on a screen and on a phone, for what fits into it
SHAPES = Path(__file__).with_name("shapes.css")


@dataclass(frozen=True)
class Item:
    """An entry of a legend: a sample of 16 by 12 pixels, and words."""

    sample: str
    words: str


@dataclass(frozen=True)
class Row:
    """A task's row: its place and name, a note, the height, the drawing, and what it says in words."""

    place: int
    name: str
    note: str
    height: int
    shapes: list[str]
    words: str


@dataclass(frozen=True)
class Mark:
    """A number below the rows, at a place in per cent."""

    at: float
    words: str


@dataclass(frozen=True)
class Picture:
    """Rows below a legend, over the marks of an axis."""

    css: str
    legend: list[Item]
    rows: list[Row]
    unit: str
    marks: list[Mark]

    def html(self) -> str:
        """For a page: the rows take its width."""
        rows = [tag("div", tag("div", named(row.place, row.name), tag("small", row.note), class_="who"),
                    tag("svg", *row.shapes, class_="band", height=row.height, role="img", aria_label=row.words), class_="row")
                for row in self.rows]
        axis = tag("svg", *self.axis(), height=16, role="img", aria_label=self.unit)
        rows += [tag("div", tag("div", tag("small", self.unit), class_="who"), axis, class_="row")] if self.marks else []
        return self.key() + tag("div", tag("div", *rows, class_=f"rows {self.css}"), class_="scroll picture")

    def key(self) -> str:
        items = (tag("span", tag("svg", item.sample, class_="sample", width=16, height=12, aria_hidden="true"), item.words)
                 for item in self.legend)
        return tag("p", *items, class_="legend") if self.legend else ""

    def axis(self) -> list[str]:
        return [tag("text", mark.words, x=f"{mark.at:.3f}%", y=12, text_anchor="middle" if mark.at < 97 else "end")
                for mark in self.marks]

    def file(self, heading: str) -> str:
        """A separate file, 960 pixels wide."""
        top, parts = 40, [tag("text", escape(heading), x=16, y=26, class_="heading")]
        for row in self.rows:
            inside = [tag("rect", class_="ground", width="100%", height=row.height), *row.shapes]
            parts += [box(f"patch {hue(row.place)}", Frame("16", top + row.height // 2 - 14, "12", 12), place=row.place),
                      tag("text", escape(row.name), x=34, y=top + row.height // 2 - 3, class_="name"),
                      tag("text", row.note, x=34, y=top + row.height // 2 + 13),
                      tag("svg", *inside, x=164, y=top, width=WIDE, height=row.height, overflow="visible")]
            top += row.height + 10
        if self.marks:
            axis = tag("svg", *self.axis(), x=164, y=top, width=WIDE, height=16, overflow="visible")
            parts += [tag("text", self.unit, x=34, y=top + 12), axis]
            top += 26
        entries, height = self.key_lines(top + 6)
        size = {"width": 960, "height": height, "viewBox": f"0 0 960 {height}"}
        body = [tag("title", escape(heading)), tag("style", settled(SHAPES.read_text())), definitions(),
                tag("rect", class_="paper", width="100%", height="100%"), *parts, *entries]
        return tag("svg", *("\n" + part for part in body), "\n", xmlns="http://www.w3.org/2000/svg", **size) + "\n"

    def key_lines(self, top: int) -> tuple[list[str], int]:
        """The legend in lines, and the height of the picture."""
        left, parts = 16, []
        for item in self.legend:
            width = 22 + int(5.7 * len(item.words)) + 22
            if left + width > 960:
                left, top = 16, top + 22
            parts += [tag("svg", item.sample, x=left, y=top, width=16, height=12),
                      tag("text", item.words, x=left + 22, y=top + 10)]
            left += width
        return parts, top + 24


def settled(css: str) -> str:
    """The style of a file: colours instead of their names, since not every program that shows SVG knows names. The tables of
    colours, light and dark, are before the rules."""
    tables, _, rules = css.partition("} }\n")
    light, dark = (re.findall(r"--([\w-]+): ([^;]+);", table) for table in tables.split("@media"))
    coloured = "".join(f"{rule}\n" for rule in rules.splitlines() if "var(" in rule)
    return f"\n{painted(rules, light)}@media (prefers-color-scheme: dark) {{\n{painted(coloured, dark + light)}}}\n"


def painted(rules: str, colours: list[tuple[str, str]]) -> str:
    for name, colour in colours:
        rules = rules.replace(f"var(--{name})", colour)
    return rules


def definitions() -> str:
    """Hatches, and the arrow of an arrival."""
    def hatch(name: str, angle: int, *inside: str) -> str:
        return tag("pattern", *inside, id=name, width=6, height=6, patternUnits="userSpaceOnUse",
                   patternTransform=f"rotate({angle})")

    ground, stripe = tag("rect", class_="paper", width=6, height=6), {"width": 6, "height": 2}
    return tag("defs", hatch("reloads", 135, ground, tag("rect", class_="reload-ink", width=6, height=4)),
               hatch("blocks", 45, ground, tag("rect", class_="switch", width=6, height=3)),
               *(hatch(f"stripes{k + 1}", angle, tag("rect", class_="shade", **stripe)) for k, angle in enumerate((90, 45, 0))),
               tag("g", tag("path", class_="arrow-line", d="M0 30V0"), tag("path", class_="arrow-head", d="M0 -4l-3.5 8h7z"),
                   id="arrival"))


def named(place: int, name: str) -> str:
    """A task's name after its colour."""
    patch = tag("svg", box(f"patch {hue(place)}", Frame("0", 0, "12", 12), place=place), class_="sample", width=12, height=12,
                aria_hidden="true")
    return tag("span", patch, escape(name), class_="name")


def sample(css: str, place: int = 0) -> str:
    return box(css, Frame("0", 0, "16", 12), place=place)


def stroke(css: str, x1: str, x2: str, y1: int, y2: int, *inside: str) -> str:
    return tag("line", *inside, class_=css, x1=x1, x2=x2, y1=y1, y2=y2)


# ---- windows


@dataclass(frozen=True)
class Piece:
    """A piece of a window's bar: how it looks, a short label, its cycles, and what they are."""

    css: str
    label: str
    cycles: int
    words: str
    place: int = 0


def pieces(tasks: list[Task], place: int, window: Window) -> list[Piece]:
    """What a window and the jitter hold, those pieces alone that are not 0."""
    higher = window.higher()
    found = [Piece(hue(place), "own", window.bound, "own bound", place), Piece("switch", "", window.switch, "first switch"),
             Piece("blocking", "", window.blocking, "blocking by an instruction under way")]
    found += [Piece(hue(k), tasks[k].name, share.execution, f"{counted(share.jobs, 'job')} of {tasks[k].name}", k)
              for k, share in enumerate(window.shares)]
    found += [Piece("switch", "", higher.switches, "switches to higher jobs and back"),
              Piece("reload", "", higher.reloads, "reloads after preemptions"), Piece("jitter", "", window.jitter, "jitter")]
    return [piece for piece in found if piece.cycles]


def windows_picture(facts: Facts, windows: list[Window] | None = None) -> Picture:
    """A bar for each task: what there may be from a job's arrival to its completion, scaled to the deadline; by the certificate's
    windows if no others are given."""
    known = list(zip(facts.tasks(), facts.windows if windows is None else windows))
    reach = min(max([1.0, *(window.response() / task.deadline for task, window in known)]), REACH)
    rows = [Row(place, task.name, f"{num(window.response())} of {num(task.deadline)}", 30,
                window_bar(facts.tasks(), place, window, reach), window_words(facts.tasks(), place, window))
            for place, (task, window) in enumerate(known)]
    legend = [Item(sample(hue(0)), "execution, in the task’s colour: its own, then higher tasks’"),
              Item(sample("switch"), "switches")]
    legend += [Item(sample("blocking"), "blocking")] if facts.platform().switches_between_instructions() else []
    legend += [Item(sample("reload"), "reloads (CRPD)"), Item(sample("jitter piece"), "jitter"),
               Item(stroke("due", "8", "8", 0, 12), "deadline")]
    return Picture("windows", legend, rows, "", [])


def window_words(tasks: list[Task], place: int, window: Window) -> str:
    task = tasks[place]
    parts = ", ".join(f"{piece.words} {num(piece.cycles)}" for piece in pieces(tasks, place, window))
    return f"{task.name}: response {num(window.response())} of deadline {num(task.deadline)}; {parts}"


def window_bar(tasks: list[Task], place: int, window: Window, reach: float) -> list[str]:
    """The pieces in turn, with the deadline at 1 / reach of the width. A bar that would be longer than the row is cut."""
    deadline, at, parts = tasks[place].deadline, 0.0, []
    for piece in pieces(tasks, place, window):
        width = min(100 * piece.cycles / deadline / reach, 100 - at)
        words = f"{piece.words}: {counted(piece.cycles, 'cycle')}, {per_cent(piece.cycles, window.response())} of the response"
        css = f"{piece.css} piece" if width > THIN else piece.css
        parts.append(box(css, Frame(f"{at:.3f}%", 3, f"{width:.3f}%", 24), words, piece.place))
        parts += piece_label(piece, at, width)
        at += width
    due = f"{100 / reach:.3f}%" if reach > 1 else "99.8%"
    parts.append(stroke("due", due, due, 0, 30, title(f"deadline {num(deadline)}")))
    parts += [stroke("cut", "99.7%", "99.7%", 3, 27)] if window.response() > reach * deadline else []
    return parts


def piece_label(piece: Piece, at: float, width: float) -> list[str]:
    """The label in the middle of a piece, if there is room; a slim one has none on a phone."""
    room = 7 * len(piece.label) + 12
    if not piece.label or WIDE * width / 100 <= room:
        return []
    css = "label" if NARROW * width / 100 > room else "label slim"
    return [tag("text", escape(piece.label), x=f"{at + width / 2:.3f}%", y=19, text_anchor="middle", class_=css)]


# ---- the cache


def cache_picture(facts: Facts) -> Picture:
    """The cache sets that each task evicts, and those that are useful to it."""
    sets, rows = facts.platform().sets, []
    for place, (task, cache) in enumerate(zip(facts.tasks(), facts.cache)):
        shapes = []
        for css, words, chosen in (("fills", "evicting only", cache.evicting - cache.useful),
                                   ("keeps", "useful and evicting", cache.useful)):
            spans = [(member, member + 1) for member in sorted(chosen)]
            for first, end in joined(spans) if sets > 64 else spans:
                said = f"{task.name}, cache set {ranges(range(first, end))}: {words}"
                frame = Frame(f"{100 * first / sets:.3f}%", 2, f"{100 * (end - first) / sets:.3f}%", 20)
                shapes.append(box(f"{css} cell", frame, said))
        rows.append(Row(place, task.name, f"{len(cache.evicting)} evicting, {len(cache.useful)} useful", 24, shapes,
                        f"{task.name}: evicting {ranges(cache.evicting)}; useful {ranges(cache.useful)}"))
    marks = [Mark(100 * (member + 0.5) / sets, str(member)) for member in range(0, sets, step(sets, 16))]
    legend = [Item(sample("keeps"), "useful and evicting"), Item(sample("fills"), "evicting only")]
    return Picture("cache", legend, rows, "cache set", marks)
