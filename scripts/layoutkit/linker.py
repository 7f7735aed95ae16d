"""Linker scripts with a placement, and the linking by them."""
from __future__ import annotations

import re
import shlex
from collections.abc import Collection, Iterable
from dataclasses import dataclass
from fnmatch import fnmatchcase
from pathlib import Path

from commonkit.calls import Trouble
from commonkit.elf import FUNCTION, BadFile, Elf, read_elf

from .calling import call
from .placement import WORD, Function, Names, Placed, Placement

BEGIN, END = "/* layout: begin */", "/* layout: end */"
MEANING = "/* . + ((12 - (ABSOLUTE(.) - ABSOLUTE(0))) & 31) is the next address that is byte 12 of a line of 32 bytes. */"
REGION = re.compile(rf"\n?[ \t]*{re.escape(BEGIN)}.*?{re.escape(END)}[ \t]*\n?", re.DOTALL)
COMMENT = re.compile(r"/\*.*?\*/", re.DOTALL)
PATTERN = re.compile(r"\.text[\w.*?\[\]-]*")
PLAIN_NAME = re.compile(r"[A-Za-z_$][\w.$]*")
MARK = "layout_mark_"


@dataclass(frozen=True)
class LinkerScript:
    """A linker script: the text before the placed functions, and after them. `keep` is whether `KEEP` is written for them."""

    before: str
    after: str
    keep: bool

    def text(self, placement: Placement, line: int, marked: bool = False) -> str:
        """The script with a placement; if it is marked, with a symbol before each function and at the end."""
        lines = [self.statement(placed, line) for placed in placement]
        if marked:
            lines = [f"{MARK}{k} = .; {text}" for k, text in enumerate(lines)] + [f"{MARK}{len(lines)} = .;"]
        region = "".join(f"        {text}\n" for text in (BEGIN, MEANING, *lines, END))
        return f"{self.before.rstrip()}\n{region}        {self.after.lstrip()}"

    def statement(self, placed: Placed, line: int) -> str:
        """The line of a function in a linker script."""
        gap = f"(({placed.word * WORD} - (ABSOLUTE(.) - ABSOLUTE(0))) & {line - 1})"
        more = f" + {placed.lines * line}" if placed.lines else ""
        sections = " ".join(f".text.{name} .text.*.{name}" for name in placed.names)
        return f". = . + {gap}{more}; " + (f"KEEP (*({sections}))" if self.keep else f"*({sections})")


def read_script(text: str, names: Iterable[str]) -> LinkerScript:
    """The script without an earlier placement; functions are placed before the first statement that takes the section of one."""
    plain = REGION.sub("\n", text)
    bare = COMMENT.sub(lambda found: " " * len(found[0]), plain)
    sections = [f".text.{name}" for name in names]
    for found in PATTERN.finditer(bare):
        at = statement_start(bare, found.start())
        if "(" in bare[at:found.start()] and any(fnmatchcase(section, found[0]) for section in sections):
            return LinkerScript(plain[:at], plain[at:], bare[at:].lstrip().startswith("KEEP"))
    raise Trouble("the linker script has no statement for sections such as .text.NAME, as *(.text .text.*)")


def statement_start(text: str, at: int) -> int:
    """Where the statement begins that holds a place of the text."""
    depth, start = 0, 0
    for k, sign in enumerate(text[:at]):
        depth += (sign == "(") - (sign == ")")
        if sign in "{};)" and depth == 0:
            start = k + 1
    return start


@dataclass(frozen=True)
class Linked:
    """A linked file with its functions."""

    path: Path
    elf: Elf
    functions: list[Function]

    def only(self, names: Collection[Names]) -> list[Function]:
        """The functions of these names."""
        return [function for function in self.functions if function.names in names]


@dataclass(frozen=True)
class Linker:
    """The command that links, with `{script}` for the linker script and `{out}` for the file."""

    words: tuple[str, ...]

    def link(self, script: Path, out: Path) -> Linked:
        """Links a file; `Trouble` if the command fails."""
        words = [word.replace("{script}", str(script)).replace("{out}", str(out)) for word in self.words]
        done = call(words)
        if done.returncode != 0:
            said = (done.stderr or done.stdout).decode(errors="replace").strip().partition("\n")[0]
            raise Trouble(f"the link command ends with status {done.returncode}: {said or 'it says nothing'}")
        try:
            elf = read_elf(out.read_bytes())
        except OSError as error:
            raise Trouble(f"the link command writes no file {{out}}: {error.strerror}") from error
        except BadFile as error:
            raise Trouble(f"what the link command writes is {error}") from error
        return Linked(out, elf, functions_of(elf))


def read_command(command: str) -> Linker:
    """The link command by its text; `Trouble` if it has no place for the script or the file."""
    try:
        words = tuple(shlex.split(command))
    except ValueError as error:
        raise Trouble(f"--link: {error}") from error
    for place in ("{script}", "{out}"):
        if not any(place in word for word in words):
            raise Trouble(f"--link: the command has no {place}")
    return Linker(words)


def functions_of(elf: Elf) -> list[Function]:
    """The functions of a file by address; those that share an address or a name are one."""
    together: dict[int, list[str]] = {}
    found = places_of(elf)
    for name, places in found.items():
        together.setdefault(min(places)[0], []).append(name)
    return [Function(tuple(sorted(names)), address, tuple(size for name in sorted(names) for _, size in sorted(found[name])))
            for address, names in sorted(together.items())]


def places_of(elf: Elf) -> dict[str, list[tuple[int, int]]]:
    """The addresses and sizes of functions by name."""
    found: dict[str, list[tuple[int, int]]] = {}
    for symbol in elf.symbols:
        if symbol.kind == FUNCTION and symbol.is_place() and symbol.size:
            found.setdefault(symbol.name, []).append((symbol.address, symbol.size))
    return found


def movable(linker: Linker, script: LinkerScript, start: Linked, line: int, place: Path) -> set[Names]:
    """The functions that a linker script can place: those that are between the marks, if linked in reverse order with marks."""
    named = [function for function in start.functions if all(PLAIN_NAME.fullmatch(name) for name in function.names)]
    order = tuple(Placed(function.names) for function in reversed(named))
    (place / "probe.ld").write_text(script.text(order, line, marked=True))
    probe = linker.link(place / "probe.ld", place / "probe.elf")
    marks = [probe.elf.places.get(f"{MARK}{k}", 0) for k in range(len(order) + 1)]
    at = {function.names: function.address for function in probe.functions}
    return {placed.names for k, placed in enumerate(order) if marks[k] <= at.get(placed.names, -1) < marks[k + 1]}
