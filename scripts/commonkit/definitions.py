"""The definitions of the crates as text: which names each uses, and all that one of them depends on."""
from __future__ import annotations

import re
from collections.abc import Iterable, Iterator
from dataclasses import dataclass, field
from functools import cache
from pathlib import Path

from .calls import Trouble

# The head of a definition, and a constructor of a data type.
HEAD = re.compile(r"(?:pub )?(abbrev|unfoldable|record|data)\b(?: pub)? ([^\s({:]+)")
CONSTRUCTOR = re.compile(r"^  (?:pub )?([^\s:]+) :", re.MULTILINE)
USE = re.compile(r"^(?:pub )?use Rattle\.([\w.]+)(?:\.\{([^}]*)\}| as (\S+))", re.MULTILINE)
# A name, perhaps with an alias of its module before it.
WORD = re.compile(r"[^\s(){}\[\],;]+")


@dataclass(frozen=True)
class Definition:
    """A definition of a file: the file below `crates` without its ending, and the name."""

    file: str
    name: str


@dataclass
class Source:
    """A file of definitions: their blocks by the names that they define, and what its `use` lines bring."""

    blocks: dict[str, str] = field(default_factory=dict)
    brought: dict[str, Definition] = field(default_factory=dict)
    modules: dict[str, str] = field(default_factory=dict)


def file_of(module: str) -> str:
    """The file of a module: `crate.specs.Name` is `crate/specs/Name`."""
    return module.replace(".", "/")


def names_of(block: str) -> Iterator[str]:
    """The names that a block of lines defines, those of constructors included; none if it is a comment alone."""
    lines = [line for line in block.splitlines() if not line.startswith(("--", "infix"))]
    head = HEAD.match(lines[0]) if lines else None
    if head:
        yield head[2]
        if head[1] == "data":
            yield from CONSTRUCTOR.findall(block)


def source_of(text: str) -> Source:
    """A file's definitions. Those of one block are on lines without an empty one between."""
    found = Source()
    for module, names, alias in USE.findall(text):
        if alias:
            found.modules[alias.strip("«»")] = file_of(module)
        for word in names.split(",") if names else ():
            origin, _, here = word.strip().partition(" as ")
            found.brought[here or origin] = Definition(file_of(module), origin)
    for block in re.split(r"\n\n+", USE.sub("", text)):
        found.blocks.update((name, block.strip("\n")) for name in names_of(block))
    return found


@dataclass(frozen=True)
class Crates:
    """The definitions below a folder of crates."""

    folder: Path

    @cache
    def source(self, file: str) -> Source | None:
        """A file's definitions; None for what is not a file of the crates, as the kit's modules and what code declares."""
        path = self.folder / f"{file}.antt"
        return source_of(path.read_text(encoding="utf-8")) if path.is_file() else None

    def resolved(self, named: Definition) -> Definition | None:
        """Where a name is defined, if a file passes it on; None if the crates do not define it."""
        source = self.source(named.file)
        if source is None or named.name in source.blocks:
            return named if source else None
        return self.resolved(source.brought[named.name]) if named.name in source.brought else None

    def used(self, at: Definition) -> Iterator[Definition]:
        """The definitions that one names; a variable with the name of a definition counts as it."""
        source = self.source(at.file)
        assert source
        for word in WORD.findall(re.sub(r"(?m)--.*$", "", source.blocks[at.name])):
            first, _, rest = word.replace("«", "").replace("»", "").partition(".")
            named = [Definition(at.file, name) for name in (word, first, f"◌{word}◌")]
            if first in source.modules:
                named.append(Definition(source.modules[first], rest.partition(".")[0]))
            yield from filter(None, map(self.resolved, named))

    def all_below(self, root: Definition, without: Iterable[str] = ()) -> set[Definition]:
        """A definition with all that it depends on, but for those names and what they alone depend on."""
        start = self.source(root.file)
        if start is None or root.name not in start.blocks:
            raise Trouble(f"{root.file} defines no {root.name}")
        found, open_ones = {root}, [root]
        while open_ones:
            for used in self.used(open_ones.pop()):
                if used.name not in without and used not in found:
                    found.add(used)
                    open_ones.append(used)
        return found

    def lines(self, definitions: Iterable[Definition]) -> dict[str, int]:
        """For each file of some definitions the lines of these, with their comments; a block counts once."""
        blocks: dict[str, set[str]] = {}
        for it in definitions:
            source = self.source(it.file)
            assert source
            blocks.setdefault(it.file, set()).add(source.blocks[it.name])
        return {file: sum(len(block.splitlines()) for block in texts) for file, texts in blocks.items()}
