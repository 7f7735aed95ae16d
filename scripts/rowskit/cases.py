"""The commands of crates/command_tests/stdin, the lines of stdout that are their outputs, and the files that they read."""

from __future__ import annotations

import difflib
import re
from dataclasses import dataclass, field
from pathlib import Path

from .sources import DATA, Sources

FOLDER = DATA.parent


@dataclass
class Case:
    """A command's line, the heading above it, how often this line occurred before, and its output."""

    command: str
    heading: str
    before: int
    lines: list[str] = field(default_factory=list)

    def key(self) -> tuple[str, int]:
        """What the case is found by in another output."""
        return self.command, self.before


def read(path: Path) -> list[Case]:
    """The cases of an output: each begins with `$ ` and its command; a line with `# ` is a heading."""
    cases: list[Case] = []
    heading = ""
    seen: dict[str, int] = {}
    for line in path.read_text().splitlines():
        if line.startswith("# "):
            heading = line[2:]
        elif line.startswith("$ "):
            command = line[2:]
            cases.append(Case(command, heading, seen.get(command, 0)))
            seen[command] = seen.get(command, 0) + 1
        elif cases:
            cases[-1].lines.append(line)
    return cases


def commands() -> list[str]:
    """The lines of stdin that are commands."""
    return [line for line in (FOLDER / "stdin").read_text().splitlines() if not line.startswith("# ")]


def check(sources: Sources) -> int:
    """Counts what does not fit: commands of stdin without an output at their place in stdout, and refusals stated wrongly."""
    wrong = 0
    stored = read(FOLDER / "stdout")
    for line, case in zip(commands(), stored):
        if line != case.command:
            print(f"stdin has {line!r} where stdout has {case.command!r}")
            return 1
    if len(commands()) != len(stored):
        print(f"stdin has {len(commands())} commands, and stdout has {len(stored)}")
        wrong += 1
    return wrong + refusals(sources, used(stored))


def refusals(sources: Sources, found: dict[str, list[Case]]) -> int:
    """Counts the refusals that a block's remark states, and that no command which reads the file writes."""
    wrong = 0
    for name, block in sources.blocks.items():
        answers = " ".join(line for case in found.get(name, []) for line in case.lines if line.startswith("refused "))
        for told in re.findall(r"[Rr]efused(?: as|:) (\w+)", " ".join(block.notes)):
            if told not in answers.split():
                print(f"{block.where}: no command is refused as {told} over {name}")
                wrong += 1
    return wrong


def used(cases: list[Case]) -> dict[str, list[Case]]:
    """For each file the cases whose commands name it, or name a text that names it."""
    files = {str(path.relative_to(DATA)): path for path in DATA.rglob("*") if path.is_file()}
    inside = {name: named(path) for name, path in files.items() if path.suffix == ".toml"}
    found: dict[str, list[Case]] = {}
    for case in cases:
        words = [word for word in case.command.split() if word in files]
        for name in dict.fromkeys(words + [other for word in words for other in inside.get(word, [])]):
            found.setdefault(name, []).append(case)
    return found


def named(path: Path) -> list[str]:
    """The files that a set names."""
    return re.findall(r'^file = "([^"]+)"', path.read_bytes().decode("latin-1"), re.MULTILINE)


def index(sources: Sources) -> int:
    """Prints for each file how it is made, and each heading of stdin below which a command reads it, with the first such command."""
    found = used(read(FOLDER / "stdout"))
    for path in sorted(path for path in DATA.rglob("*") if path.is_file()):
        name = str(path.relative_to(DATA))
        block = sources.blocks.get(name)
        print(f"{name}: {made(sources, name)}" + (f" {' '.join(block.notes)}" if block else ""))
        if name not in found:
            print("    no command reads it")
        headings: dict[str, Case] = {}
        for case in found.get(name, []):
            headings.setdefault(case.heading, case)
        for heading, case in headings.items():
            print(f"    {heading or 'the first lines'}\n        {case.command} -> {' / '.join(case.lines[-2:])[:100]}")
    return 0


def made(sources: Sources, name: str) -> str:
    """How a file is made, in a few words."""
    block = sources.blocks.get(name)
    if block is None:
        return "its own source."
    return f"{block.how} {block.base}." if block.how else "written out."


def difference(path: Path) -> int:
    """Shows the cases of which a new output has other lines than the stored one, and those that only one of them has."""
    old = {case.key(): case for case in read(FOLDER / "stdout")}
    new = {case.key(): case for case in read(path)}
    count = 0
    for key in list(old) + [key for key in new if key not in old]:
        before, after = old.get(key), new.get(key)
        if before and after and before.lines == after.lines:
            continue
        count += 1
        print(f"$ {key[0]}" + ("  (new)" if before is None else "  (gone)" if after is None else ""))
        lines = difflib.unified_diff(before.lines if before else [], after.lines if after else [], n=0, lineterm="")
        print("\n".join(f"    {line}" for line in list(lines)[2:] if not line.startswith("@@")))
    print(f"{count} cases differ")
    return 1 if count else 0
