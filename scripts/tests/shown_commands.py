"""The commands that the guide and the program's manual show: none of both with the same output."""
from __future__ import annotations

import re
import unittest
from pathlib import Path

TOP = Path(__file__).resolve().parents[2]


def shown(page: str) -> set[tuple[str, str]]:
    """The commands of a page with their outputs: in an indented block, the lines after one up to the next."""
    blocks = re.findall(r"(?:^    .*\n|^\n(?=    ))+", page, re.MULTILINE)
    steps = [step.partition("\n") for block in blocks for step in re.split(r"^    \$ ", block, flags=re.MULTILINE)[1:]]
    return {(command, output.strip()) for command, _, output in steps if output.strip()}


def manual() -> str:
    """The manual, the comment at the head of the program."""
    source = (TOP / "crates" / "crpd" / "src" / "main.rt").read_text(encoding="utf-8")
    return "".join(f"{line}\n" for line in re.findall(r"^//! ?(.*)$", source, re.MULTILINE))


class Shown(unittest.TestCase):
    """Pages of commands."""

    def test_steps(self) -> None:
        page = "Text:\n\n    $ a\n    $ b | c\n    1\n\n    2\n\nText $ d.\n\n    $ e\n\nText.\n\n    $ f\n    3\n"
        self.assertEqual(shown(page), {("b | c", "1\n\n    2"), ("f", "3")})

    def test_guide_and_manual(self) -> None:
        guide = (TOP / "docs" / "GUIDE.md").read_text(encoding="utf-8")
        self.assertGreater(len(shown(guide)), 40)
        self.assertGreater(len(shown(manual())), 8)
        self.assertEqual(shown(guide) & shown(manual()), set())
