"""commonkit.pages and commonkit.usage, and what docs/HOSTILE.md says of scripts/hostile."""
from __future__ import annotations

import tempfile
import unittest
from pathlib import Path

from commonkit.calls import Trouble
from commonkit.pages import put, table
from commonkit.usage import Usage, least, measured
from hostilekit.inputs import INPUTS, MOST_MEGABYTES, Call, most_megabytes
from hostilekit.outside import CASES
from hostilekit.sizes import USUAL_MEGABYTES, Tried, page_text

HOSTILE = Path(__file__).resolve().parents[2] / "docs" / "HOSTILE.md"


class Pages(unittest.TestCase):
    """Tables, and the place where they go."""

    def test_table(self) -> None:
        self.assertEqual(table(("a", "b"), [("1", "2")]), "| a | b |\n|---|---|\n| 1 | 2 |")

    def test_put(self) -> None:
        first, last = "<!-- scripts/x writes from here -->", "<!-- scripts/x writes up to here -->"
        with tempfile.TemporaryDirectory() as folder:
            page = Path(folder, "P.md")
            page.write_text(f"before\n{first}\nold\n{last}\nafter\n", encoding="utf-8")
            put(page, "x", "new")
            put(page, "x", "newer")
            self.assertEqual(page.read_text(encoding="utf-8"), f"before\n{first}\n\nnewer\n\n{last}\nafter\n")
            for text in ("", first, f"{last}\n{first}", f"{first}\n{first}\n{last}"):
                page.write_text(text, encoding="utf-8")
                with self.assertRaises(Trouble):
                    put(page, "x", "new")
                self.assertEqual(page.read_text(encoding="utf-8"), text)


class Runs(unittest.TestCase):
    """What a program takes."""

    def test_status_and_output(self) -> None:
        with tempfile.TemporaryDirectory() as folder:
            place = Path(folder)
            self.assertEqual(measured(["sh", "-c", "pwd; exit 3"], place / "out", place).status, 3)
            self.assertEqual((place / "out").read_text().strip(), str(place.resolve()))
            self.assertEqual(measured(["sh", "-c", "kill -9 $$"], place / "out", place).status, -9)
            with self.assertRaisesRegex(Trouble, "ended with 3: why"):
                least(["sh", "-c", "echo why; exit 3"], place / "out", place)

    def test_faults(self) -> None:
        call = Call("check set.toml cert.json", 1, "no")
        found = {
            "": Tried("calls", call, Usage(9.9, 64, 1), "no"),
            "SLOW, LARGE": Tried("calls", call, Usage(10.1, 65, 1), "no"),
            "WRONG status, wanted 1, WRONG text": Tried("calls", call, Usage(0, 1, 0), "yes"),
        }
        self.assertEqual([", ".join(it.faults()) for it in found.values()], list(found))


class Hostile(unittest.TestCase):
    """docs/HOSTILE.md."""

    def test_page_is_current(self) -> None:
        page = HOSTILE.read_text(encoding="utf-8")
        self.assertIn(f"\n{page_text()}\n", page, "scripts/hostile --write writes the table")
        self.assertIn(f"has {len(CASES)} cases", page)

    def test_causes(self) -> None:
        causes = HOSTILE.read_text(encoding="utf-8").split("### What is slow or large, and why")[1].split("\n### ")[0]
        for name in INPUTS:
            if most_megabytes(name) > USUAL_MEGABYTES:
                self.assertIn(f"`{name}`", causes)

    def test_names(self) -> None:
        named = [name for names in MOST_MEGABYTES.values() for name in names]
        self.assertEqual(len(named), len(set(named)))
        self.assertLessEqual(set(named), set(INPUTS))
