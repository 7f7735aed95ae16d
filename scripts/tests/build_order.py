"""provekit: which crates are needed, in which order they are proved, and which are kept."""
from __future__ import annotations

import os
import tempfile
import unittest
from pathlib import Path
from types import ModuleType, SimpleNamespace

from provekit.build import Build, chains, kept, mark, processors
from provekit.crates import needed
from provekit.inside import Crate, Kit


def kit(proofs: int = 0) -> Kit:
    """A kit on a machine whose memory holds that many proofs."""
    module = ModuleType("kit")
    module.__dict__.update(KIT="/kit", RATTLE="rattle", fits=lambda *needs: len(needs) <= proofs)
    return Kit(module)


class FourCrates(unittest.TestCase):
    """A program of 7 lines over `left` of 5 and `right` of 50, and these over `low` of 10."""

    def setUp(self) -> None:
        folder = tempfile.TemporaryDirectory()
        self.addCleanup(folder.cleanup)
        self.place = Path(folder.name)
        low = self.crate("low", 10)
        left, right = self.crate("left", 5, low), self.crate("right", 50, low)
        self.crates = [low, left, right, self.crate("program", 7, left, right, is_program=True)]

    def crate(self, name: str, lines: int, *deps: Crate, is_program: bool = False) -> Crate:
        """A crate of that many lines, whose sum is its name."""
        own = SimpleNamespace(name=name, count=lambda pattern: lines, stamp=lambda: name, words=lambda flags, keeps: [name, *flags])
        return Crate(kit(), own, list(deps), self.place / name / "made", is_program)

    def keep(self, name: str, stamp: str) -> None:
        """Marks a crate as proved of sources of this sum."""
        made = self.place / name / "made"
        made.parent.mkdir()
        made.touch()
        mark(next(crate for crate in self.crates if crate.name == name)).write_text(stamp, encoding="utf-8")

    def test_chains(self) -> None:
        self.assertEqual(chains(self.crates), {"program": 7, "right": 57, "left": 12, "low": 67})

    def test_order(self) -> None:
        """The crate with the longer chain above it first, and none before those below it."""
        order = [f"{name}: to be proved" for name in ("low", "right", "left", "program")]
        self.assertEqual(Build(self.crates, 1).plan(set()), order)
        self.assertEqual(Build(self.crates, 1).plan({"low"}), ["low: kept", *order[1:]])

    def test_kept(self) -> None:
        """Of the same sources, over libraries that are kept."""
        self.keep("low", "low")
        self.keep("left", "another sum")
        self.keep("right", "right")
        self.assertEqual(kept(self.crates), {"low", "right"})
        mark(self.crates[0]).unlink()
        self.assertEqual(kept(self.crates), set())

    def test_commands(self) -> None:
        library, program = self.crates[0].commands(2), self.crates[3].commands(1)
        made = f"{self.place}/low/made"
        self.assertEqual(library, [["rattle", "build", "low", "--jobs", "2", "--statements", "-o", made]])
        self.assertEqual([words[0] for words in program], ["rattle", "/kit/bin/rattle-link"])


class Needs(unittest.TestCase):
    """What a build takes."""

    def test_crates(self) -> None:
        lines = {"crpd": "crpd: tool", "tool": "tool: low, serde", "low": "low", "rows": "rows: tool"}
        self.assertEqual(list(needed("crpd", lines, {})), ["crpd", "tool", "low"])

    def test_processors(self) -> None:
        there = len(os.sched_getaffinity(0))
        self.assertEqual([processors(kit(proofs), 2) for proofs in (0, 1, 9)], [1, 1, min(2, there)])
        self.assertEqual(processors(kit(there), None), there)
