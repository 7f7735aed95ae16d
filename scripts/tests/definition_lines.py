"""commonkit.definitions, over three small files."""
from __future__ import annotations

import tempfile
import unittest
from pathlib import Path

from commonkit.calls import Trouble
from commonkit.definitions import Crates, Definition, source_of

CLAIM = """-- What is claimed.
use Rattle.std.specs.Prelude.{ℕ, ◌+◌}
use Rattle.low.specs.Facts.{Kind, Own as Mine, ◌&◌, passed}
use Rattle.low.specs.Facts as facts

-- it holds,
-- of all
abbrev pub Claim : Mine → Type 0
Claim x = (x.number & 1) × facts.tested x × passed

-- not needed: Claim, Kind
abbrev pub other : ℕ
other = left_out
"""
FACTS = """pub use Rattle.low.specs.Last.{passed}
-- ---- a heading

-- a record
pub record Own : Type 0 where
  pub number : ℕ

-- a kind
pub data Kind : Type 0 where
  One : Kind
  Two : Kind

-- both
infixl 10 ◌&◌
abbrev pub ◌&◌ : ℕ → ℕ → ℕ
a & b = a

-- a test
unfoldable pub tested : Own → Kind
tested x = One
"""
LAST = "-- the last one\nabbrev pub passed : ℕ\npassed = 1\n\nabbrev pub unused : ℕ\nunused = passed\n"
ROOT = Definition("top/specs/Claim", "Claim")


class Definitions(unittest.TestCase):
    """Two crates of three files."""

    def setUp(self) -> None:
        folder = tempfile.TemporaryDirectory()
        self.addCleanup(folder.cleanup)
        for name, text in (("top/specs/Claim", CLAIM), ("low/specs/Facts", FACTS), ("low/specs/Last", LAST)):
            path = Path(folder.name, f"{name}.antt")
            path.parent.mkdir(parents=True, exist_ok=True)
            path.write_text(text, encoding="utf-8")
        self.crates = Crates(Path(folder.name))

    def test_names(self) -> None:
        self.assertEqual(list(source_of(FACTS).blocks), ["Own", "Kind", "One", "Two", "◌&◌", "tested"])

    def test_lines(self) -> None:
        """The claim with its comment, four definitions of the second file, one by way of a test's constructor, one of the third."""
        found = self.crates.all_below(ROOT)
        self.assertEqual(self.crates.lines(found), {"top/specs/Claim": 4, "low/specs/Facts": 3 + 4 + 4 + 3, "low/specs/Last": 3})

    def test_left_out(self) -> None:
        self.assertEqual(self.crates.lines(self.crates.all_below(ROOT, {"tested", "passed"})),
                         {"top/specs/Claim": 4, "low/specs/Facts": 3 + 4})

    def test_no_such(self) -> None:
        with self.assertRaisesRegex(Trouble, "defines no Claims"):
            self.crates.all_below(Definition("top/specs/Claim", "Claims"))
