"""evaluatekit.charts and reportkit's pictures: where values are drawn, and how numbers are written."""
from __future__ import annotations

import re
import unittest

from evaluatekit.charts import Axis, Box, Drawing, Panel, marks
from reportkit.markup import counted, joined, listed, num, per_cent, ranges, step
from reportkit.pictures import pieces, window_bar
from reportkit.reading import Task
from reportkit.windows import Share, Window


class Panels(unittest.TestCase):
    """A panel of 200 by 50 pixels at (100, 20): 0 to 10 across, 1 to 3 upwards."""

    def setUp(self) -> None:
        self.panel = Panel(Drawing(400, 100, "", ""), Box(100, 20, 200, 50), Axis(0, 10, []), Axis(1, 3, marks([1, 2.5])))

    def test_across(self) -> None:
        self.assertEqual([self.panel.x(value) for value in (0, 5, 10)], [100, 200, 300])

    def test_upwards(self) -> None:
        self.assertEqual([self.panel.y(value) for value in (1, 2, 3)], [70, 45, 20])

    def test_marks(self) -> None:
        self.assertEqual([(mark.value, mark.text) for mark in marks([1, 2.5], "{:.1f}")], [(1, "1.0"), (2.5, "2.5")])

    def test_frame(self) -> None:
        drawn = self.panel.frame().drawing.svg()
        self.assertIn('d="M100.0,32.5L300.0,32.5"', drawn)  # the grid's line at 2.5


class Bars(unittest.TestCase):
    """A window of 100 cycles and a jitter of 50, with a deadline of 200: 20 own, 10 for a switch, and two jobs of 10 with 8 cycles
    of switches and 42 of reloads."""

    def setUp(self) -> None:
        self.tasks = [Task("high", "a.elf", 50, 50, 0), Task("low", "a.elf", 200, 200, 50)]
        self.window = Window("ucb", 20, 10, 0, 50, [Share(2, 20, 8, 42)])

    def widths(self, reach: float) -> list[float]:
        """The widths of the pieces, in per cent."""
        bar = "".join(window_bar(self.tasks, 1, self.window, reach))
        return [float(found) for found in re.findall(r'<rect[^>]* width="([\d.]+)%"', bar)]

    def test_sums(self) -> None:
        self.assertEqual((self.window.total(), self.window.response()), (100, 150))
        self.assertEqual([piece.cycles for piece in pieces(self.tasks, 1, self.window)], [20, 10, 20, 8, 42, 50])

    def test_scaled_to_the_deadline(self) -> None:
        self.assertEqual(self.widths(1), [10, 5, 10, 4, 21, 25])
        self.assertEqual(self.widths(1.25), [8, 4, 8, 3.2, 16.8, 20])

    def test_cut(self) -> None:
        self.assertEqual(sum(self.widths(0.5)), 100)


class Numbers(unittest.TestCase):
    """Numbers in words."""

    def test_steps(self) -> None:
        self.assertEqual([step(length, 16) for length in (16, 17, 33, 64, 81, 512)], [1, 2, 5, 5, 10, 50])

    def test_ranges(self) -> None:
        self.assertEqual(joined([(5, 7), (0, 2), (2, 3), (6, 9)]), [(0, 3), (5, 9)])
        self.assertEqual([ranges([4, 1, 2, 3, 9]), ranges([])], ["1–4, 9", "none"])

    def test_words(self) -> None:
        self.assertEqual([num(1234567), per_cent(1, 8)], ["1,234,567", "12.5\u00a0%"])
        self.assertEqual([counted(1, "job"), counted(1200, "job")], ["1 job", "1,200 jobs"])
        self.assertEqual([listed(["a"]), listed(["a", "b", "c"])], ["a", "a, b and c"])
