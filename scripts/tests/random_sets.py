"""evaluatekit: intervals, drawn sets, splits of a cache, and the arithmetic of its machine, by hand."""
from __future__ import annotations

import unittest

from evaluatekit import confidence
from evaluatekit.baselines import Basis, Partition, Slices
from evaluatekit.draws import UNIT, Draw, Placed, Shape, Share, periods, powers
from evaluatekit.kernels import Platform
from evaluatekit.measuring import Chosen, Known, Timing
from evaluatekit.program import Part
from evaluatekit.stepping import OPERATIONS, WORD

LEAST = 1 << 31  # the bits of the least signed number


def placed(name: str, timing: Timing) -> Placed:
    """A task of which only the name and the times count."""
    part = Part(name, 0, [], [], "ucb", 0, 1)
    return Placed(Known(part, (), Chosen(0, 0, ()), 0), timing)


class Intervals(unittest.TestCase):
    """Ten sets for each utilization."""

    def test_weighted(self) -> None:
        found = confidence.weighted([50, 100], [10, 0], 10)
        self.assertAlmostEqual(found.value, 100 * 50 / 150)
        self.assertAlmostEqual(found.error, 196 * ((50 ** 2 + 100 ** 2) * (12 / 14 * 2 / 14) / 14) ** 0.5 / 150)

    def test_difference(self) -> None:
        found = confidence.difference([1], [3], [1], 10)
        self.assertAlmostEqual(found.value, 20)
        self.assertAlmostEqual(found.error, 196 * ((5 / 12 - (2 / 12) ** 2) / 12) ** 0.5)
        self.assertEqual(found.words(), "not distinguishable (+20.0 ± 35.3 points) from")


class Drawn(unittest.TestCase):
    """Periods that are spread over a range, and those by shares."""

    def test_powers(self) -> None:
        grid = powers(2)
        self.assertEqual((len(grid), grid[0], grid[1]), (45, UNIT, UNIT * 65 // 64))

    def test_periods_over_a_range(self) -> None:
        one = Draw(50, Shape(2, spread=10), [Share("a", 1, 0), Share("b", 4, 0)])
        self.assertEqual(periods(one, {"a": 100, "b": 200}), [300, 1200])

    def test_periods_by_shares(self) -> None:
        one = Draw(50, Shape(2), [Share("a", 1 << 29, 0), Share("b", 1 << 28, 0)])
        self.assertEqual(periods(one, {"a": 100, "b": 200}), [400, 1600])


class Splits(unittest.TestCase):
    """Two kernels in a cache of four sets."""

    def setUp(self) -> None:
        bounds = {1: {"a": 90, "b": 50}, 2: {"a": 40, "b": 50}, 4: {"a": 30, "b": 20}}
        self.basis = Basis(Platform(sets=4, switch=0), {}, Slices.of(bounds), {})

    def test_sizes_that_gain_nothing(self) -> None:
        self.assertEqual(self.basis.slices.by_kernel, {"a": [(1, 90), (2, 40), (4, 30)], "b": [(1, 50), (4, 20)]})

    def test_the_least_sum(self) -> None:
        tasks = [placed("a", (100, 100, 0)), placed("b", (200, 200, 0))]
        self.assertEqual(Partition(tasks, self.basis).least([1.0, 1.0]), [40, 50])

    def test_acceptance(self) -> None:
        for deadline, accepted in ((90, True), (89, False)):
            tasks = [placed("a", (100, 100, 0)), placed("b", (200, deadline, 0))]
            self.assertEqual(Partition(tasks, self.basis).is_accepted(), accepted)


class Arithmetic(unittest.TestCase):
    """Operations by their third and seventh fields, on registers of 32 bits."""

    def test_division(self) -> None:
        for third, a, b, wanted in ((4, -7, 2, -3), (6, -7, 2, -1), (4, 5, 0, -1), (6, 5, 0, 5),
                                    (4, LEAST, -1, LEAST), (6, LEAST, -1, 0), (5, 7, 0, WORD)):
            self.assertEqual(OPERATIONS[third, 1](a & WORD, b & WORD) & WORD, wanted & WORD)

    def test_high_products(self) -> None:
        for third, wanted in ((1, 0), (2, -1), (3, WORD - 1)):
            self.assertEqual(OPERATIONS[third, 1](WORD, WORD) & WORD, wanted & WORD)
