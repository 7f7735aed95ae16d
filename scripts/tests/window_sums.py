"""reportkit.windows: the sums of docs/GUIDE.md, section 11, and a set of three tasks summed up by hand."""
from __future__ import annotations

import unittest

from commonkit.calls import Trouble
from reportkit.reading import Claim, Platform, Task, TaskSet
from reportkit.windows import Analysis, Share, blocking_of, greatest_sum, members


def platform(miss: int, switch: int, switching: str = "cycle") -> Platform:
    """A platform on which these alone count for a window."""
    return Platform(16, 16, 1, miss, 1, 2, switch, switching=switching)


def task(name: str, period: int, jitter: int = 0) -> Task:
    """A task whose deadline is its period."""
    return Task(name, "a.elf", period, period, jitter)


def claim(bound: int, evicting: set[int], useful: set[int], method: str = "ucb", window: int = 0, jitter: int = 0) -> Claim:
    """What a certificate says of a task."""
    return Claim("", bound, frozenset(evicting), frozenset(useful), method, window, window + jitter)


class GuidesSets(unittest.TestCase):
    """The examples `two` and `five` as the guide sums them up."""

    def test_two(self) -> None:
        given = TaskSet(platform(10, 20), [task("control", 2000), task("check", 20000, 100)])
        claims = [claim(146, {8}, set(), window=166), claim(5803, {8, 9}, {8}, window=6607, jitter=100)]
        control, check = Analysis(given, claims, [0, 0]).certified()
        self.assertEqual((control.total(), check.total(), check.response()), (166, 6607, 6707))
        self.assertEqual(check.shares, [Share(4, 4 * 146, 4 * 40, 4 * 10)])

    def test_five(self) -> None:
        tasks = [task("filter", 3000, 50), task("control", 3000, 50), task("frame", 10000, 200), task("matrix", 20000)]
        evicting = [{*range(12)}, {*range(5), *range(12, 16)}, {*range(2, 8)}, {*range(16)}]
        useful = [set[int](), {*range(5)}, {3, 4}, {0, 1, 2, *range(5, 16)}]
        claims = [claim(bound, evicts, finds) for bound, evicts, finds in zip((605, 249, 925, 3446), evicting, useful)]
        analysis = Analysis(TaskSet(platform(12, 25, "instruction"), tasks), claims, [15] * 4)
        self.assertEqual(analysis.demand(1, "ucb", 1004, [645]).total(), 1004)
        matrix = analysis.demand(3, "ucb", 8079, [645, 1004, 2600])
        self.assertEqual([share.jobs for share in matrix.shares], [3, 3, 1])
        self.assertEqual([share.reloads for share in matrix.shares], [36 * 12, 23 * 12, 4 * 12])
        self.assertEqual(matrix.total(), 8079)


class ThreeTasks(unittest.TestCase):
    """High has 10 cycles each 100, middle 20 each 200, low 50; a reload costs 10, and switches cost nothing.

    Middle: 20 + 10 + one reload = 40. In 150 cycles low has 2 jobs of high and 1 of middle over it: 50 + 2 * 10 + 20 = 90.
    """

    def setUp(self) -> None:
        given = TaskSet(platform(10, 0), [task("high", 100), task("middle", 200), task("low", 400)])
        claims = [claim(10, {0, 1, 2}, set()), claim(20, {0, 3}, {0}), claim(50, {0, 1, 3}, {0, 1, 3})]
        self.analysis = Analysis(given, claims, [0, 0, 0], [[0], [0b0001], [0b0001, 0b1010]])

    def window(self, method: str) -> int:
        """The least window of low."""
        found = self.analysis.least(2, method, [10, 40], 400)
        return found.total() if found else 0

    def test_middle(self) -> None:
        middle = self.analysis.least(1, "ucb", [10], 200)
        self.assertEqual(middle.total() if middle else 0, 40)

    def test_by_useful_sets(self) -> None:
        """High: sets 0 and 1 twice each. Middle: sets 0 and 3 once each. 90 + 60."""
        self.assertEqual(self.window("ucb"), 150)

    def test_by_evicting_sets(self) -> None:
        """High: low loses 2 sets twice. Middle: low loses 3 sets, one of them to high, once. 90 + 70."""
        self.assertEqual(self.window("ecb"), 160)

    def test_by_points(self) -> None:
        """At one node low finds set 0 useful, or 1 and 3: high takes 1 of them twice, middle 2 once. 90 + 40."""
        self.assertEqual(self.window("point"), 130)

    def test_disturbed_jobs(self) -> None:
        """In 150 cycles high disturbs the one job of middle once, and low twice; middle disturbs low once."""
        self.assertEqual(self.analysis.counts(0, 2, 150, [10, 40]), {1: 1, 2: 2})
        self.assertEqual(self.analysis.counts(1, 2, 150, [10, 40]), {2: 1})

    def test_limit(self) -> None:
        self.assertIsNone(self.analysis.least(2, "ucb", [10, 40], 149))

    def test_free_reloads(self) -> None:
        found = self.analysis.without("miss").least(2, "ecb", [10, 30], 400)
        self.assertEqual(found.total() if found else 0, 80)  # one job of high is over before 100

    def test_other_window_in_certificate(self) -> None:
        claims = [claim(10, {0, 1, 2}, set(), window=11)]
        with self.assertRaisesRegex(Trouble, "need 10 and 10; a page shows windows that are no wider than needed"):
            Analysis(TaskSet(platform(10, 0), [task("high", 100)]), claims, [0]).certified()


class Parts(unittest.TestCase):
    """What the sums are made of."""

    def test_jobs_with_jitter(self) -> None:
        analysis = Analysis(TaskSet(platform(1, 1), [task("a", 100, 30)]), [claim(1, set(), set())], [0])
        self.assertEqual([analysis.jobs(0, window) for window in (70, 71, 170, 171)], [1, 2, 2, 3])

    def test_blocking(self) -> None:
        tasks = [task("a", 10), task("b", 10), task("c", 10)]
        self.assertEqual(blocking_of(TaskSet(platform(1, 1, "instruction"), tasks), [16, 5, 9]), [15, 8, 8])
        self.assertEqual(blocking_of(TaskSet(platform(1, 1), tasks), [16, 5, 9]), [0, 0, 0])

    def test_greatest_sum(self) -> None:
        self.assertEqual(greatest_sum(3, [(2, 1), (5, 1), (1, 4)]), 8)  # 5 + 2 + 1
        self.assertEqual(greatest_sum(9, [(2, 1), (5, 1)]), 7)

    def test_members(self) -> None:
        self.assertEqual(members(0b101001), {0, 3, 5})
