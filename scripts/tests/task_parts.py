"""reportkit.parts and reportkit.spent, over a loop of three turns that is summed up by hand.

    1000  x5 = 3
    1004  less one      the loop's head
    1008  again if x5 is not 0
    100c  return

An instruction costs 1, a jump that is taken 2 more, a load of a line 10 more.
"""
from __future__ import annotations

import unittest

from commonkit.elf import FUNCTION, Elf, Symbol
from reportkit.nodes import Loop, after, entry_of, stated_loops
from reportkit.parts import Flow, Part, Parts, parts_of
from reportkit.program import Instruction
from reportkit.reading import Platform
from reportkit.spent import Path, Spent

CODE = {
    0x1000: Instruction("addi", ["x5", "x0", "3"]), 0x1004: Instruction("addi", ["x5", "x5", "-1"]),
    0x1008: Instruction("bne", ["x5", "x0", "-4"]), 0x100C: Instruction("jalr", ["x0", "x1", "0"]),
}
LOOP = Loop(0x1004, 3, ((0x1004, 0x100C),))


def platform(line: int, sets: int) -> Platform:
    """A platform with such a cache."""
    return Platform(line, sets, 1, 10, 0, 2, 0)


def parts(line: int, sets: int) -> Parts:
    """The parts with such a cache."""
    return parts_of(Flow(CODE, 0x1000, [LOOP]), platform(line, sets))


class Sums(unittest.TestCase):
    """The parts with three caches."""

    def test_one_line(self) -> None:
        """Loaded once: 11, three turns of 1 + 3, 3 for the return. Nothing is to be loaded in advance."""
        part = Part(26, 0b1, 0b1, [0b1])
        self.assertEqual(parts(16, 4), Parts(part, part))

    def test_two_lines_in_one_set(self) -> None:
        """Each turn loads both: 11, three turns of 11 + 13, 3. The return alone finds its line."""
        part = Part(86, 0b1, 0b1, [0b1])
        self.assertEqual(parts(8, 1), Parts(part, part))

    def test_two_lines(self) -> None:
        """Each turn may load the second one: 11, three turns of 1 + 13, 3. Loaded at the loop's entry: 11 + 10, three of 1 + 3, 3."""
        self.assertEqual(parts(8, 2), Parts(Part(56, 0b11, 0b11, [0b01, 0b10]), Part(36, 0b11, 0b11, [0b11])))


class Paths(unittest.TestCase):
    """Where the cycles of the second line's loads go."""

    def test_two_lines(self) -> None:
        states = [[0, [], []], [1, [0, 0x200], []], [3, [1, 0x201], []]]
        path = Path(platform(8, 2), CODE, 0x1000, [LOOP], {"states": states})
        self.assertEqual(path.bound(), 56)
        loops, functions = path.spent(lambda address: 0x1000)
        self.assertEqual(loops, [Spent(0x1004, 3, 1, 14, 42, 30)])
        self.assertEqual(functions, [Spent(0x1000, cycles=56, loads=40)])


class Nodes(unittest.TestCase):
    """Places of a set, and calls."""

    def test_places(self) -> None:
        own = Elf(0x20, [], [Symbol("f", 0x1000, 16, FUNCTION, 1)], {})
        task = {"entry": "f", "loop": [{"head": "f+4", "bound": 3, "range": [["f+4", "f+0xc"]]}]}
        self.assertEqual((stated_loops(task, own), entry_of(task, own), entry_of({}, own)), ([LOOP], 0x1000, 0x20))

    def test_held_addresses(self) -> None:
        self.assertEqual([LOOP.holds(address) for address in (0x1000, 0x1004, 0x1008, 0x100C)], [False, True, True, False])

    def test_call_and_return(self) -> None:
        code = {0x1000: Instruction("jal", ["x1", "64"]), 0x1040: Instruction("jalr", ["x0", "x1", "0"])}
        self.assertEqual(after(((), 0x1000), code), [((0x1000,), 0x1040)])
        self.assertEqual(after(((0x1000,), 0x1040), code), [((), 0x1004)])
        self.assertEqual(after(((), 0x1040), code), [])
