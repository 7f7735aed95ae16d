"""commonkit.elf and commonkit.code: a file of one function, and where its instructions go."""
from __future__ import annotations

import struct
import unittest

from commonkit.code import branch_target, is_branch, is_call, is_end, is_plain_jump, jump_target, makes_constant, signed
from commonkit.elf import FUNCTION, BadFile, Elf, Segment, Symbol, read_elf, read_sections
from hostilekit.symbols import elf_with_loop

# The function: x5 = 3; less one, and again if it is not 0; return.
CODE = bytes.fromhex("93023000 9382f2ff e39e02fe 67800000")


class Reading(unittest.TestCase):
    """What is in a file."""

    def test_file(self) -> None:
        file = read_elf(elf_with_loop(b"turn"))
        self.assertEqual(file.entry, 0x1000)
        self.assertEqual(file.segments, [Segment(0x1000, 84, CODE, True)])
        self.assertEqual(file.symbols[1:], [Symbol("turn", 0x1000, 16, FUNCTION, 1)])
        self.assertFalse(file.is_compressed)

    def test_sections(self) -> None:
        """Two sections with a name, of which one has no bytes in the file, and the one of the names."""
        data = b"\0.text\0.bss\0XY"
        sections: list[tuple[int, ...]] = [(1, 1, 0, 0, 12, 2), (7, 8, 0, 0, 12, 9), (0, 3, 0, 0, 0, 12)]
        self.assertEqual(read_sections(data, sections, 2), {".text": b"XY", "": data[:12]})
        self.assertEqual(read_sections(data, sections, 3), {})

    def test_places(self) -> None:
        file = read_elf(elf_with_loop(b"turn"))
        places: dict[int | str, int] = {0x20: 0x20, "turn": 0x1000, "turn+8": 0x1008, "turn+0x10": 0x1010}
        for place, address in places.items():
            self.assertEqual(file.address(place), address)

    def test_first_of_two_symbols(self) -> None:
        symbols = [Symbol("a", 4, 0, FUNCTION, 0), Symbol("a", 8, 0, FUNCTION, 1), Symbol("a", 12, 0, FUNCTION, 1)]
        self.assertEqual(Elf(0, [], symbols, {}).places, {"a": 8})

    def test_damaged(self) -> None:
        data = elf_with_loop()
        outside = data[:32] + struct.pack("<I", len(data) - 20) + data[36:]  # the sections' place
        for bad in (b"", data[:51], b"\x7fELF\x02" + data[5:], data[:-1], outside, elf_with_loop(b"f", b"g")):
            with self.assertRaises(BadFile):
                read_elf(bad)

    def test_segment_holds(self) -> None:
        segment = Segment(0x1000, 0, bytes(8), True)
        self.assertTrue(segment.holds(0x1000) and segment.holds(0x1004, 4))
        self.assertFalse(segment.holds(0xFFF) or segment.holds(0x1005, 4))


class Going(unittest.TestCase):
    """Where instructions go, by words as the assembler has them."""

    def test_branches(self) -> None:
        self.assertEqual(branch_target(0x1008, 0xFE029EE3), 0x1004)  # bne x5, x0, -4
        self.assertEqual(branch_target(0x1000, 0x00628863), 0x1010)  # beq x5, x6, 16
        self.assertTrue(is_branch(0xFE029EE3))

    def test_jumps(self) -> None:
        self.assertEqual(jump_target(0x1000, 0x008000EF), 0x1008)  # jal x1, 8
        self.assertEqual(jump_target(0x1000, 0xFF9FF06F), 0x0FF8)  # jal x0, -8
        self.assertTrue(is_call(0x008000EF) and is_plain_jump(0xFF9FF06F))

    def test_kinds(self) -> None:
        self.assertTrue(is_end(0x00008067) and is_end(0x00000073) and not is_end(0x000280E7))  # ret, ecall; jalr x1, x5
        self.assertTrue(makes_constant(0x00300293) and makes_constant(0x000012B7) and not makes_constant(0xFFF28293))

    def test_signed(self) -> None:
        self.assertEqual([signed(0x7FF, 12), signed(0x800, 12), signed(0xFFF, 12)], [2047, -2048, -1])
