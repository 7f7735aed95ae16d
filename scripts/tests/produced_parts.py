"""producekit, from words to windows, against values by hand; and the verifier of refined certificates.

`high` runs through two lines. `low` has a loop of three turns over two lines:

    1000  seven instructions            101c  x5 = x5 - 1
    1010  the loop's head               1020  again if x5 is not 0, to 1010
                                        1024  ecall
"""
from __future__ import annotations

import json
import os
import struct
import unittest
from collections.abc import Sequence
from pathlib import Path
from tempfile import TemporaryDirectory
from typing import Any

from producekit.claims import Cache, Claims, persistent, plain
from producekit.faults import NoWindow, Unfit
from producekit.graph import Graph, Walker
from producekit.image import Code, Stretch, read_image
from producekit.pieces import TaskCode, cut
from producekit.producing import Input, by_bound, persistent_certificate, plain_certificate, refined_certificate
from producekit.regions import Loop, find_regions
from producekit.search import Work, improved
from producekit.taskset import Place, Platform, StatedLoop, place, read_task_set
from producekit.words import Instruction, Kind, decode

from .refined_verifier import verified

NOP, ECALL, LOAD = 0x00000013, 0x00000073, 0x00002283
LOW = [0x00300293, *[NOP] * 6, 0xFFF28293, 0xFE0298E3, ECALL]
HIGH = [*[NOP] * 7, ECALL]
PLATFORM = Platform(line=16, sets=4, hit=1, miss=10, data=3, taken=2, switch=5)
SET = """[platform]
line = 16
sets = 4
hit = 1
miss = 10
data = 3
taken = 2
switch = 5
"""
TASK = """
[[task]]
name = "{name}"
file = "{name}.elf"
period = 1000
deadline = {deadline}
jitter = 0
"""
LOOP = """
[[task.loop]]
head = 0x1010
bound = 3
range = [[0x1010, 0x1024]]
"""


def branch(offset: int, three: int = 0) -> int:
    """A branch on x5 and x0."""
    bits = offset & 0x1FFF
    return bits >> 12 << 31 | (bits >> 5 & 63) << 25 | 5 << 15 | three << 12 | (bits >> 1 & 15) << 8 | (bits >> 11 & 1) << 7 | 0x63


def jump(offset: int) -> int:
    """A jump by `jal`."""
    bits = offset & 0x1FFFFF
    return bits >> 20 << 31 | (bits >> 1 & 0x3FF) << 21 | (bits >> 11 & 1) << 20 | (bits >> 12 & 0xFF) << 12 | 0x6F


def content_of(words: Sequence[int]) -> bytes:
    """The bytes of words."""
    return struct.pack(f"<{len(words)}I", *words)


def elf(first: int, words: Sequence[int]) -> bytes:
    """An executable of one segment."""
    head = b"\x7fELF\x01\x01\x01".ljust(16, b"\0") + struct.pack("<HHIIIIIHHHHHH", 2, 243, 1, first, 52, 0, 0, 52, 32, 1, 0, 0, 0)
    code = content_of(words)
    return head + struct.pack("<8I", 1, 84, first, first, len(code), len(code), 5, 4) + code


def graph_of(words: Sequence[int], first: int = 0x1000) -> Graph:
    """The graph of a task of some words."""
    return Walker(Code([read_image(elf(first, words), "a.elf")]), "a", first).graph()


def code_of(platform: Platform, words: Sequence[int], loops: list[Loop]) -> TaskCode:
    """The code of a task of some words from 1000 on."""
    graph = graph_of(words)
    return cut("a", platform, graph, find_regions(graph, loops, "a"))


class Words(unittest.TestCase):
    """The decoder."""

    def test_jumps(self) -> None:
        self.assertEqual(decode(0x0100006F), Instruction(Kind.JUMP, 16))
        self.assertEqual(decode(0xFF5FF06F), Instruction(Kind.JUMP, -12))
        self.assertEqual(decode(0x014000EF), Instruction(Kind.CALL, 20))
        self.assertEqual(decode(0x008002EF), Instruction(Kind.OTHER_LINK, 8))
        self.assertEqual(decode(0xFE031CE3), Instruction(Kind.BRANCH, -8))
        self.assertEqual([decode(word) for word in (branch(-24, 1), jump(-2048))],
                         [Instruction(Kind.BRANCH, -24), Instruction(Kind.JUMP, -2048)])

    def test_costs(self) -> None:
        found = [decode(word) for word in (0x00112623, 0x00C12083, 0x027302B3, 0x027342B3, 0x40105013)]
        self.assertEqual([it.extra for it in found if it], ["data", "data", "mul", "div", ""])

    def test_what_is_none(self) -> None:
        self.assertEqual([decode(word) for word in (0, 0x20105013, 0x00001067, 0x047302B3, 0x0000100F)], [None] * 5)
        self.assertEqual([decode(word) for word in (0x00028067, 0x00100073)], [Instruction(Kind.INDIRECT), Instruction(Kind.BREAK)])


class Files(unittest.TestCase):
    """ELF files and task sets."""

    def test_image(self) -> None:
        image = read_image(elf(0x1000, LOW), "low.elf")
        self.assertEqual((image.entry, image.code), (0x1000, (Stretch(0x1000, content_of(LOW)),)))
        self.assertEqual([Code([image]).word(address) for address in (0xFFC, 0x1024, 0x1028)], [None, ECALL, None])

    def test_damaged_image(self) -> None:
        for content in (b"", elf(0x1000, LOW)[:100], b"\x7fELF\x02" + elf(0x1000, LOW)[5:]):
            self.assertRaises(Unfit, read_image, content, "low.elf")

    def test_conflict(self) -> None:
        images = [read_image(elf(0x1000, words), "a.elf") for words in (LOW, HIGH)]
        self.assertRaises(Unfit, Code, images)

    def test_places(self) -> None:
        self.assertEqual([place(it, "") for it in (16, "f", "f+0x1C", "f+12")],
                         [Place(None, 16), Place("f", 0), Place("f", 28), Place("f", 12)])
        for wrong in (-1, 1 << 32, "", "f+", "f+0x", "f+1+1", True):
            self.assertRaises(Unfit, place, wrong, "")


class Graphs(unittest.TestCase):
    """Nodes, regions and potentials."""

    CALLS = [0xFF010113, 0x00112623, 0x014000EF, 0x010000EF, 0x00C12083, 0x01010113, 0x00008067, 0x00008067]

    def test_two_calls_of_one_function(self) -> None:
        """Seven nodes with no call under way, then one for each call."""
        graph = graph_of(self.CALLS)
        self.assertEqual(graph.nodes[6:], [((), 0x1018), ((0x1008,), 0x101C), ((0x100C,), 0x101C)])
        self.assertEqual((graph.after[2], graph.after[7], graph.after[3], graph.after[6]), ([7], [3], [8], []))
        self.assertEqual(graph.leaders(), {0})
        code = cut("a", PLATFORM, graph, find_regions(graph, [], "a"))
        self.assertEqual(plain(Cache(code)).bound, 45)

    def test_leaders(self) -> None:
        self.assertEqual(graph_of(LOW).leaders(), {0, 4, 9})

    def test_refused(self) -> None:
        for words in ([NOP], [0x000000EF], [0x00100073], [0x0020006F], [0x00028067]):
            self.assertRaises(Unfit, graph_of, words)

    def test_wrong_loops(self) -> None:
        graph = graph_of(LOW)
        for loops in ([], [Loop(0x1014, 3, ((0x1010, 0x1024),))], [Loop(0x1010, 3, ()), Loop(0x1010, 3, ())],
                      [Loop(0x1004, 3, ((0x1004, 0x1014),)), Loop(0x1010, 3, ((0x1010, 0x1024),))]):
            self.assertRaises(Unfit, find_regions, graph, loops, "a")


class Bounds(unittest.TestCase):
    """Claims and what they cost."""

    def bounds(self, platform: Platform, words: Sequence[int], loop: Loop) -> tuple[int, int, int]:
        """By the must analysis, by blocks that stay in the loop, and by the search."""
        cache = Cache(code_of(platform, words, [loop]))
        stay = persistent(cache)
        return plain(cache).bound, stay.bound, improved(stay, by_bound, Work()).bound

    def test_loop(self) -> None:
        """14 before, turns of 27, 1 behind. With 20 paid in advance turns are of 7. No claims are better."""
        self.assertEqual(self.bounds(PLATFORM, LOW, Loop(0x1010, 3, ((0x1010, 0x1024),))), (96, 56, 56))

    def test_short_way(self) -> None:
        """In each of two turns a long way costs 30, and a short one 4. Each word has a line; behind the loop is one more: 11.

        Loaded in each turn: 2 * (30 + 50) + 11. All seven in advance: 70 + 2 * 30 + 11. Those two of the short way are not held: 20 less.
        """
        words = [branch(12), NOP, jump(16), LOAD, NOP, NOP, branch(-24, 1), ECALL]
        platform = Platform(line=4, sets=8, hit=1, miss=10, data=25, taken=0, switch=0)
        self.assertEqual(self.bounds(platform, words, Loop(0x1000, 2, ((0x1000, 0x101C),))), (171, 141, 121))

    def test_conflict_on_a_way(self) -> None:
        """In each of three turns a long way costs 54, a short one 3. The word at 1020 has the head's cache set.

        Loaded in each turn: 3 * (54 + 40) + 11. Three in advance, the head in each turn: 30 + 3 * 64 + 11. The head in advance, too,
        and again on the short way back: 40 + 3 * 54 + 11.
        """
        words = [branch(32), LOAD, LOAD, branch(-12, 1), ECALL, NOP, NOP, NOP, jump(-20)]
        platform = Platform(line=4, sets=8, hit=1, miss=10, data=25, taken=0, switch=0)
        self.assertEqual(self.bounds(platform, words, Loop(0x1000, 3, ((0x1000, 0x1010), (0x1020, 0x1024)))), (293, 233, 213))

    def test_claims_of_any_block(self) -> None:
        """A block that is never visited, claimed behind the loop: one load on the way there, and nothing is useful by it."""
        cache = Cache(code_of(PLATFORM, LOW, [Loop(0x1010, 3, ((0x1010, 0x1024),))]))
        stay = persistent(cache)
        last = len(cache.code.pieces) - 1
        claimed = Claims.of(cache, {**stay.fixings(), 3: {last: 999}})
        self.assertEqual((claimed.bound, claimed.useful, claimed.useful_at_nodes), (66, stay.useful, stay.useful_at_nodes))

    def test_useful_sets(self) -> None:
        """Of the loop's two lines one at most is useful at a node by the must analysis, and both if they stay."""
        cache = Cache(code_of(PLATFORM, LOW, [Loop(0x1010, 3, ((0x1010, 0x1024),))]))
        self.assertEqual(plain(cache).useful_at_nodes, {0, 0b1, 0b10, 0b100})
        self.assertEqual(persistent(cache).useful_at_nodes, {0, 0b1, 0b110, 0b100})


class Folder(unittest.TestCase):
    """Tests in a temporary folder."""

    def setUp(self) -> None:
        folder = TemporaryDirectory()
        self.addCleanup(folder.cleanup)
        self.addCleanup(os.chdir, os.getcwd())
        os.chdir(folder.name)

    def windows(self, text: str) -> list[Any]:
        """The cycles of a certificate's windows."""
        return [it["window"] for it in json.loads(text)["windows"]]


class Searched(Folder):
    """Claims for a window instead of a bound."""

    def test_three_of_six_lines(self) -> None:
        """Each word is a line. `low` has two turns of six words, then ten turns of three, then `ecall`; two jobs of `high` evict all.

        All held: 60 + 2 * 6 + 30 + 10 * 3 + 11 = 143, and 110 and six reloads for each job of `high`: 483. A line of the first loop less
        costs 10 more, and one reload less at each preemption, until three are held, as in the second loop: 173 + 2 * (110 + 30) = 453.
        """
        platform = SET.replace("line = 16", "line = 4").replace("sets = 4", "sets = 32").replace("switch = 5", "switch = 0")
        high = TASK.format(name="high", deadline=300).replace("1000", "300")
        loops = "".join(f"[[task.loop]]\nhead = {head}\nbound = {bound}\nrange = [[{head}, {end}]]\n"
                        for head, bound, end in ((0x1000, 2, 0x1018), (0x1018, 10, 0x1024)))
        Path("set.toml").write_text(platform.replace("taken = 2", "taken = 0") + high + TASK.format(name="low", deadline=1000) + loops,
                                    encoding="utf-8")
        Path("high.elf").write_bytes(elf(0x1080, [*[NOP] * 9, ECALL]))
        Path("low.elf").write_bytes(elf(0x1000, [*[NOP] * 5, branch(-20, 1), NOP, NOP, branch(-8, 1), ECALL]))
        self.assertEqual(self.windows(persistent_certificate(Path("set.toml"))), [110, 483])
        text = refined_certificate(Path("set.toml"))
        self.assertEqual(self.windows(text), [110, 453])
        self.assertTrue(verified(Input(Path("set.toml")), text.encode(), "c").startswith("yes\n"))


class Certificates(Folder):
    """From files to texts."""

    def setUp(self) -> None:
        super().setUp()
        Path("high.elf").write_bytes(elf(0x1050, HIGH))
        Path("low.elf").write_bytes(elf(0x1000, LOW))
        self.write(1000)

    def write(self, deadline: int) -> None:
        """The set of both, with a deadline of the lower task."""
        low = TASK.format(name="low", deadline=deadline)
        Path("set.toml").write_text(SET + TASK.format(name="high", deadline=1000) + low + LOOP, encoding="utf-8")

    def test_set(self) -> None:
        taskset = read_task_set(Path("set.toml"))
        head, end = Place(None, 0x1010), Place(None, 0x1024)
        self.assertEqual((taskset.platform, taskset.tasks[1].loops), (PLATFORM, (StatedLoop(head, 3, ((head, end),)),)))

    def test_plain(self) -> None:
        """5 + 96 + 28 + 2 * 5, and two sets of `low` that are useful somewhere: 20."""
        found = json.loads(plain_certificate(Path("set.toml")))
        self.assertEqual([(it["window"], it["method"]) for it in found["tasks"]], [(33, "ucb"), (159, "ucb")])
        self.assertEqual((found["tasks"][1]["potentials"], found["tasks"][1]["loops"]), ([96, 85, 84, 83, 27, 16, 15, 14, 13, 1], [82]))
        self.assertEqual(found["tasks"][1]["states"], [[0, [], []], [4, [0, 256], []], [9, [0, 256, 1, 257, 2, 258], [2]]])

    def test_refined(self) -> None:
        """5 + 56 + 28 + 2 * 5, and two sets that are useful at one node: 20."""
        self.assertEqual([self.windows(make(Path("set.toml"))) for make in (persistent_certificate, refined_certificate)], [[33, 119]] * 2)

    def test_deadline(self) -> None:
        self.write(119)
        self.assertEqual(self.windows(refined_certificate(Path("set.toml"))), [33, 119])
        self.write(118)
        self.assertRaises(NoWindow, refined_certificate, Path("set.toml"))

    def test_verifier(self) -> None:
        """What is said of certificates with one change: of the part of `low` with blocks that stay, or of the windows."""
        self.assertEqual(self.said(), "yes\nhigh bound 28 window 33 response 33 analysis 0 method ucb\n"
                                      "low bound 56 window 119 response 119 analysis 1 method ucb\n")
        for path, value, said in (
            ("platform.miss", 9, "no high analysis 0 clause 1 place 0"), ("part.name", "other", "no low analysis 1 clause 1 place 2"),
            ("part.states.0.0", 1, "no low analysis 1 clause 2 place 0"), ("part.loops", [], "no low analysis 1 clause 2 place 2"),
            ("part.states.1.2", [1], "no low analysis 1 clause 4 place 4"), ("part.evicting", [0, 1], "no low analysis 1 clause 5 place 8"),
            ("part.useful", [0, 2], "no low analysis 1 clause 5 place 4"), ("part.potentials.3", 42, "no low analysis 1 clause 6 place 3"),
            ("part.loops.0", 21, "no low analysis 1 clause 6 place 8"), ("part.bound", 55, "no low analysis 1 clause 7 place 0"),
            ("part.states.2.1", [0, 256, 1, 257, 2, 258, 3, 999], "no low analysis 1 clause 6 place 8"),
            ("windows.1.window", 118, "no low clause 8 place 0"), ("windows.1.response", 120, "no low clause 9 place 0"),
            ("windows.0.name", "low", "no high clause 1 place 2"), ("windows.1.analysis", 2, "refused 72 BadValue c windows.1.analysis"),
            ("refined", 2, "refused 74 OtherVersion c 2"), ("part.states.0.1", [1], "refused 72 BadValue c analyses.1.tasks.1.states"),
        ):
            with self.subTest(path):
                self.assertEqual(self.said(path, value), said + "\n")

    def said(self, path: str = "", value: Any = None) -> str:
        """What the verifier says of the certificate with a value changed."""
        text = persistent_certificate(Path("set.toml"))
        found: Any = json.loads(text)
        *way, last = path.replace("part.", "analyses.1.tasks.1.").split(".")
        at = found
        for key in way:
            at = at[int(key) if isinstance(at, list) else key]
        if path:
            at[int(last) if isinstance(at, list) else last] = value
        return verified(Input(Path("set.toml")), json.dumps(found).encode(), "c")
