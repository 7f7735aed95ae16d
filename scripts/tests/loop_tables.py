"""loopkit: tables of loops in a set, old tables and new ones, and the turns that headers show."""
from __future__ import annotations

import unittest

from commonkit.sets import BadSet
from loopkit.carry import Old, innermost, origin_text, turns_of
from loopkit.expressions import Header, Told, evaluated
from loopkit.runs import least
from loopkit.tables import counted, differences, places, stated_bounds
from loopkit.taskset import Table, read_set

SET = """# bound memset 40 8
[platform]
line = 16

[[task]]
name = "a"
file = "a.elf"
entry = "run"
# of the filter
[[task.loop]]  # run at 00001004, tasks.c:7 run
head = "run+0x4"
bound = 9  # by hand, the sensor has 9 values
range = [["run+0x4", "run+0xc"]]

# the end
"""


def address(place: int | str) -> int | None:
    """The address of a place of the function `run`, which is at 1000."""
    if isinstance(place, int):
        return place
    name, _, offset = place.partition("+")
    return 0x1000 + int(offset or "0", 16) if name == "run" else None


def table(offset: int, bound: int, comment: str) -> Table:
    """A table of a loop of three words."""
    return Table(f"run+0x{offset:x}", bound, [[f"run+0x{offset:x}", f"run+0x{offset + 12:x}"]], comment)


class Sets(unittest.TestCase):
    """The text of a set, with its tables separate."""

    def test_taken_apart(self) -> None:
        task = read_set(SET).tasks()[0]
        loop = Table("run+0x4", 9, [["run+0x4", "run+0xc"]], "run at 00001004, tasks.c:7 run", ["# of the filter"],
                     "# by hand, the sensor has 9 values")
        self.assertEqual((task.names(), task.tables), (("a", "run"), [loop]))
        self.assertTrue(loop.is_by_hand())

    def test_written_again(self) -> None:
        self.assertEqual(read_set(read_set(SET).text()).text(), read_set(SET).text())
        self.assertEqual(read_set(SET.replace("\n", "\r\n")).text().count("\r\n"), read_set(SET).text().count("\n"))

    def test_text_of_a_table(self) -> None:
        text = '[[task.loop]]  # why\nhead = 0x1004\nbound = 3\nrange = [[0x1004, "f+0x8"]]\n'
        self.assertEqual(Table(0x1004, 3, [[0x1004, "f+0x8"]], "why").text(), text)

    def test_other_forms(self) -> None:
        with self.assertRaises(BadSet):
            read_set('task = [{name = "a", file = "a.elf"}]\n[platform]\nline = 16\n')

    def test_stated_bounds(self) -> None:
        text = SET + "# bound of memcpy 3\n  # bound .strlen x\n# bound _f.part 7\n"
        self.assertEqual(stated_bounds(text), {"memset": [40, 8], "_f.part": [7]})


class OldTables(unittest.TestCase):
    """What old tables say of new loops."""

    def test_comments(self) -> None:
        comment = "run at 00001004, tasks.c:7 half < tasks.c:20 run, inside 00001000"
        self.assertEqual(origin_text(comment), "tasks.c:7 half < tasks.c:20 run")
        self.assertEqual(innermost(origin_text(comment)), "tasks.c:7 half")

    def test_turns(self) -> None:
        bounds = {"": 10, ", test first: turns + 1": 9, ", counted in the code": 0}
        self.assertEqual([turns_of(table(4, 10, f"run at 00001004{more}")) for more in bounds], list(bounds.values()))

    def test_same_place(self) -> None:
        old = Old([table(4, 10, "run at 00001004")], address)
        new = Table(0x1004, 0, [[0x1004, 0x1010]], "run at 00001004")
        self.assertIs(old.partner(new), old.tables[0])
        self.assertEqual((old.carried(old.tables[0], new, True), old.left()), (10, []))

    def test_same_loop_of_the_source_with_a_test_first(self) -> None:
        old = Old([table(4, 10, "run at 00001004, tasks.c:7 run")], address)
        new = table(16, 0, "run at 00001010, tasks.c:7 run")
        self.assertIs(old.partner(new), old.tables[0])
        self.assertEqual(old.carried(old.tables[0], new, True), 11)

    def test_moved_lines(self) -> None:
        old = Old([table(4, 10, "run at 00001004, tasks.c:7 run")], address)
        new = table(4, 0, "run at 00001004, tasks.c:9 run")
        old.compare([new])
        self.assertEqual((old.shifted, old.turns("tasks.c:7 run")), ({"run"}, 0))

    def test_most_turns_of_an_inlined_loop(self) -> None:
        old = Old([table(4, 10, "x, tasks.c:7 half < tasks.c:20 run"), table(32, 12, "x, tasks.c:7 half < tasks.c:30 run")], address)
        self.assertEqual([old.turns("tasks.c:7 half < tasks.c:20 run"), old.turns("tasks.c:7 half")], [10, 12])


class Differences(unittest.TestCase):
    """How the tables of a set differ from those of its program."""

    def test_none(self) -> None:
        self.assertEqual(differences([table(4, 3, "a")], [Table(0x1004, 3, [[0x1004, 0x1008], [0x1008, 0x1010]])], address), [])

    def test_each(self) -> None:
        found = [differences([table(4, 3, "a")], [new], address) for new in (table(4, 5, "a"), table(8, 3, "a"), Table(0x1004, 3, [], "a"))]
        self.assertEqual(found, [["run+0x4 (a) has the bound 3, and it is 5"],
                                 ["no table states the loop at run+0x8 (a), whose bound is 3", "the table of run+0x4 is of no loop"],
                                 ["4100 (a) has other ranges"]])

    def test_places(self) -> None:
        self.assertEqual(places(table(4, 3, ""), address), {0x1004, 0x1008, 0x100C})


class Turns(unittest.TestCase):
    """How often loops of C turn by their headers."""

    def told(self, first: str, test: str, step: str, body: str = "", turns_first: bool = False) -> tuple[int, bool] | None:
        """The turns where N is 12, and whether the loop may end earlier."""
        told: Told | None = Header(first, test, step, body, turns_first).turns({"N": 12}.get)
        return (told.turns, told.may_end_earlier) if told else None

    def test_headers(self) -> None:
        self.assertEqual(self.told("i = 0", "i < N", "i++"), (12, False))
        self.assertEqual(self.told("i = 1", "i <= N", "i *= 2"), (4, False))  # 1, 2, 4, 8
        self.assertEqual(self.told("i = N", "i-- > 0", ""), (12, False))
        self.assertEqual(self.told("i = N", "--i > 0", ""), (11, False))
        self.assertEqual(self.told("i = 0", "N > i", "i += 5"), (3, False))  # 0, 5, 10

    def test_ways_out(self) -> None:
        self.assertEqual(self.told("i = 0", "i < N && !found", "i++"), (12, True))
        self.assertEqual(self.told("i = 0", "i < N", "i++", "{ if (found) break; }"), (12, True))

    def test_do_while(self) -> None:
        self.assertEqual(self.told("i = 0", "++i < N", "", "", True), (12, False))

    def test_unknown(self) -> None:
        headers = (("i = 0", "i < M", "i++"), ("i = 0", "i < N || more", "i++"), ("i = 0", "i != 5", "i += 2"), ("", "i < N", "i++"))
        for first, test, step in headers:
            self.assertIsNone(self.told(first, test, step))
        self.assertIsNone(self.told("i = 0", "i < N", "i++", "i--;"))

    def test_expressions(self) -> None:
        values = {"(1 << 4) - 1": 15, "0x10U + 010": 24, "-7 / 2": -3, "-7 % 2": -1, "N * 2": 24, "f(3)": None, "1 / 0": None}
        self.assertEqual({text: evaluated(text, {"N": 12}.get) for text in values}, values)

    def test_words(self) -> None:
        self.assertEqual([counted(1), counted(2)], ["1 turn", "2 turns"])

    def test_least(self) -> None:
        for edge in (1, 37, 100):
            self.assertEqual(least(0, 100, edge.__le__), edge)
