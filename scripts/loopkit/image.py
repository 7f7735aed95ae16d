"""What is found in an ELF file for a task: its loops with their origins, and what is wrong with its flow."""
from __future__ import annotations

from dataclasses import dataclass
from pathlib import Path

from commonkit.sets import BadSet

from .debug import Constants, files_of
from .flow import Function, Loop, Strange, call_graph, has_way_out, loops_of, outs
from .lines import Frames, has_tool, lines_of
from .origin import Finder, Origin
from .program import Names, Program, read_program_file
from .source import Sources
from .stack import depth_of
from .walk import Counted, Walk

SAME_TIME = 2  # seconds within which files may have been written together


@dataclass
class Found:
    """A loop of a task: in which function it is, its origin, and whether a return or the end of the job is reached from it."""

    loop: Loop
    origin: Origin
    function: str
    place: int
    ends: bool


@dataclass
class TaskLoops:
    """A task's loops, each head once, its cycles with several entries by function, whether its jobs can complete at all, and the bytes
    of stack that it takes at most, if that is known."""

    loops: list[Found]
    strange: list[tuple[str, Strange]]
    completes: bool
    stack: int | None


class Image:
    """An ELF file with its sources. `BadSet` if it is older than one of these, or if they cannot be found since there is no tool."""

    def __init__(self, path: str) -> None:
        self.path = path
        self.program: Program = read_program_file(path)
        self.names = Names(self.program.functions)
        self.sources = Sources(Path(path).parent, Constants(path).value)
        self.has_lines = bool(self.program.elf.sections.get(".debug_line"))
        self.lines: dict[int, Frames] = {}
        self.counts: dict[tuple[int, int, int], dict[int, Counted]] = {}
        self.look_at_file()

    def look_at_file(self) -> None:
        """A `BadSet` if nothing can be said of its loops."""
        newer = self.newer_sources()
        if newer:
            raise BadSet(f"{self.path} is older than {', '.join(newer)}: compile first, for its lines may be others now")
        if self.has_lines and not has_tool():
            raise BadSet("no addr2line is installed, which comes with the binutils: the sources of loops cannot be found")

    def task(self, entry: int) -> TaskLoops:
        """The loops that a task can reach, and what is wrong with its flow."""
        functions = call_graph(self.program, entry)
        if self.program.elf.is_compressed and self.is_compressed(functions):
            raise BadSet(f"{self.path} has compressed code, with instructions of 16 bits: compile and link all of it, libraries too,"
                         " with -march=rv32im or rv32i")
        self.look_up(functions)
        out = outs(self.program, functions)
        completes = entry in functions and has_way_out(functions[entry], entry, out[entry])
        found = TaskLoops([], [], completes, depth_of(self.program, functions, entry))
        seen: set[int] = set()
        for start, function in functions.items():
            loops, strange = loops_of(function)
            counted = {} if strange else self.counted(start, function, loops)
            origins = Finder(self.program, function, self.lines, self.sources, counted).origins(loops)
            odd = {a for cycle in strange for a in cycle.nodes}
            for loop in loops:
                if not odd.isdisjoint(loop.body):
                    origins[loop.head].forget()
                if loop.head not in seen:
                    ends = has_way_out(function, loop.head, out[start])
                    found.loops.append(Found(loop, origins[loop.head], self.names.before(loop.head)[0], 0, ends))
            seen.update(loop.head for loop in loops)
            found.strange += [(self.names.before(start)[0], cycle) for cycle in strange]
        number_within_functions(found.loops)
        return found

    def counted(self, start: int, function: Function, loops: list[Loop]) -> dict[int, Counted]:
        """The counts of a function's loops, made once for the same flow."""
        key = start, len(function.edges), sum(map(len, function.edges.values()))
        if loops and key not in self.counts:
            self.counts[key] = Walk(self.program, function, loops).counts()
        return self.counts.get(key, {})

    def address(self, place: int | str) -> int | None:
        """The address of a place, None if its symbol is not there."""
        try:
            return self.program.elf.address(place)
        except (KeyError, ValueError):
            return None

    def look_up(self, functions: dict[int, Function]) -> None:
        """Has the source lines of all instructions of some functions."""
        asked = sorted({a for function in functions.values() for a in function.edges} - self.lines.keys())
        self.lines.update(dict.fromkeys(asked, ()))
        self.lines.update(lines_of(self.path, asked))

    def line_text(self, address: int) -> str:
        """An address, with its source line if that is known."""
        frames = self.lines.get(address, ())
        return f"{address:08x} ({frames[0].text()})" if frames else f"{address:08x}"

    def missing_source(self, address: int) -> str:
        """Says so if the source of an address is not there."""
        frames = self.lines.get(address, ())
        return f"; its source {frames[0].path} is not there" if frames and frames[0].path in self.sources.missing else ""

    def is_compressed(self, functions: dict[int, Function]) -> bool:
        """Whether one of the instructions has 16 bits."""
        return any((self.program.word(a) or 0) & 3 != 3 for function in functions.values() for a in function.edges)

    def newer_sources(self) -> list[str]:
        """The names of the files that the debug lines name and that are newer than the file."""
        made = Path(self.path).stat().st_mtime + SAME_TIME
        places = (self.sources.place(path) for path in sorted(files_of(self.program.elf.sections)))
        return list(dict.fromkeys(place.name for place in places if place and place.stat().st_mtime > made))


def number_within_functions(loops: list[Found]) -> None:
    """Gives each loop its place, by address, among those of its function."""
    count: dict[str, int] = {}
    for found in sorted(loops, key=lambda found: found.loop.head):
        found.place = count.get(found.function, 0)
        count[found.function] = found.place + 1


def ranges_of(body: frozenset[int]) -> list[tuple[int, int]]:
    """The ranges of addresses that a loop holds, each up to just after its last instruction."""
    found: list[tuple[int, int]] = []
    for a in sorted(body):
        if found and found[-1][1] == a:
            found[-1] = (found[-1][0], a + 4)
        else:
            found.append((a, a + 4))
    return found
