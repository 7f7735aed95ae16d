"""Which loop of the source a loop of the code is, and whether its head is reached once more than that turns."""
from __future__ import annotations

from collections import Counter
from collections.abc import Callable
from dataclasses import dataclass, field, replace

from commonkit.code import is_branch, is_call, is_plain_jump, is_store, makes_constant

from .counts import Counts
from .flow import Edges, Function, Loop, body_of, dominators, passes, reached_from, turned
from .lines import Frames
from .program import Program
from .source import SourceLoop, Sources
from .walk import Counted


@dataclass(frozen=True)
class Site:
    """A loop of the source, with the calls through which it was inlined."""

    loop: SourceLoop
    function: str
    calls: Frames

    def text(self) -> str:
        return " < ".join([f"{self.loop.place()} {self.function}"] + [frame.text() for frame in self.calls])

    def is_inside(self, other: Site) -> bool:
        """Whether this loop is inside the other one, or in a function inlined there."""
        if self.calls == other.calls and self.loop.path == other.loop.path:
            return self.loop != other.loop and other.loop.first <= self.loop.first and self.loop.last <= other.loop.last
        outer = len(self.calls) - len(other.calls) - 1
        if outer < 0 or self.calls[outer + 1:] != other.calls:
            return False
        return self.calls[outer].path == other.loop.path and other.loop.has(self.calls[outer].line)


@dataclass
class Part:
    """The turns by some of a head's back edges: all nodes on them, those that are in no smaller turns, and the loop of the
    source that they are. `tests_first` if the test comes before the first turn."""

    latches: tuple[int, ...]
    body: frozenset[int]
    own: set[int]
    site: Site | None = None
    tests_first: bool = False


@dataclass
class Origin:
    """What is known of a loop: its parts, the inner first; how often its head is reached at most if its tests show that;
    whether it has no other way out, so that it is reached just so often, and whether the last time only tests; and how often it
    is reached at most by all that the code shows. With several parts, its turns are those of several loops of the source."""

    loop: Loop
    parts: list[Part] = field(default_factory=list)
    count: int = 0
    is_exact: bool = False
    is_test_last: bool = False
    most: int = 0

    def site(self) -> Site | None:
        return self.parts[-1].site

    def forget(self) -> None:
        """Nothing is known of it."""
        self.parts = [replace(part, site=None, tests_first=True) for part in self.parts]
        self.count, self.is_exact, self.is_test_last, self.most = 0, False, False, 0

    def is_shared(self) -> bool:
        return len(self.parts) > 1

    def has_one_back_edge(self) -> bool:
        return len(self.loop.latches) == 1

    def one_more(self) -> bool:
        """Whether the head may be reached once more than the loop turns."""
        return any(part.tests_first for part in self.parts)

    def arrivals(self, turns: Callable[[Site], int]) -> int:
        """How often the head is reached at most by the turns of the source's loops, 0 if those of one are not known."""
        total = 1
        for part in self.parts:
            known = turns(part.site) if part.site else 0
            total = known * total + part.tests_first if known and total else 0
        return self.by_code(total)

    def by_code(self, arrivals: int) -> int:
        """These arrivals, or the count of the code if that is exact or smaller."""
        if self.is_exact:
            return self.count
        return min(arrivals, self.count) if self.count else arrivals

    def counted_turns(self) -> int:
        """The turns that the code makes if it makes just so many, without a last test; 0 if that is not known."""
        return self.count - (self.is_test_last and self.parts[0].tests_first) if self.is_exact else 0

    def exceeds(self, turns: Callable[[Site], int]) -> int:
        """The turns that the source states if the code makes more."""
        stated = turns(self.parts[0].site) if len(self.parts) == 1 and self.parts[0].site else 0
        return stated if 0 < stated < self.counted_turns() else 0

    def believed(self, turns: Callable[[Site], int]) -> int:
        """The turns that the source states if the code may make more, and may end earlier too."""
        stated = turns(self.parts[0].site) if len(self.parts) == 1 and self.parts[0].site else 0
        return stated if not self.is_exact and 0 < stated + self.parts[0].tests_first < self.most else 0


class Finder:
    """Finds the origins of a function's loops."""

    def __init__(self, program: Program, function: Function, lines: dict[int, Frames], sources: Sources,
                 counted: dict[int, Counted]) -> None:
        self.program, self.function, self.lines, self.sources = program, function, lines, sources
        self.counted = counted
        self.edges: Edges = function.edges
        self.before: Edges = turned(function.edges)
        self.above = dominators(function.entry, function.edges)
        self.known: dict[int, list[tuple[Site, int]]] = {}

    def origins(self, loops: list[Loop]) -> dict[int, Origin]:
        found: dict[int, Origin] = {}
        counts = Counts(self.program, self.function, loops)
        for loop in sorted(loops, key=lambda loop: len(loop.body)):
            inside = {head: origin.site() for head, origin in found.items() if origin.loop.body < loop.body}
            found[loop.head] = self.origin(loop, self.parts(loop, inside), counts)
        for inner, outer in [(found[loop.head], found[loop.parent.head]) for loop in loops if loop.parent]:
            inner_site, outer_site = inner.site(), outer.site()
            if inner_site and outer_site and not inner_site.is_inside(outer_site):
                inner.forget()
                outer.forget()
        return found

    def origin(self, loop: Loop, parts: list[Part], counts: Counts) -> Origin:
        """What is known of a loop: by following its code, otherwise by the form of its tests."""
        counted, count = self.counted.get(loop.head, Counted()), counts.count(loop)
        is_exact = count > 0 and counts.has_one_exit(loop)
        if counted.is_exact or is_exact and counted.most == count:
            return Origin(loop, parts, counted.most, True, counted.is_test_last, counted.most)
        return Origin(loop, parts, count, is_exact, most=min(filter(None, (count, counted.most)), default=0))

    def parts(self, loop: Loop, inside: dict[int, Site | None]) -> list[Part]:
        found: list[Part] = []
        for part in self.split(loop):
            sites: list[Site | None] = [*self.sites_of(part, loop.head, set(inside.values()))]
            for site in sites or [None]:
                latches = part.latches
                if found and found[-1].site == site:
                    latches += found.pop().latches
                found.append(Part(latches, part.body, part.own, site))
        for part in found:
            part.tests_first = self.tests_first(part, loop.head, inside)
        return found

    def split(self, loop: Loop) -> list[Part]:
        """The parts of a loop's back edges, each with the nodes that no inner loop and no smaller part has."""
        bodies = [(body_of(self.before, loop.head, [latch]), latch) for latch in loop.latches]
        parts: list[Part] = []
        inner = set[int]().union(*(child.body for child in loop.children))
        for body, latch in sorted(bodies, key=lambda pair: len(pair[0])):
            smaller = set[int]().union(*(part.body for part in parts if part.body < body))
            around = parts[-1].body if parts else frozenset[int]()
            parts.append(Part((latch,), body | around, set(body) - inner - smaller))
        return parts

    def sites(self, address: int) -> list[tuple[Site, int]]:
        """The loops of the source round an address, the innermost first, each with the line that is in it."""
        if address not in self.known:
            frames = self.lines.get(address, ())
            self.known[address] = [(Site(loop, frame.function, frames[k + 1:]), frame.line) for k, frame in enumerate(frames)
                                   for loop in self.sources.of(frame.path).loops if loop.has(frame.line)]
        return self.known[address]

    def sites_of(self, part: Part, head: int, taken: set[Site | None]) -> list[Site]:
        """The loops of the source that the turns of a part may be, the inner first: those whose test ends the turns and that
        have most of the nodes that are in loops, with those inside whose turns pass no such test; otherwise the innermost one that
        has all nodes but constants that were moved."""
        around = Counter(site for a in part.own for site in self.sites_at(a))
        in_loops = sum(bool(self.sites(a)) for a in part.own)
        tested = {site for a in part.own if self.is_deciding(a, part, head) for site in self.sites_at(a) if self.is_test(a, site)}
        fits = in_order([site for site in around if site in tested - taken and 2 * around[site] >= in_loops])
        if fits:
            return self.turning_inside(part, head, fits, taken) + fits
        with_lines = sum(bool(self.lines.get(a)) and not self.is_moved_here(a) for a in part.own)
        inner = in_order([site for site in around if around[site] == with_lines])[:1]
        return [site for site in inner if site not in taken]

    def turning_inside(self, part: Part, head: int, fits: list[Site], taken: set[Site | None]) -> list[Site]:
        """The loops of the source inside the given ones of which a turn leads to the head: a compiler may lead the turns of an
        inner and of an outer loop back by one jump."""
        tests = {a for a in part.body if any(self.is_test_branch(a, site) for site in fits)}
        tested = {site for a in part.own for site, _ in self.sites(a) if self.is_test_branch(a, site)}
        return in_order([site for site in tested - taken - set(fits)
                         if site.is_inside(fits[0]) and self.turns_round(part, head, site, fits[0], tests)])

    def turns_round(self, part: Part, head: int, inner: Site, outer: Site, tests: set[int]) -> bool:
        """Whether a way round to the head passes a test of the inner loop, and neither these tests of the outer one nor what is
        in the outer one alone."""
        outside = {a for a in part.body if outer in self.sites_at(a) and inner not in self.sites_at(a)}
        return any(a in part.own and self.is_test_branch(a, inner) for a in self.ways_round(part, head, (tests | outside) - {head}))

    def is_test_branch(self, a: int, site: Site) -> bool:
        return is_branch(self.program.word(a) or 0) and self.is_test(a, site)

    def is_moved_here(self, a: int) -> bool:
        """Whether the instruction makes a constant with a line that is in no loop: compilers make constants where they need them,
        and leave the line of the place where they were made first."""
        return not self.sites(a) and makes_constant(self.program.word(a) or 0)

    def sites_at(self, a: int) -> list[Site]:
        return [site for site, _ in self.sites(a)]

    def ways_round(self, part: Part, head: int, without: set[int]) -> set[int]:
        """The nodes on ways from the head back to it inside a part that pass none of some nodes."""
        inside = {a: [b for b in self.edges[a] if b in part.body and b not in without] for a in part.body - without}
        ahead = reached_from({a: [b for b in after if b != head] for a, after in inside.items()}, [head])
        back = turned(inside)
        behind = reached_from({a: [] if a == head else back[a] for a in back}, back[head])
        return ahead & behind

    def is_deciding(self, a: int, part: Part, head: int) -> bool:
        """Whether the instruction decides between another turn and the way out."""
        word = self.program.word(a)
        return word is not None and is_branch(word) and (head in self.edges[a] or any(b not in part.body for b in self.edges[a]))

    def tests_first(self, part: Part, head: int, inside: dict[int, Site | None]) -> bool:
        """Whether the head may be reached once more than the loop of the source turns: if it tests before it turns, and not
        all these tests are known to be after a turn or before the loop."""
        if part.site is None:
            return True
        if not part.site.loop.tests_first:
            return False
        tests = [a for a in part.body if self.is_test(a, part.site) and any(b not in part.body for b in self.edges[a])]
        if not tests or any(not self.is_at_end(a, part, head) for a in tests):
            return True
        inner = [a for a, site in inside.items() if a in part.body and site and site.is_inside(part.site)]
        return not self.is_tested_before(part, head) and not self.has_effect(part, tests, inner)

    def is_test(self, a: int, site: Site | None) -> bool:
        return any(around == site and line in around.loop.test for around, line in self.sites(a))

    def is_tested_before(self, part: Part, head: int) -> bool:
        """Whether every way to the loop passes a test of it before."""
        return any(a not in part.body and is_branch(self.program.word(a) or 0) and self.is_test(a, part.site)
                   and passes(self.above, head, a) for a in self.edges)

    def has_effect(self, part: Part, tests: list[int], inner: list[int]) -> bool:
        """Whether a store, a call or a loop of the loop's body, which cannot be made in advance, comes before each test."""
        made = [a for a in part.own if self.is_effect(a, part.site)] + inner
        return any(all(passes(self.above, test, a) for test in tests) for a in made)

    def is_effect(self, a: int, site: Site | None) -> bool:
        word, sites = self.program.word(a) or 0, self.sites(a)
        return (is_store(word) or is_call(word)) and sites[:1] != [] and sites[0][0] == site and sites[0][1] not in sites[0][0].loop.test

    def is_at_end(self, a: int, part: Part, head: int) -> bool:
        """Whether the way that stays in the loop leads straight to its head."""
        return all(self.leads_to(b, head) for b in self.edges[a] if b in part.body)

    def leads_to(self, a: int, head: int) -> bool:
        seen = set()
        while a != head and a not in seen:
            word = self.program.word(a)
            if word is None or not is_plain_jump(word) or len(self.edges[a]) != 1:
                return False
            seen.add(a)
            a = self.edges[a][0]
        return a == head


def in_order(sites: list[Site]) -> list[Site]:
    """Loops of the source, each inside the next one; none if some are not so."""
    ordered = sorted(sites, key=lambda site: sum(site.is_inside(other) for other in sites), reverse=True)
    return ordered if all(a.is_inside(b) for a, b in zip(ordered, ordered[1:])) else []
