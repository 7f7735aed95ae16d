"""Claims: which block each cache set is said to hold, where; what that costs, and what is useful by it.

Each cache set is a matter of its own. Of a set, *fixed* says for some pieces which block it holds (or `NOTHING`) when the piece
begins, whatever comes before. At every other piece it holds what it holds on all edges towards the piece. An edge on which the
set does not come with the block that is fixed pays for a load.
"""
from __future__ import annotations

from collections.abc import Iterable
from dataclasses import dataclass
from functools import cached_property

from .pieces import TaskCode
from .potentials import Potentials, least_potentials

NOTHING, UNKNOWN = -1, -2
Fixed = dict[int, int]


@dataclass(frozen=True)
class Column:
    """Of one cache set: what it holds at each piece; pieces whose first visit misses; edges that pay; whether the start does."""

    states: list[int]
    missing: frozenset[int]
    paying: frozenset[tuple[int, int]]
    start: bool


@dataclass(frozen=True)
class Spread:
    """A block that pieces are said to hold where it comes on one edge at least; the first of them holds it in any case."""

    block: int
    head: int
    pieces: frozenset[int]


@dataclass(frozen=True)
class Step:
    """A visit: its cache set as a bit, whether it has several nodes, and whether it is a hit, if the piece alone says so."""

    own: int
    several: bool
    hit: bool | None


class Cache:
    """What the pieces of a task do to each cache set."""

    def __init__(self, code: TaskCode) -> None:
        self.code = code
        self.firsts: list[dict[int, int]] = []
        self.lasts: list[dict[int, int]] = []
        self.steps: list[list[Step]] = []
        for piece in code.pieces:
            first: dict[int, int] = {}
            last: dict[int, int] = {}
            self.steps.append([])
            for visit in piece.visits:
                hit = last[visit.own_set] == visit.block if visit.own_set in last else None
                self.steps[-1].append(Step(1 << visit.own_set, visit.nodes > 1, hit))
                first.setdefault(visit.own_set, visit.block)
                last[visit.own_set] = visit.block
            self.firsts.append(first)
            self.lasts.append(last)
        self.again = [sum(step.hit is False for step in steps) for steps in self.steps]
        self.touched = [sum(1 << own_set for own_set in firsts) for firsts in self.firsts]
        self.surely = 0
        for step in (step for steps in self.steps for step in steps if step.hit or step.several):
            self.surely |= step.own
        self.known: dict[tuple[int, tuple[tuple[int, int], ...]], Column] = {}

    @cached_property
    def blocks(self) -> dict[int, dict[int, set[int]]]:
        """For each cache set its blocks, and the pieces that visit them."""
        found: dict[int, dict[int, set[int]]] = {}
        for number, piece in enumerate(self.code.pieces):
            for visit in piece.visits:
                found.setdefault(visit.own_set, {}).setdefault(visit.block, set()).add(number)
        return found

    def after(self, own_set: int, piece: int, state: int) -> int:
        """What a set holds behind a piece."""
        return self.lasts[piece].get(own_set, state)

    def states(self, own_set: int, fixed: Fixed, spread: Spread | None = None) -> list[int]:
        """What a set holds at each piece."""
        states = [fixed.get(piece, UNKNOWN) for piece in range(len(self.code.pieces))]
        if spread:
            states[spread.head] = spread.block
        for _ in range(2 * len(states) + 2):
            old = list(states)
            for piece in range(len(states)):
                if piece not in fixed and not (spread and piece == spread.head):
                    states[piece] = self.met(own_set, piece, states, spread)
            if states == old:
                break
        return [NOTHING if state == UNKNOWN else state for state in states]

    def met(self, own_set: int, piece: int, states: list[int], spread: Spread | None) -> int:
        """What a set holds at a piece by the edges towards it."""
        coming = {self.after(own_set, before, states[before]) for before, _ in self.code.before[piece]}
        coming.discard(UNKNOWN)
        if spread and piece in spread.pieces and spread.block in coming:
            return spread.block
        if piece == self.code.first or len(coming) > 1:
            return NOTHING
        return coming.pop() if coming else UNKNOWN

    def column(self, own_set: int, fixed: Fixed) -> Column:
        """A set's column by what is fixed."""
        key = own_set, tuple(sorted(fixed.items()))
        if key not in self.known:
            self.known[key] = self.made(own_set, self.states(own_set, fixed))
        return self.known[key]

    def made(self, own_set: int, states: list[int]) -> Column:
        """The column of such states."""
        missing = {piece for piece, first in enumerate(self.firsts) if own_set in first and first[own_set] != states[piece]}
        paying = {(before, k) for piece, state in enumerate(states) if state != NOTHING
                  for before, k in self.code.before[piece] if self.after(own_set, before, states[before]) != state}
        return Column(states, frozenset(missing), frozenset(paying), states[self.code.first] != NOTHING)

    def spread(self, own_set: int, fixed: Fixed, spread: Spread) -> Fixed:
        """What is fixed if a block is spread, too: at its head and at the pieces where ways meet."""
        states = self.states(own_set, {piece: block for piece, block in fixed.items() if piece not in spread.pieces}, spread)
        there = {piece: spread.block for piece in spread.pieces
                 if states[piece] == spread.block and (piece == spread.head or len(self.code.before[piece]) > 1)}
        return {**{piece: block for piece, block in fixed.items() if piece not in spread.pieces}, **there}


@dataclass(frozen=True)
class Claims:
    """What is fixed of each cache set, with what follows from it."""

    cache: Cache
    fixed: tuple[tuple[int, tuple[tuple[int, int], ...]], ...] = ()

    @classmethod
    def of(cls, cache: Cache, fixed: dict[int, Fixed]) -> Claims:
        """The claims of what is fixed."""
        return cls(cache, tuple((own_set, tuple(sorted(of.items()))) for own_set, of in sorted(fixed.items()) if of))

    def fixings(self) -> dict[int, Fixed]:
        """What is fixed of each set."""
        return {own_set: dict(of) for own_set, of in self.fixed}

    def with_fixed(self, own_set: int, fixed: Fixed) -> Claims:
        """These claims with others of one set. The columns of all others stay."""
        found = Claims.of(self.cache, {**self.fixings(), own_set: fixed})
        found.__dict__["columns"] = {**self.columns, own_set: self.cache.column(own_set, fixed)}
        return found

    @cached_property
    def columns(self) -> dict[int, Column]:
        """The columns of all sets that the task visits or that are fixed somewhere."""
        fixings = self.fixings()
        return {own_set: self.cache.column(own_set, fixings.get(own_set, {})) for own_set in {*self.cache.blocks, *fixings}}

    @cached_property
    def paid(self) -> list[list[int]]:
        """For each edge of each piece the sets for which it pays, as bits."""
        paid = [[0] * len(edges) for edges in self.cache.code.flow.edges]
        for own_set, column in self.columns.items():
            for piece, k in column.paying:
                paid[piece][k] |= 1 << own_set
        return paid

    @cached_property
    def hitting(self) -> list[int]:
        """For each piece the sets whose first visit there is a hit, as bits."""
        found = [0] * len(self.cache.code.pieces)
        for piece, firsts in enumerate(self.cache.firsts):
            for own_set in firsts:
                if piece not in self.columns[own_set].missing:
                    found[piece] |= 1 << own_set
        return found

    @cached_property
    def started(self) -> int:
        """The sets for which the start pays, as bits."""
        return sum(1 << own_set for own_set, column in self.columns.items() if column.start)

    @cached_property
    def potentials(self) -> Potentials:
        """The potentials of the pieces and regions."""
        code, miss = self.cache.code, self.cache.code.platform.miss
        costs = []
        for piece, edges in enumerate(code.costs):
            loads = self.cache.again[piece] + len(self.cache.firsts[piece]) - self.hitting[piece].bit_count()
            costs.append([cost + miss * loads for cost in edges])
        return least_potentials(code.flow, costs, [[miss * paid.bit_count() for paid in out] for out in self.paid])

    @cached_property
    def bound(self) -> int:
        """The execution bound."""
        code = self.cache.code
        regions = [region for region in code.around[code.first]]
        item = self.potentials.regions[regions[0]] if regions else self.potentials.places[code.first]
        return item + code.platform.miss * self.started.bit_count()

    @cached_property
    def useful_at_pieces(self) -> list[int]:
        """The sets that are useful before each piece, as bits."""
        found, touched = list(self.hitting), self.cache.touched
        changed = True
        while changed:
            changed = False
            for piece in range(len(found) - 1, -1, -1):
                after = self.useful_behind(piece, found) & ~touched[piece] | self.hitting[piece]
                changed, found[piece] = changed or after != found[piece], after
        return found

    def useful_behind(self, piece: int, useful: list[int]) -> int:
        """The sets that are useful behind a piece, by those before the pieces that follow."""
        found = 0
        for edge, paid in zip(self.cache.code.flow.edges[piece], self.paid[piece]):
            found |= useful[edge.target] & ~paid
        return found

    @cached_property
    def useful_at_nodes(self) -> frozenset[int]:
        """The sets that are useful before a node, as bits, for all nodes."""
        found: set[int] = set()
        for piece, steps in enumerate(self.cache.steps):
            useful, hitting = self.useful_behind(piece, self.useful_at_pieces), self.hitting[piece]
            for step in reversed(steps):
                if step.several:
                    found.add(useful | step.own)
                hit = hitting & step.own if step.hit is None else step.hit
                useful = useful | step.own if hit else useful & ~step.own
                found.add(useful)
        return frozenset(found)

    def states_in(self, piece: int) -> Iterable[tuple[int, int]]:
        """What the sets hold at a piece."""
        return ((own_set, column.states[piece]) for own_set, column in self.columns.items() if column.states[piece] != NOTHING)

    @cached_property
    def useful(self) -> int:
        """The useful sets of the task, as bits."""
        found = self.cache.surely
        for hitting in self.hitting:
            found |= hitting
        return found


def evicted(cache: Cache) -> int:
    """The sets that a task fills, as bits."""
    return sum(1 << own_set for own_set in cache.blocks)


def plain(cache: Cache) -> Claims:
    """Nothing is fixed: the must analysis."""
    return Claims(cache)


def persistent(cache: Cache) -> Claims:
    """At the head of each region, each set of which the region visits one block alone holds that block."""
    fixed: dict[int, Fixed] = {}
    for region, head in enumerate(cache.code.flow.heads):
        inside = set(cache.code.members(region))
        for own_set, blocks in cache.blocks.items():
            there = [block for block, pieces in blocks.items() if pieces & inside]
            if len(there) == 1:
                fixed.setdefault(own_set, {})[head] = there[0]
    return Claims.of(cache, fixed)
