"""Where functions are placed: their order, and at which word of a line each begins."""
from __future__ import annotations

import random
from dataclasses import dataclass, replace
from typing import Protocol

WORD = 4
MOVES_AT_ONCE = (1, 1, 1, 2, 2, 3)
FREE_LINES = 0.15  # the share of functions before which a line is left free

Names = tuple[str, ...]


@dataclass(frozen=True)
class Function:
    """Code that is linked as a whole: the names of its symbols, the address of the first one, and the sizes of all."""

    names: Names
    address: int
    sizes: tuple[int, ...]

    @property
    def name(self) -> str:
        """The first of its names."""
        return self.names[0]

    @property
    def end(self) -> int:
        """The address after it."""
        return self.address + max(self.sizes)


@dataclass(frozen=True)
class Placed:
    """A function in its place: at a word of a line, the next one of that number after the function before it and some lines."""

    names: Names
    word: int = 0
    lines: int = 0


Placement = tuple[Placed, ...]


def placement_of(functions: list[Function], line: int) -> Placement:
    """The placement of linked functions: their order, with each at the same word of a line."""
    ordered = sorted(functions, key=lambda function: function.address)
    return tuple(Placed(function.names, function.address % line // WORD) for function in ordered)


def aligned(placement: Placement) -> Placement:
    """The same order with each function at the beginning of a line."""
    return tuple(replace(placed, word=0) for placed in placement)


def place_in(order: list[Placed], names: Names) -> int:
    """Where a function is in an order."""
    return next(k for k, placed in enumerate(order) if placed.names == names)


class Move(Protocol):
    """A change of a placement that does not depend on where its functions are, so that several can be made in sequence."""

    def make(self, order: list[Placed]) -> None:
        """Makes the change."""


@dataclass(frozen=True)
class Swap:
    """Two functions change places."""

    one: Names
    two: Names

    def make(self, order: list[Placed]) -> None:
        """Makes the change."""
        a, b = place_in(order, self.one), place_in(order, self.two)
        order[a], order[b] = order[b], order[a]


@dataclass(frozen=True)
class Shift:
    """The functions from one to another go before a third one, or to the end if that is one of them."""

    first: Names
    last: Names
    before: Names

    def make(self, order: list[Placed]) -> None:
        """Makes the change."""
        low, high = sorted((place_in(order, self.first), place_in(order, self.last)))
        block = order[low:high + 1]
        del order[low:high + 1]
        to = len(order) if any(placed.names == self.before for placed in block) else place_in(order, self.before)
        order[to:to] = block


@dataclass(frozen=True)
class Begin:
    """A function begins at another word of a line, behind that many free lines."""

    function: Names
    word: int
    lines: int

    def make(self, order: list[Placed]) -> None:
        """Makes the change."""
        order[place_in(order, self.function)] = Placed(self.function, self.word, self.lines)


Change = tuple[Move, ...]


def changed(placement: Placement, change: Change) -> Placement:
    """The placement after some moves."""
    order = list(placement)
    for move in change:
        move.make(order)
    return tuple(order)


@dataclass(frozen=True)
class Mover:
    """Makes changes by random numbers. A change of the order leaves all functions at their words of a line, since the bounds of
    tasks depend on these."""

    line_words: int
    random: random.Random

    def change(self, placement: Placement, count: int = 0) -> Change:
        """That many moves, or one to three."""
        makers = (self.swap, self.shift_one, self.shift, self.begin, self.begin, self.begin)
        return tuple(self.random.choice(makers)(placement) for _ in range(count or self.random.choice(MOVES_AT_ONCE)))

    def shuffled(self, placement: Placement) -> Placement:
        """The same functions in any order, at the same words."""
        return tuple(self.random.sample(placement, len(placement)))

    def scattered(self, placement: Placement) -> Placement:
        """The same functions in any order, at any words."""
        return tuple(replace(placed, word=self.random.randrange(self.line_words)) for placed in self.shuffled(placement))

    def starts(self, placement: Placement) -> list[Placement]:
        """Placements from which a search may begin: the given one, one at beginnings of lines, and both in other orders."""
        both = [placement, aligned(placement)]
        return [*both, *map(self.shuffled, both * 2), self.scattered(placement), self.scattered(placement)]

    def any(self, placement: Placement) -> Names:
        """Any function."""
        return self.random.choice(placement).names

    def swap(self, placement: Placement) -> Move:
        """Any two functions change places."""
        return Swap(self.any(placement), self.any(placement))

    def shift_one(self, placement: Placement) -> Move:
        """Any function goes to another place."""
        one = self.any(placement)
        return Shift(one, one, self.any(placement))

    def shift(self, placement: Placement) -> Move:
        """Any functions in sequence go to another place."""
        return Shift(self.any(placement), self.any(placement), self.any(placement))

    def begin(self, placement: Placement) -> Move:
        """Any function begins at any word of a line; seldom a line is left free before it."""
        lines = 1 if self.random.random() < FREE_LINES else 0
        return Begin(self.any(placement), self.random.randrange(self.line_words), lines)
