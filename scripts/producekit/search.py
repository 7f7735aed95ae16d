"""Searches for claims: from given ones on, by changes of one cache set at a time, as long as one of them is a gain."""
from __future__ import annotations

from collections.abc import Callable, Iterator
from dataclasses import dataclass

from .claims import NOTHING, Cache, Claims, Fixed, Spread

Score = tuple[int, ...]
Change = tuple[int, Fixed]
MOST_WORK = 400_000


@dataclass
class Work:
    """How much is left to be tried: pieces of code of which claims may still be made."""

    left: int = MOST_WORK

    def spend(self, claims: Claims) -> bool:
        """Whether claims may be tried."""
        self.left -= len(claims.cache.code.pieces)
        return self.left >= 0


def changes(claims: Claims) -> Iterator[Change]:
    """The claims next to some: of a region, then of a piece."""
    cache = claims.cache
    for own_set in sorted(cache.blocks):
        fixed = claims.fixings().get(own_set, {})
        for region, head in enumerate(cache.code.flow.heads):
            yield from ((own_set, it) for it in of_region(cache, own_set, fixed, region, head))
        yield from ((own_set, it) for it in of_pieces(claims, own_set, fixed))


def of_region(cache: Cache, own_set: int, fixed: Fixed, region: int, head: int) -> Iterator[Fixed]:
    """In a region a set holds one of the blocks that the region visits, or what comes, or nothing."""
    members = frozenset(cache.code.members(region))
    for block, pieces in sorted(cache.blocks[own_set].items()):
        if pieces & members:
            yield cache.spread(own_set, fixed, Spread(block, head, members))
            yield {**fixed, head: block}
    outside = {piece: block for piece, block in fixed.items() if piece not in members}
    yield outside
    yield {piece: block for piece, block in fixed.items() if piece != head}
    yield {**outside, **{piece: NOTHING for piece in members if own_set not in cache.firsts[piece]}}


def of_pieces(claims: Claims, own_set: int, fixed: Fixed) -> Iterator[Fixed]:
    """At a piece a set holds one of the blocks that come, or what comes on all edges, or nothing."""
    cache = claims.cache
    states = claims.columns[own_set].states
    for piece, before in enumerate(cache.code.before):
        if piece in fixed:
            yield {other: block for other, block in fixed.items() if other != piece}
        coming = {cache.after(own_set, u, states[u]) for u, _ in before}
        for block in sorted(coming | {NOTHING}):
            if fixed.get(piece, states[piece]) != block and (len(coming) > 1 or block == NOTHING):
                yield {**fixed, piece: block}


def improved(claims: Claims, score: Callable[[Claims], Score], work: Work) -> Claims:
    """Claims with the least score that changes of these lead to, each of them a gain."""
    best = score(claims)
    gained = True
    while gained:
        gained = False
        for own_set, fixed in changes(claims):
            if fixed == claims.fixings().get(own_set, {}):
                continue
            other = claims.with_fixed(own_set, fixed)
            if not work.spend(other):
                return claims
            found = score(other)
            if found < best:
                claims, best, gained = other, found, True
    return claims
