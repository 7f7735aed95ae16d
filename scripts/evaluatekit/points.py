"""The cache sets that are useful at each node of a kernel, recomputed from its code.

A node is an address with the calls that are under way. The kernels have branches, jumps, calls by
x1, returns, and instructions that continue at the next one.
"""
from collections.abc import Iterable

from commonkit.code import RETURN, branch_target, is_branch, is_call, is_jump, jump_target

from .kernels import Image

Node = tuple[tuple[int, ...], int]


def successors(image: Image, node: Node) -> list[Node]:
    """The nodes that may come next; none after the return that ends the job."""
    calls, at = node
    word = image.word(at)
    if word == RETURN:
        return [(calls[:-1], calls[-1] + 4)] if calls else []
    if is_branch(word):
        return [(calls, at + 4), (calls, branch_target(at, word))]
    if is_jump(word):
        return [((*calls, at) if is_call(word) else calls, jump_target(at, word))]
    return [(calls, at + 4)]


class Flow:
    """The flow graph of a kernel."""

    def __init__(self, image: Image, entry: int) -> None:
        self.first: Node = ((), entry)
        self.after: dict[Node, list[Node]] = {}
        todo: list[Node] = [self.first]
        while todo:
            node = todo.pop()
            if node not in self.after:
                self.after[node] = successors(image, node)
                todo += self.after[node]

    def code_bytes(self) -> int:
        """How many bytes of code it has."""
        return 4 * len({address for _, address in self.after})

    def evicting(self, line: int, sets: int) -> int:
        """The cache sets that its instructions fill."""
        filled = 0
        for _, address in self.after:
            filled |= 1 << address // line % sets
        return filled

    def cached(self, line: int, sets: int) -> dict[Node, dict[int, int]]:
        """The blocks that are cached before each node on all paths, by cache set."""
        found: dict[Node, dict[int, int]] = {self.first: {}}
        todo = [self.first]
        while todo:
            node = todo.pop()
            block = node[1] // line
            here = {**found[node], block % sets: block}
            for other in self.after[node]:
                old = found.get(other)
                new = here if old is None else {s: b for s, b in old.items() if here.get(s) == b}
                if new != old:
                    found[other] = dict(new)
                    todo.append(other)
        return found

    def useful(self, line: int, sets: int) -> dict[Node, int]:
        """The cache sets that are useful at each node: some path from there makes its next access
        to the set at a node if this is a hit on all paths."""
        cached = self.cached(line, sets)
        hits = {node for node in self.after
                if cached[node].get(node[1] // line % sets) == node[1] // line}
        found = dict.fromkeys(self.after, 0)
        changed = True
        while changed:
            changed = False
            for node in reversed(self.after):
                own = 1 << node[1] // line % sets
                later = 0
                for other in self.after[node]:
                    later |= found[other]
                here = later | own if node in hits else later & ~own
                if here != found[node]:
                    found[node], changed = here, True
        return found


def largest(points: Iterable[int]) -> tuple[int, ...]:
    """The sets that are in no other one, in increasing order."""
    found = set(points)
    return tuple(sorted(one for one in found
                        if not any(one != other and one & other == one for other in found)))
