"""Flow graphs with as many nodes, calls and loops as there may be."""
from __future__ import annotations

from .parts import ADDI, ECALL, LONGEST_PERIOD, MOST_NODES, RETURN, Files, bne, elf, jal, loop, platform, task

BASE = 0x1000
# The nodes of `call_tree` with no instructions around its call.
CALL_NODES = 14343


def call_tree(before: int = 0, after: int = 0) -> list[int]:
    """Sixteen calls deep with as many nodes as there may be: four functions in a chain, then eleven that call the next twice.

    These are 14,343 nodes; that many instructions come before the first call, and after it.
    """
    first = [ADDI] * before + [jal(1, 4 * (after + 2))] + [ADDI] * after + [ECALL]
    chain, tree, leaf = [jal(1, 8), RETURN] * 4, [jal(1, 12), jal(1, 8), RETURN] * 11, [ADDI] * 3 + [RETURN]
    return first + chain + tree + leaf


def calls() -> Files:
    """The calls, with as many nodes as there may be."""
    text = platform(line=4, sets=512) + task(period=LONGEST_PERIOD)
    return {"set.toml": text, "one.elf": elf(call_tree(MOST_NODES - CALL_NODES))}


def around(head: int, end: int, bound: int = 1) -> str:
    """A loop with its head and its end given by their places in the program."""
    return loop(BASE + 4 * head, bound, BASE + 4 * end)


def nested(count: int, body: int, bound: int = 1) -> Files:
    """Loops, each round the next one; their heads follow each other."""
    words = [ADDI] * (count + body)
    for k in reversed(range(count)):
        words.append(bne(4 * (k - len(words))))
    own = "".join(around(k, 2 * count + body - k, bound) for k in range(count))
    return {"set.toml": platform(sets=512) + task(period=LONGEST_PERIOD, more=own), "one.elf": elf(words + [ECALL])}


def nested_calls() -> Files:
    """Sixty-four loops round a call, and the most nodes."""
    count = 64
    words = call_tree(count, count + MOST_NODES - CALL_NODES - 2 * count)
    for k in range(count):
        words[2 * count - k] = bne(4 * (k - (2 * count - k)))
    own = "".join(around(k, 2 * count + 1 - k) for k in range(count))
    return {"set.toml": platform(line=4, sets=512) + task(period=LONGEST_PERIOD, more=own), "one.elf": elf(words)}


def overlap() -> Files:
    """Thirty-two tasks of as many loops as nodes allow, each of which overlaps its neighbours, without any order."""
    words = ([ADDI] * 3 + [bne(-12), ADDI] * 8190)[:MOST_NODES - 1] + [ECALL]
    files: Files = {f"t{i}.elf": elf(words, 0x10000 * (i + 1)) for i in range(32)}
    files["set.toml"] = platform(sets=512) + "".join(task(f"t{i}", f"t{i}.elf", 20000000) for i in range(32))
    return files
