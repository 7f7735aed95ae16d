"""Long texts: sets of 16 MB, and certificates of 128 MB."""
from __future__ import annotations

from .parts import ADDI, CERTIFICATE, ECALL, FILE, LONGEST_PERIOD, MOST_NODES, SMALL_SET, Files, bne, elf, platform, task


def padded(text: str, size: int) -> str:
    """The text with a comment up to the size."""
    return text + "#" + " " * (size - len(text) - 2) + "\n"


def deep(opening: str, middle: str, closing: str, size: int, before: str = "") -> str:
    """A text in as many brackets as the size allows."""
    count = (size - len(before) - len(middle)) // (len(opening) + len(closing))
    return before + opening * count + middle + closing * count


def many(line: str, size: int, before: str = "") -> str:
    """Lines of a number each, up to the size."""
    out, number, left = [before], 0, size - len(before)
    while True:
        text = line.format(i=number)
        if len(text) > left:
            return "".join(out)
        out.append(text)
        left -= len(text)
        number += 1


def long_name() -> str:
    """A set whose task has a name that fills it."""
    return SMALL_SET.replace('"one"', '"' + "a" * (FILE - 400) + '"')


def long_number() -> str:
    """A set with a number of as many digits as there may be."""
    return SMALL_SET.replace("line = 16", "line = " + "1" * (FILE - 400))


def ranges(pairs: int, nodes: int = 4) -> Files:
    """A loop of that many pairs of places, in a program of that many nodes."""
    words = [ADDI] * (nodes - 2) + [bne(-4), ECALL]
    last = 0x1000 + 4 * (len(words) - 2)
    own = f"[[task.loop]]\nhead = {last}\nbound = 3\nrange = ["
    own += f"[{last}, {last}]" + ",[0,0]" * pairs + "]\n"
    words[-2] = bne(0)
    return {"set.toml": platform(sets=512) + task(period=LONGEST_PERIOD, more=own), "one.elf": elf(words)}


def all_nodes() -> str:
    """A certificate of thirty-two tasks of 16,384 nodes, all of them listed, with as many entries as may be."""
    head = '{"platform":{"data":3,"div":0,"hit":1,"line":16,"miss":10,"mul":0,"sets":4,"switch":5,"switching":"cycle","taken":2},"tasks":['
    sure = ",".join(f"{s},4294967295" for s in range(505, 512))
    states = ",".join(f"[{node},[{sure}],[]]" for node in range(MOST_NODES))
    numbers = ",".join([str(LONGEST_PERIOD)] * MOST_NODES)
    parts = []
    for i in range(32):
        name = "one" if i == 0 else f"t{i}"
        parts.append(
            f'{{"bound":12,"evicting":[0],"loops":[{numbers}],"method":"ucb","name":"{name}","potentials":[{numbers}],'
            f'"response":17,"states":[{states}],"useful":[0],"window":17}}'
        )
    return head + ",".join(parts) + '],"version":2}'


def many_keys() -> str:
    """A certificate of unknown keys before its version."""
    return many('"{i}":0,', CERTIFICATE - 20, "{") + '"version":2}'
