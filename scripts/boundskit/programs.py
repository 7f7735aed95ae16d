"""Random C programs with loops of many kinds: counters in registers, in memory and in structures, with breaks and calls."""
from __future__ import annotations

import random
from dataclasses import dataclass, field

HEAD = """#include <stdint.h>
void *memcpy(void *to, const void *from, unsigned n)
{
    char *a = to;
    const char *b = from;
    while (n--)
        *a++ = *b++;
    return to;
}
struct pair { int32_t a, i; };
int32_t total = %d, values[8] = {3, 1, 4, 1, 5, 9, 2, 6};
int16_t table[8] = {1, 2, 3, 4, 5, 6, 7, 8};
__attribute__((noinline)) int32_t mixed(int32_t x, int32_t *at)
{
    at[x & 3] ^= x;
    return x / 3 + at[0];
}
__attribute__((noinline)) void bump(struct pair *pair)
{
    if (pair->a & 1)
        pair->i += (pair->a & 3) - 1;
    pair->a = pair->a * 5 + 3;
    if (pair->i < 0)
        pair->i = 0;
}
void job(void)
{
    int32_t local[4] = {1, 2, 3, 4};
    struct pair pair = {1, 0};
    %s
    total += local[1] + pair.a;
}
"""
DEEPEST = 3


@dataclass
class Writer:
    """Writes a program by random choices."""

    chance: random.Random
    names: list[str] = field(default_factory=lambda: ["total"])
    loops: int = 0
    can_continue: list[bool] = field(default_factory=list)

    def program(self) -> str:
        """A whole program."""
        parts = " ".join([self.block(0), self.loop(1), self.loop(1)])
        return HEAD % (self.chance.randint(0, 50), parts)

    def value(self) -> str:
        """An expression."""
        left = self.chance.choice([*self.names, str(self.chance.randint(0, 9))])
        return f"{left} {self.chance.choice('+^-*')} {self.chance.choice([*self.names, str(self.chance.randint(1, 9))])}"

    def block(self, depth: int) -> str:
        """Some statements."""
        return " ".join(self.statement(depth) for _ in range(self.chance.randint(1, 3)))

    def statement(self, depth: int) -> str:
        """A statement, which may be a loop."""
        pick = self.chance.randint(0, 9)
        plain = [f"total += {self.value()};", f"values[({self.value()}) & 7] = {self.value()};", f"local[({self.value()}) & 3] += {self.value()};",
                 f"total ^= mixed({self.chance.choice(self.names)}, {self.chance.choice(['local', 'values'])});",
                 f"if (values[{self.chance.randint(0, 7)}] > {self.chance.randint(0, 9)}) {{ total++; }} else {{ total -= 3; }}"]
        if pick < len(plain):
            return plain[pick]
        if pick == 5 and self.can_continue:
            way = self.chance.choice(["break", "continue"]) if self.can_continue[-1] else "break"
            return f"if (({self.value()}) == {self.chance.randint(0, 20)}) {way};"
        if pick == 6:
            return f"pair.a += {self.value()}; bump(&pair);"
        return self.loop(depth + 1) if depth < DEEPEST else "total++;"

    def body(self, depth: int, name: str, can_continue: bool) -> str:
        """The statements of a loop with a counter."""
        self.names.append(name)
        self.can_continue.append(can_continue)
        text = self.block(depth)
        self.names.remove(name)
        self.can_continue.pop()
        return text

    def loop(self, depth: int) -> str:
        """A loop of one of eight kinds."""
        self.loops += 1
        name, low = f"i{self.loops}", self.chance.randint(0, 5)
        high, kind = low + self.chance.randint(1, 9), self.chance.randint(0, 7)
        limit = f"({self.chance.choice(self.names[1:])} & 7)" if self.names[1:] and self.chance.random() < 0.3 else str(high)
        if kind == 6:
            return f"pair.i = {low}; for (; pair.i < {high}; pair.i++) {{ total += pair.i; {self.chance.choice(['bump(&pair);', ''])} if (pair.i > 40) break; }}"
        if kind == 7:
            return f"for (int16_t *{name} = table; {name} != table + {self.chance.randint(1, 8)}; {name}++) {{ total += *{name}; }}"
        body = self.body(depth, name, kind != 5)
        return (f"for (uint32_t {name} = {low}; {name} < {limit}; {name}++) {{ {body} }}",
                f"for (int32_t {name} = {high}; {name} > {low}; {name} -= {self.chance.randint(1, 3)}) {{ {body} }}",
                f"int32_t {name} = {high}; while ({name}-- > {low}) {{ {body} }}",
                f"for (uint32_t {name} = 1; {name} < {1 << self.chance.randint(1, 6)}; {name} <<= 1) {{ {body} }}",
                f"for (uint8_t {name} = {low}; {name} != {high}; {name}++) {{ {body} }}",
                f"uint32_t {name} = {low}; do {{ {body} }} while (++{name} < {limit} && {name} < 12);")[kind]


def program_of(seed: int) -> str:
    """The program of a number."""
    return Writer(random.Random(seed)).program()
