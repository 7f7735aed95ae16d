"""Numbers of C: constant expressions, and how often a `for` turns by its header."""
from __future__ import annotations

import ast
import operator
import re
from collections.abc import Callable
from dataclasses import dataclass

MOST = 1_000_000  # the largest bound
Lookup = Callable[[str], "int | None"]

NUMBER = re.compile(r"\b(0[xX][0-9a-fA-F]+|\d+)(?:[uU]?[lL]{0,2}|[lL]{1,2}[uU]?)\b")
OPERATORS: dict[type, Callable[[int, int], int]] = {
    ast.Add: operator.add, ast.Sub: operator.sub, ast.Mult: operator.mul, ast.LShift: lambda a, b: a << min(b, 64),
    ast.RShift: operator.rshift, ast.BitAnd: operator.and_, ast.BitOr: operator.or_, ast.BitXor: operator.xor,
    ast.Div: lambda a, b: abs(a) // abs(b) * (-1 if (a < 0) != (b < 0) else 1), ast.Mod: lambda a, b: abs(a) % abs(b) * (-1 if a < 0 else 1)}
COMPARE: dict[str, Callable[[int, int], bool]] = {
    "<": operator.lt, "<=": operator.le, ">": operator.gt, ">=": operator.ge, "!=": operator.ne}
MIRRORED = {"<": ">", "<=": ">=", ">": "<", ">=": "<=", "!=": "!="}
STEPS: dict[str, Callable[[int, int], int]] = {
    "+": operator.add, "-": operator.sub, "*": operator.mul, "/": lambda a, b: a // b if a >= 0 < b else a, "<<": lambda a, b: a << min(b, 64),
    ">>": operator.rshift}
TEST = re.compile(r"\s*(.+?)\s*(<=|>=|!=|<(?!<)|>(?!>))\s*(.+?)\s*$", re.S)
COUNTER = re.compile(r"(\+\+|--)?\s*([A-Za-z_]\w*)\s*(\+\+|--)?")
CHANGE = r"(?:\+\+|--|(?:[-+*/%&|^]|<<|>>)?=(?!=))"


def evaluated(text: str, lookup: Lookup) -> int | None:
    """The number that an expression has, None if that is not known."""
    try:
        plain = NUMBER.sub(lambda found: str(int(found[1], 0 if found[1][:2] in ("0x", "0X") else 8 if found[1][0] == "0" else 10)), text)
        return computed(ast.parse(plain.strip(), mode="eval").body, lookup)
    except (SyntaxError, ValueError, ArithmeticError, RecursionError, MemoryError):
        return None


def computed(node: ast.expr, lookup: Lookup) -> int | None:
    """The number of a part of an expression."""
    match node:
        case ast.Constant(int(value)):
            return value
        case ast.Name(name):
            return lookup(name)
        case ast.UnaryOp(ast.USub(), inner):
            negated = computed(inner, lookup)
            return None if negated is None else -negated
        case ast.UnaryOp(ast.UAdd(), inner):
            return computed(inner, lookup)
        case ast.BinOp(left, kind, right) if type(kind) in OPERATORS:
            a, b = computed(left, lookup), computed(right, lookup)
            return None if a is None or b is None else OPERATORS[type(kind)](a, b)
    return None


@dataclass(frozen=True)
class Told:
    """How often a loop turns by its header, and whether it may end earlier."""

    turns: int
    may_end_earlier: bool


@dataclass(frozen=True)
class Counter:
    """A name that a test compares with a number: what the test does to it before it compares, if anything, and what is
    compared how."""

    name: str
    limit: str
    sign: str
    change: str = ""


def counter_of(test: str) -> list[Counter]:
    """What a comparison may count: either of its sides; a name alone is compared with 0."""
    text = re.sub(r"\s+", " ", test).strip()
    while text.startswith("(") and text.endswith(")") and text.count("(") == 1:
        text = text[1:-1].strip()
    parts = TEST.match(text)
    sides = [(parts[1], parts[3], parts[2]), (parts[3], parts[1], MIRRORED[parts[2]])] if parts else [(text, "0", "!=")]
    found = [(COUNTER.fullmatch(side), limit, sign) for side, limit, sign in sides]
    return [Counter(it[2], limit, sign, it[1] or it[3] or "") for it, limit, sign in found if it]


@dataclass(frozen=True)
class Header:
    """What decides how often a loop turns, as texts without comments: what comes before it, its test, its step (empty but in a
    `for`), and its body; and whether it turns before it tests."""

    first: str
    test: str
    step: str
    body: str
    turns_first: bool = False

    def turns(self, lookup: Lookup) -> Told | None:
        """How often the loop turns; None if its header does not show that."""
        if "||" in self.test or "?" in self.test:
            return None
        tests = self.test.split("&&")
        found = [count for test in tests for counter in counter_of(test) if (count := self.counted_by(counter, lookup)) is not None]
        if not found:
            return None
        early = len(tests) > 1 or re.search(r"\b(?:break|return|goto)\b", self.body) is not None
        return Told(min(found), early)

    def counted_by(self, counter: Counter, lookup: Lookup) -> int | None:
        """The turns by a name that is compared with a number."""
        start, limit, step = self.start_of(counter.name, lookup), evaluated(counter.limit, lookup), self.one_step(counter, lookup)
        if start is None or limit is None or step is None:
            return None
        if self.turns_first or re.match(r"\+\+|--", self.test.strip(" (")) and counter.change:
            more = counted(step(start), limit, COMPARE[counter.sign], step)
            return None if more is None else more + self.turns_first
        return counted(start, limit, COMPARE[counter.sign], step)

    def one_step(self, counter: Counter, lookup: Lookup) -> Callable[[int], int] | None:
        """What a turn does to a name, if it is changed in one place: in the test, in the step, or by a statement of the body
        that is in no other."""
        name = counter.name
        changed = re.compile(rf"\b{name}\s*{CHANGE}|(?:\+\+|--|&)\s*{name}\b")
        places = [len(changed.findall(text)) for text in (self.test, self.step, self.body)]
        if sum(places) != 1:
            return None
        if counter.change:
            return (lambda value: value + 1) if counter.change == "++" else (lambda value: value - 1)
        if places[1]:
            return next((step for part in self.step.split(",") if (step := step_of(part, name, lookup))), None)
        if places[2] and not re.search(r"\b(?:continue|goto)\b", self.body):
            return next((step for part in statements(self.body) if (step := step_of(part, name, lookup))), None)
        return None

    def start_of(self, name: str, lookup: Lookup) -> int | None:
        """The number that a name has before the loop: what it was given last, unless a block ended since."""
        found = list(re.finditer(rf"(?<![\w.>\]]){name}\s*{CHANGE}([^,;]*)", self.first))
        if not found or "}" in self.first[found[-1].end():] or not re.match(rf"{name}\s*=", found[-1][0]):
            return None
        return evaluated(found[-1][1], lookup)


def statements(body: str) -> list[str]:
    """The statements of a body that are in no other one, as far as they are plain: what follows a bracket or a semicolon."""
    inner = body.strip()
    inner = inner[1:-1] if inner.startswith("{") and inner.endswith("}") else inner
    depth, found, start = 0, [], 0
    for at, mark in enumerate(inner):
        depth += (mark == "{") - (mark == "}")
        if mark in "{};":
            if mark == ";" and depth == 0:
                found.append(inner[start:at])
            start = at + 1
    return found


def step_of(part: str, name: str, lookup: Lookup) -> Callable[[int], int] | None:
    """What a statement does to a name, None if it is none of these."""
    text = re.sub(r"\s+", "", part)
    if text in (f"{name}++", f"++{name}"):
        return lambda value: value + 1
    if text in (f"{name}--", f"--{name}"):
        return lambda value: value - 1
    found = re.fullmatch(rf"{name}(?:(\+|-|\*|/|<<|>>)=|={name}(\+|-|\*|/|<<|>>))(.+)", text)
    by = evaluated(found[3], lookup) if found else None
    if not found or by is None:
        return None
    sign, number = found[1] or found[2], by
    return lambda value: STEPS[sign](value, number)


def counted(value: int, limit: int, compare: Callable[[int, int], bool], step: Callable[[int], int]) -> int | None:
    """The turns from a start to a limit; None if there are too many, or if numbers leave 32 bits."""
    for turns in range(MOST + 1):
        if not compare(value, limit):
            return turns
        value = step(value)
        if not -(1 << 31) <= value < 1 << 32:
            return None
    return None
