"""The loops of C sources with the bounds that are in comments."""
from __future__ import annotations

import re
from dataclasses import dataclass, field, replace
from pathlib import Path

from .expressions import MOST, Header, Lookup, Told, evaluated

KEYWORDS = ("for", "while", "do", "if", "else", "switch")
TOKEN = re.compile(r"""
    (?P<comment>   /\*.*?\*/ | //[^\n]*) |
    (?P<text>      "(?:\\.|[^"\\\n])*" | '(?:\\.|[^'\\\n])*') |
    (?P<directive> ^[ \t]*\#(?:\\\n|[^\n])*) |
    (?P<word>      [A-Za-z_]\w*) |
    (?P<mark>      [(){};]) |
    (?P<space>     \s+) |
    (?P<other>     .)""", re.S | re.M | re.X)
BOUND = re.compile(r"(?:/\*|//)[\s*]*bound\b([^\n]*)")
NUMBER, NAME, FOR_TASK = re.compile(r"\d+"), re.compile(r"[A-Za-z_]\w*"), re.compile(r"([\w.-]+)=(\w+)")
INCLUDE = re.compile(r'^[ \t]*#[ \t]*include[ \t]*"([^"\n]+)"', re.M)
DEFINE = re.compile(r"^[ \t]*#[ \t]*define[ \t]+(\w+)[ \t]+([^\n]*?)[ \t]*(?:/\*.*|//.*)?$", re.M)
ENUM = re.compile(r"\benum\b\s*\w*\s*\{([^}]*)\}")
FORM = "write `bound 24`, or `bound 24 name=8` for a task of that name"


@dataclass(frozen=True)
class Bound:
    """The turns that a comment states: for all tasks, and for some of them by name."""

    turns: int
    by_task: tuple[tuple[str, int], ...] = ()

    def of(self, names: tuple[str, ...]) -> int:
        """The turns for a task of these names, 0 if none are stated."""
        stated = dict(self.by_task)
        return next((stated[name] for name in names if name in stated), self.turns)


@dataclass(frozen=True)
class SourceLoop:
    """A loop of a source: its first and last line, the lines of its head, and those of its test; whether a test comes before
    the first turn."""

    path: str
    first: int
    last: int
    head: frozenset[int]
    test: frozenset[int]
    tests_first: bool
    bound: Bound | None = None
    header: Header | None = field(default=None, compare=False)

    def place(self) -> str:
        return f"{Path(self.path).name}:{self.first}"

    def has(self, line: int) -> bool:
        return self.first <= line <= self.last


@dataclass
class Source:
    """A source's loops, the inner ones first, what is wrong with its comments, and its constants by name, each with the texts of
    its values."""

    loops: list[SourceLoop] = field(default_factory=list)
    faults: list[str] = field(default_factory=list)
    constants: dict[str, set[str]] = field(default_factory=dict)


@dataclass(frozen=True)
class Token:
    """A word or a bracket, and where it is."""

    text: str
    line: int
    at: int


@dataclass(frozen=True)
class Comment:
    """What a comment says after the word `bound`; its line, and whether no code is on that."""

    text: str
    line: int
    is_alone: bool


@dataclass
class Scanned:
    """The tokens of which loops consist, the comments that begin with `bound`, the lines with code, and the text with spaces instead
    of comments, texts and directives."""

    tokens: list[Token]
    comments: list[Comment]
    code_lines: list[int]
    plain: str


class NotUnderstood(Exception):
    """A bound comment that is not understood."""


def bound_of(text: str, lookup: Lookup) -> Bound:
    """The bound that a comment states after its first word; `NotUnderstood` if it states none in the form."""
    words = [word for word in re.split(r"[\s,]+", text.strip().removesuffix("*/")) if word]
    if text[:1] not in (" ", "\t", ",") or not words:
        raise NotUnderstood(FORM)
    turns, by_task = 0, []
    for k, word in enumerate(words):
        pair = FOR_TASK.fullmatch(word)
        if pair:
            by_task.append((pair[1], number_of(pair[2], lookup)))
        elif turns == 0 and not by_task and k == 0:
            turns = number_of(word, lookup)
        elif NUMBER.fullmatch(word) and k == 1:
            raise NotUnderstood(f"it has two numbers: {FORM}")
        elif "=" in "".join(words[k:]):
            raise NotUnderstood(f"`{word}` is in the way: {FORM}")
        else:
            break
    return Bound(turns, tuple(by_task))


def number_of(word: str, lookup: Lookup) -> int:
    """The turns that a word states."""
    if NUMBER.fullmatch(word) and (word == "0" or word[0] != "0"):
        value: int | None = int(word) if len(word) < 20 else MOST + 1
    elif NAME.fullmatch(word):
        value = lookup(word)
        if value is None:
            raise NotUnderstood(f"the debug data have no constant {word} of one value: compile with -g3, or write the number")
    else:
        raise NotUnderstood(FORM)
    if value is None or not 1 <= value <= MOST:
        raise NotUnderstood(f"a bound is 1 to {MOST}, and this one is {value}")
    return value


def read_source(path: str, text: str, lookup: Lookup) -> Source:
    """The loops of a source; `lookup` has the constants that comments may name."""
    scanned = scan(text)
    constants = constants_of(text, scanned.plain)
    try:
        loops = LoopFinder(scanned, path).loops()
    except IndexError:
        return Source(faults=[f"{path}: its brackets do not match, so none of its loops is found"], constants=constants)
    source = give_bounds(path, loops, scanned, lookup)
    source.constants = constants
    return source


def constants_of(text: str, plain: str) -> dict[str, set[str]]:
    """The macros without arguments and the enumerators of a source."""
    found: dict[str, set[str]] = {}
    for name, value in DEFINE.findall(text):
        found.setdefault(name, set()).add(value)
    for listed in ENUM.findall(plain):
        base, more = "-1", 1
        for entry in filter(str.strip, listed.split(",")):
            name, has_value, value = (part.strip() for part in entry.partition("="))
            base, more = (value, 0) if has_value else (base, more)
            found.setdefault(name, set()).add(f"({base})+{more}")
            more += 1
    return found


def scan(text: str) -> Scanned:
    """Takes a source apart."""
    tokens, comments, code_lines, line, plain = [], [], set(), 1, []
    for found in TOKEN.finditer(text):
        kind, word = found.lastgroup, found[0]
        if kind == "comment":
            bound = BOUND.match(word)
            if bound:
                comments.append((line, bound[1]))
        elif kind in ("word", "mark", "other", "text"):
            code_lines.add(line)
            if kind == "mark" or word in KEYWORDS:
                tokens.append(Token(word, line, found.start()))
        plain.append(word if kind not in ("comment", "directive", "text") else re.sub(r"[^\n]", " ", word))
        line += word.count("\n")
    return Scanned(tokens, [Comment(said, at, at not in code_lines) for at, said in comments], sorted(code_lines), "".join(plain))


class LoopFinder:
    """Finds the loops among tokens. An IndexError says that brackets do not match."""

    def __init__(self, scanned: Scanned, path: str) -> None:
        self.tokens, self.plain, self.path = scanned.tokens, scanned.plain, path
        self.partner = self.match()
        self.tails: set[int] = set()

    def match(self) -> dict[int, int]:
        partner, stack = {}, []
        for k, token in enumerate(self.tokens):
            if token.text in "({":
                stack.append(k)
            elif token.text in ")}":
                partner[stack.pop()] = k
        if stack:
            raise IndexError
        return partner

    def is_at(self, k: int, text: str) -> bool:
        return k < len(self.tokens) and self.tokens[k].text == text

    def end(self, k: int) -> int:
        """The last token of the statement that begins at a token."""
        text = self.tokens[k].text
        if text == "{":
            return self.partner[k]
        if text in ("for", "while", "switch", "if") and self.is_at(k + 1, "("):
            last = self.end(self.partner[k + 1] + 1)
            return self.end(last + 2) if text == "if" and self.is_at(last + 1, "else") else last
        if text == "do":
            return self.partner[self.tail(k) + 1] + 1
        while self.tokens[k].text not in ";}":
            k = self.partner.get(k, k) + 1
        return k

    def tail(self, k: int) -> int:
        """The `while` of a `do`."""
        return self.end(k + 1) + 1

    def loops(self) -> list[SourceLoop]:
        found = []
        for k, token in enumerate(self.tokens):
            if token.text == "do":
                self.tails.add(self.tail(k))
                found.append(self.loop(k, self.tail(k)))
            elif token.text in ("for", "while") and k not in self.tails and self.is_at(k + 1, "("):
                found.append(self.loop(k, k))
        return found

    def loop(self, k: int, test: int) -> SourceLoop:
        first = self.tokens[k].line
        lines = frozenset(range(self.tokens[test].line, self.tokens[self.partner[test + 1]].line + 1))
        return SourceLoop(self.path, first, self.tokens[self.end(k)].line, lines | {first}, lines, test == k and self.has_test(k),
                          header=self.header(k, test))

    def between(self, k: int) -> list[str]:
        """The parts of what is in the brackets after a token."""
        return self.plain[self.tokens[k + 1].at + 1:self.tokens[self.partner[k + 1]].at].split(";")

    def header(self, k: int, test: int) -> Header | None:
        """What decides how often the loop at a token turns, whose test follows another one."""
        parts, before = self.between(test), self.plain[self.tokens[self.block_of(k)].at:self.tokens[k].at]
        if self.tokens[k].text == "do":
            return Header(before, parts[0], "", self.plain[self.tokens[k].at + 2:self.tokens[test].at], turns_first=True)
        body = self.plain[self.tokens[self.partner[k + 1]].at + 1:self.tokens[self.end(k)].at + 1]
        if self.tokens[k].text == "while":
            return Header(before, parts[0], "", body)
        return Header(parts[0], parts[1], parts[2], body) if len(parts) == 3 else None

    def block_of(self, k: int) -> int:
        """The token that opens the block round a token."""
        return max((at for at, end in self.partner.items() if at < k < end and self.tokens[at].text == "{"), default=0)

    def has_test(self, k: int) -> bool:
        """Whether a `for` or a `while` can end by its test: that of `for (;;)` and that of `while (1)` cannot."""
        parts = self.between(k)
        if self.tokens[k].text == "while":
            return parts[0].strip() not in ("1", "true")
        return len(parts) < 3 or parts[1].strip() != ""


def give_bounds(path: str, loops: list[SourceLoop], scanned: Scanned, lookup: Lookup) -> Source:
    """Gives loops the bounds of the comments on their lines."""
    source, by_loop = Source(), {}
    for comment in scanned.comments:
        at = next((code for code in scanned.code_lines if code > comment.line), comment.line) if comment.is_alone else comment.line
        meant = [k for k, loop in enumerate(loops) if at in loop.head]
        place = f"{Path(path).name}:{comment.line}"
        if not meant and not re.match(r"[\s:=,]*\d", comment.text):
            continue
        try:
            bound = bound_of(comment.text, lookup)
        except NotUnderstood as fault:
            said = "bound" + comment.text.rstrip().removesuffix("*/").rstrip()
            source.faults.append(f"{place}: the comment `{said}` is not understood: {fault}")
            continue
        if len(meant) == 1:
            by_loop[meant[0]] = bound
        else:
            why = "no loop's line" if not meant else "the line of several loops: write each on a separate line"
            source.faults.append(f"{place}: the bound is on {why}")
    for k, loop in enumerate(loops):
        source.loops.append(replace(loop, bound=by_loop.get(k)))
    source.loops.sort(key=lambda loop: (loop.last - loop.first, loop.first))
    return source


class Sources:
    """The sources of an ELF file, each read once; if one is not at its path, next to the ELF file. `lookup` has the constants of
    the debug data."""

    def __init__(self, beside: Path, lookup: Lookup) -> None:
        self.beside, self.lookup = beside, lookup
        self.known: dict[str, Source] = {}
        self.missing: list[str] = []
        self.told: dict[SourceLoop, Told | None] = {}

    def of(self, path: str) -> Source:
        if path not in self.known:
            self.known[path] = self.read(path)
        return self.known[path]

    def place(self, path: str) -> Path | None:
        """Where a source is."""
        return next((place for place in (Path(path), self.beside / Path(path).name) if place.is_file()), None)

    def read(self, path: str) -> Source:
        place = self.place(path)
        if place is None:
            self.missing.append(path)
            return Source()
        text = place.read_text(encoding="utf-8", errors="replace")
        found = read_source(path, text, self.lookup)
        for name in INCLUDE.findall(text):
            if name not in path:
                inner = self.of(str(place.parent / name)) if (place.parent / name).is_file() else Source()
                for constant, values in inner.constants.items():
                    found.constants.setdefault(constant, set()).update(values)
        return found

    def is_too_few(self, loop: SourceLoop, stated: int) -> bool:
        """Whether the header of a loop shows more turns than are stated."""
        told = self.turns(loop)
        return told is not None and 0 < stated < told.turns

    def bounds(self) -> list[tuple[SourceLoop, int, Told]]:
        """The loops whose comments state fewer turns than their headers show, each with the least number stated."""
        loops = [loop for source in self.known.values() for loop in source.loops if loop.bound]
        stated = [(loop, min(filter(None, (loop.bound.turns, *(turns for _, turns in loop.bound.by_task))), default=0))
                  for loop in loops if loop.bound]
        return [(loop, turns, told) for loop, turns in stated if (told := self.turns(loop)) and self.is_too_few(loop, turns)]

    def faults(self) -> list[str]:
        return list(dict.fromkeys(fault for source in self.known.values() for fault in source.faults))

    def constant(self, path: str, name: str, depth: int = 0) -> int | None:
        """The number of a constant: that of the debug data, otherwise of the source and what it includes, if it has one value."""
        value = self.lookup(name)
        if value is not None or depth > 20:
            return value
        texts = self.of(path).constants.get(name, set())
        return evaluated(next(iter(texts)), lambda inner: self.constant(path, inner, depth + 1)) if len(texts) == 1 else None

    def turns(self, loop: SourceLoop) -> Told | None:
        """How often a loop turns by its header."""
        if loop not in self.told:
            self.told[loop] = loop.header.turns(lambda name: self.constant(loop.path, name)) if loop.header else None
        return self.told[loop]
