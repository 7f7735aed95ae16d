"""The inputs by their names, each with its commands and what they must write."""
from __future__ import annotations

from collections.abc import Callable
from dataclasses import dataclass

from . import files, graphs, loads, texts
from .parts import CERTIFICATE, FILE, SMALL_SET, Files, job, platform, with_certificate, with_file, with_script, with_set
from .texts import deep, many, padded

ANALYZE = "analyze set.toml"
CHECK = "check set.toml cert.json"
SIMULATE = "simulate set.toml script.toml"
LIST = "list set.toml one"
SETS = "sets set.toml"
SLACK = "slack set.toml"
REFINE = "refine set.toml"
CLASSIC = "classic set.toml"
UPDATE = "update set.toml cert.json set.toml"
EXPLAIN = "explain set.toml cert.json script.toml"

ANY_LINE = "-"  # as a first line that is wanted


@dataclass(frozen=True)
class Call:
    """A command with the status that it must have, and its first line."""

    words: str
    status: int = 0
    line: str = ANY_LINE

    def command(self) -> str:
        """The command's name."""
        return self.words.split()[0]


@dataclass(frozen=True)
class Input:
    """What an input is, what makes its files, and the commands that run over them in sequence."""

    what: str
    make: Callable[[], Files]
    calls: tuple[Call, ...]


def good(what: str, make: Callable[[], Files], *words: str) -> Input:
    """An input that is accepted by these commands."""
    return Input(what, make, tuple(Call(it) for it in words))


def refused(what: str, make: Callable[[], Files], words: str, line: str) -> Input:
    """An input that a command refuses."""
    return Input(what, make, (Call(words, 2, line),))


def bad_set(what: str, make: Callable[[], str], why: str) -> Input:
    """A set that is refused, and the words on why."""
    return refused(what, lambda: with_set(make()), ANALYZE, f"refused {why}")


def bad_certificate(what: str, make: Callable[[], str], why: str) -> Input:
    """A certificate that is refused, and the words on why."""
    return refused(what, lambda: with_certificate(make()), CHECK, f"refused {why}")


LONG_SETS = {
    "toml-arrays": bad_set(
        "a set of 16 MB: lists in lists, closed",
        lambda: deep("[", "0", "]", FILE, "x = "), "20 NotToml set.toml -"),
    "toml-open": bad_set(
        "lists in lists, never closed",
        lambda: "x = " + "[" * (FILE - 4), "20 NotToml set.toml -"),
    "toml-tables": bad_set(
        "inline tables in inline tables, closed",
        lambda: deep("{a=", "0", "}", FILE, "x = "), "20 NotToml set.toml -"),
    "toml-dots": bad_set(
        "a key of 8 million parts",
        lambda: "a" + ".a" * ((FILE - 5) // 2) + "=0", "20 NotToml set.toml -"),
    "toml-headers": bad_set(
        "a table's name of 8 million parts",
        lambda: "[a" + ".a" * ((FILE - 5) // 2) + "]", "20 NotToml set.toml -"),
    "toml-keys": bad_set(
        "1.5 million unknown keys",
        lambda: many("k{i}=0\n", FILE), "26 UnknownKey set.toml k0"),
    "toml-platform-keys": bad_set(
        "the same in `platform`",
        lambda: many("k{i}=0\n", FILE, "[platform]\n"), "26 UnknownKey set.toml platform.k0"),
    "toml-many-tables": bad_set(
        "1.5 million unknown tables",
        lambda: many("[k{i}]\n", FILE), "26 UnknownKey set.toml k0"),
    "toml-many-tasks": bad_set(
        "1.9 million tasks",
        lambda: platform() + many("[[task]]\n", FILE - 200), "23 TooManyTasks set.toml 1864112"),
    "toml-lists": bad_set(
        "5.6 million empty lists",
        lambda: deep("[],", "[]]", "", FILE, "x = ["), "26 UnknownKey set.toml x"),
    "toml-empty-tables": bad_set(
        "5.6 million empty tables",
        lambda: deep("{},", "{}]", "", FILE, "x = ["), "26 UnknownKey set.toml x"),
    "toml-text": bad_set(
        "a name of 16 MB",
        texts.long_name, "22 BadValue set.toml task.0.name"),
    "toml-digits": bad_set(
        "a number of 16 million digits",
        texts.long_number, "20 NotToml set.toml -"),
    "toml-comment": good(
        "a good set with a comment of 16 MB",
        lambda: with_set(padded(SMALL_SET, FILE)), ANALYZE),
    "toml-ranges": good(
        "2.6 million ranges of one loop, 4 nodes",
        lambda: texts.ranges(2_600_000), ANALYZE),
    "toml-ranges-nodes": good(
        "the same with 16,384 nodes",
        lambda: texts.ranges(2_600_000, 16384), ANALYZE, REFINE),
    "toml-ranges-run": good(
        "the same, a run of 10,000 cycles",
        lambda: {**texts.ranges(2_600_000, 16384), "script.toml": "cycles = 10000\n" + job("one", 0, 0)}, SIMULATE),
}

LONG_CERTIFICATES = {
    "json-arrays": bad_certificate(
        "a certificate of 128 MB: lists in lists",
        lambda: deep("[", "0", "]", CERTIFICATE), "70 NotJson cert.json -"),
    "json-objects": bad_certificate(
        "a certificate of 128 MB: objects in objects",
        lambda: deep('{"a":', "0", "}", CERTIFICATE), "70 NotJson cert.json -"),
    "json-text": bad_certificate(
        "one text of 128 MB",
        lambda: '"' + "a" * (CERTIFICATE - 2) + '"', "72 BadValue cert.json -"),
    "json-escapes": bad_certificate(
        "one text of 128 MB of escapes",
        lambda: '"' + "\\u0061" * ((CERTIFICATE - 2) // 6) + '"', "72 BadValue cert.json -"),
    "json-digits": bad_certificate(
        "one number of 128 MB",
        lambda: '{"version":' + "1" * (CERTIFICATE - 12) + "}", "70 NotJson cert.json -"),
    "json-numbers": bad_certificate(
        "67 million numbers",
        lambda: "[" + "0," * (CERTIFICATE // 2 - 2) + "0]", "72 BadValue cert.json -"),
    "json-lists": bad_certificate(
        "45 million empty lists",
        lambda: deep("[],", "[]]", "", CERTIFICATE, "["), "72 BadValue cert.json -"),
    "json-keys": bad_certificate(
        "10 million keys",
        texts.many_keys, "71 Missing cert.json platform"),
    "json-nodes": Input(
        "32 tasks of 16,384 listed nodes, 3,670,016 entries",
        lambda: with_certificate(texts.all_nodes()), (Call(CHECK, 1, "no one clause 1 place 3"),)),
}

LARGE_FILES = {
    "elf-headers-up": good(
        "65,535 segments, addresses rising",
        lambda: with_file(files.many_headers(lambda k: 0x1000 + 8 * k)), LIST, ANALYZE),
    "elf-headers-down": good(
        "65,535 segments, addresses falling",
        lambda: with_file(files.many_headers(lambda k: 0x100000 - 8 * k)), LIST, ANALYZE),
    "elf-headers-mixed": good(
        "65,535 segments in no order",
        lambda: with_file(files.mixed_headers()), LIST, ANALYZE),
    "elf-headers-last": refused(
        "65,535 segments, the last two overlap",
        lambda: with_file(files.many_headers(lambda k: 0x1000 + 8 * min(k, 65533))), LIST, "refused 9 SegmentsOverlap one.elf 65534"
    ),
    "elf-symbols": good(
        "a million symbols, the last is looked up",
        files.last_symbol, ANALYZE),
    "elf-symbol-names": good(
        "a million symbols, the last is looked up 200,000 times",
        files.symbol_names, ANALYZE),
    "elf-long-name": refused(
        "a symbol with a name of 8 MB",
        files.long_names, ANALYZE, "refused 41 UnknownSymbol one z"),
    "elf-headers-files": good(
        "32 files of 65,535 segments each, at the same places",
        files.headers_of_files, ANALYZE),
    "elf-name-tails": Input(
        "half a million symbols, whose names are tails of one name of 8 MB",
        files.name_tails, (Call(ANALYZE, 6),)),
    "elf-code": good(
        "16 MB of code",
        lambda: with_file(files.large_code()), LIST, ANALYZE),
    "elf-files": good(
        "32 files of 16 MB each",
        files.large_files, ANALYZE, REFINE, SIMULATE),
    "elf-files-full": good(
        "the same, of bytes that are not 0",
        lambda: files.large_files(b"\1"), SIMULATE),
    "elf-symbols-tasks": good(
        "32 tasks that name one file with a million symbols",
        files.one_file_of_all, ANALYZE),
}

SCRIPTS = {
    "jobs": good(
        "10,000 jobs released at 0, 2^40 cycles",
        lambda: loads.crowd(1 << 40), SIMULATE),
    "jobs-cut": good(
        "the same, one cycle",
        lambda: loads.crowd(1), SIMULATE),
    "jobs-many": refused(
        "1.8 million jobs",
        lambda: with_script("cycles = 9\n" + "[[job]]\n" * 1_800_000), SIMULATE, "refused 34 TooLong script.toml job"
    ),
    "jobs-reloads": good(
        "10,000 jobs, 4 million reloads, 100 million cycles",
        loads.many_reloads, ANALYZE, CHECK, SIMULATE, EXPLAIN),
    "jobs-quick": good(
        "the same with misses that cost nothing",
        lambda: loads.many_reloads(0), ANALYZE, SIMULATE, EXPLAIN),
    "script-cache": Input(
        "8 million blocks in `cache`",
        lambda: with_script("cycles = 9\ncache = [" + "0," * 8_000_000 + "0]\n"), (Call(SIMULATE, 0, "run legal kept"),)
    ),
}

GRAPHS = {
    "calls": good(
        "16 calls deep, 16,384 nodes",
        graphs.calls, SETS, ANALYZE, CHECK, REFINE, UPDATE, SLACK),
    "loops": good(
        "64 nested loops in one place",
        lambda: graphs.nested(64, 1), ANALYZE, CHECK, REFINE, SLACK),
    "loops-bounds": refused(
        "the same with bounds of 1,000,000",
        lambda: graphs.nested(64, 1, 1_000_000), ANALYZE, "refused 64 BoundTooLarge one 00001000"),
    "loops-long": good(
        "the same round 880 instructions",
        lambda: graphs.nested(64, 880), ANALYZE, CHECK, REFINE, SLACK),
    "loops-calls": good(
        "64 nested loops round 16 calls, 16,384 nodes",
        graphs.nested_calls, ANALYZE, CHECK, REFINE, UPDATE, SLACK),
    "overlap": Input(
        "32 tasks of overlapping loops without an order, 16,384 nodes each",
        graphs.overlap, (Call(SETS), Call(ANALYZE, 2, "refused 63 CycleWithoutBound t0 00010000"))),
}

WINDOWS = {
    "load": good(
        "windows at a load of 1 - 2^-38, periods powers of two",
        loads.full_load, ANALYZE, CHECK, REFINE, CLASSIC, UPDATE, SLACK),
    "load-odd": good(
        "the same, periods one more",
        lambda: loads.full_load(1), ANALYZE, CHECK, REFINE, CLASSIC, UPDATE, SLACK),
    "load-steep": good(
        "the same load, a long first task, 510 useful sets below all",
        loads.steep_load, ANALYZE, CHECK, REFINE, CLASSIC, UPDATE, SLACK),
    "load-delays": good(
        "a load of 1 - 2^-32, an eighth of it reloads that count for the second iteration of the second task's loop",
        loads.delayed_load, ANALYZE, CHECK, REFINE, CLASSIC, UPDATE, SLACK),
    "periods": good(
        "13 tasks, prime periods, a load of 1 - 2^-12",
        loads.odd_periods, ANALYZE, CHECK, REFINE, CLASSIC, UPDATE, SLACK),
    "reloads": good(
        "16 tasks that fill all 512 sets, prime periods",
        loads.reloads, ANALYZE, CHECK, REFINE, CLASSIC, UPDATE, SLACK),
}

INPUTS = {**LONG_SETS, **LONG_CERTIFICATES, **LARGE_FILES, **SCRIPTS, **GRAPHS, **WINDOWS}

# The most memory in MB that a command may take over an input, for those whose commands may take more than a few.
FEW = 64
MOST_MEGABYTES = {
    128: ("toml-many-tasks", "elf-symbols", "elf-symbol-names", "elf-symbols-tasks", "jobs-many", "jobs-quick"),
    256: ("toml-lists", "toml-empty-tables", "elf-code"),
    512: ("toml-keys", "toml-platform-keys", "toml-many-tables", "json-arrays", "json-objects", "json-text", "json-escapes",
          "json-digits", "elf-headers-files", "jobs-reloads", "script-cache"),
    1024: ("toml-ranges", "toml-ranges-nodes", "toml-ranges-run", "json-nodes", "elf-files"),
    2048: ("json-lists", "json-keys", "elf-files-full"),
    4096: ("json-numbers", "elf-name-tails"),
}


def most_megabytes(name: str) -> int:
    """The most memory that a command may take over an input."""
    return next((most for most, names in MOST_MEGABYTES.items() if name in names), FEW)
