"""Certified execution bounds next to the longest executions that a search over data finds."""
import random
from collections.abc import Iterator
from dataclasses import dataclass, field, replace
from typing import Any

from . import turns
from .ending import stop
from .kernels import HUGE, Image, Kernel, Platform, Timed, set_text
from .measuring import BASE, Evidence, Known, System, know, progress, total
from .program import Job, Run
from .stepping import walk
from .workers import Workers

PLATFORMS = {"free misses": replace(BASE, miss=0), "8 sets": replace(BASE, sets=8),
             "32 sets": BASE, "128 sets": replace(BASE, sets=128)}
BASE_NAME = "32 sets"
RUN_CYCLES = 1_000_000
# A search climbs uphill so many times, each time from other random values.
CLIMBS = 3


@dataclass(frozen=True)
class Effort:
    """How many random values, and how many steps uphill, a search makes for each of its climbs."""

    at_random: int = 100
    uphill: int = 400

    def scaled(self, share: float) -> "Effort":
        """So much more or less of it."""
        return Effort(max(1, round(self.at_random * share)), round(self.uphill * share))


def patterns(size: int) -> Iterator[bytes]:
    """Values that often lead the longest way: extremes, and rising and falling numbers of one, two
    and four bytes."""
    yield from (bytes([byte]) * size for byte in (0x00, 0xFF, 0x7F, 0x80, 0x01, 0x55, 0xAA))
    for width in (1, 2, 4):
        numbers = range(1, size // width + 2)
        for order in (numbers, reversed(numbers)):
            yield b"".join((n * 3).to_bytes(width, "little") for n in order)[:size]


def random_values(rng: random.Random, size: int) -> bytes:
    """Random bytes; half of the time small ones."""
    top = rng.choice((256, 8))
    return bytes(rng.randrange(top) for _ in range(size))


def near_values(rng: random.Random, values: bytes, usual: bytes) -> bytes:
    """The values with up to three bytes changed or swapped. `usual` are bytes that may mean
    something to the kernel."""
    changed = bytearray(values)
    for _ in range(rng.randint(1, 3)):
        at, other = rng.randrange(len(changed)), rng.randrange(len(changed))
        if rng.random() < 0.3:
            changed[at], changed[other] = changed[other], changed[at]
        else:
            new = (rng.randrange(256), rng.randrange(8), 0, 255, rng.choice(usual))
            changed[at] = rng.choice((*new, rng.choice(usual)))
    return bytes(changed)


@dataclass
class DataSearch:
    """A search for the data with which a kernel's job, alone and from an empty cache, takes
    longest."""

    system: System
    kernel: Kernel
    platform: Platform
    bound: int
    chosen: int
    evidence: Evidence
    longest: int = 0
    values: bytes = b""
    tried: list[bytes] = field(default_factory=list)

    def prepare(self, kernel: Kernel) -> None:
        self.system.crpd.write("set.toml", set_text(self.platform, [Timed(kernel, HUGE)]))

    def run(self, values: bytes) -> Run:
        """The run of one job with these values."""
        crpd, name = self.system.crpd, self.kernel.name
        crpd.load(self.system.image.with_values(name, values))
        return crpd.run(RUN_CYCLES, [Job(name, 0, 0)])

    def cycles(self, values: bytes) -> int:
        """The cycles of a job with these values, without its switch."""
        run, name = self.run(values), self.kernel.name
        switch = self.platform.switch
        self.evidence.look(run, {name: self.bound + switch}, {name: self.chosen + switch})
        job = run.jobs[0]
        if not job.is_complete() or not run.is_legal_and_kept():
            stop(f"{name} does not complete, or breaks a stated bound, with {values.hex()}")
        return job.end - self.platform.switch

    def look(self, values: bytes) -> int:
        """Runs a job with these values, and keeps them if none took longer."""
        cycles = self.cycles(values)
        self.tried.append(values)
        if cycles >= self.longest:
            self.longest, self.values = cycles, values
        return cycles

    def search(self, effort: Effort) -> None:
        """The values of the file, patterns, and climbs, of which the last starts from the best."""
        name = self.kernel.name
        first = self.system.image.values(name)
        self.prepare(self.kernel)
        for values in [first, *patterns(len(first))]:
            self.look(values)
        for climb in range(CLIMBS):
            rng = self.system.generator("data", name, climb)
            starts = [random_values(rng, len(first)) for _ in range(effort.at_random)]
            longest, best = max((self.look(values), values) for values in starts)
            if climb == CLIMBS - 1:
                longest, best = self.longest, self.values
            for _ in range(effort.uphill):
                values = near_values(rng, best, first)
                cycles = self.look(values)
                if cycles >= longest:
                    longest, best = cycles, values

    def look_again(self, good: list[bytes]) -> None:
        """Looks at values that took longest on other platforms."""
        self.prepare(self.kernel)
        for values in good:
            self.look(values)

    def loops_reached(self) -> int:
        """How many loops reach their stated bound in some run, so that one less would be broken."""
        tried, loops, found = list(dict.fromkeys([self.values, *self.tried])), self.kernel.loops, 0
        for at, loop in enumerate(loops):
            lower = replace(loop, bound=loop.bound - 1)
            self.prepare(replace(self.kernel, loops=[*loops[:at], lower, *loops[at + 1:]]))
            found += any(not self.run(values).kept for values in tried)
        return found


@dataclass(frozen=True)
class Unit:
    """A kernel to be searched, with what is known of it by platform."""

    kernel: str
    known: dict[str, Known]
    effort: Effort


def kernel_bounds(system: System, unit: Unit) -> tuple[dict[str, Any], Evidence]:
    """The kernel's bounds and longest runs by platform, and the data of the longest on the base."""
    kernel, known, evidence = system.kernels[unit.kernel], unit.known, Evidence()
    searches = {name: DataSearch(system, kernel, platform, known[name].part.bound,
                                 known[name].chosen.bound, evidence)
                for name, platform in PLATFORMS.items()}
    for search in searches.values():
        search.search(unit.effort)
    good = [search.values for search in searches.values()]
    for search in searches.values():
        search.look_again(good)
    progress(f"bounds: {kernel.name}")
    return {**about(known[BASE_NAME]), "loops": len(kernel.loops),
            "reached": searches[BASE_NAME].loops_reached(),
            "values": searches[BASE_NAME].values.hex(), "good": [values.hex() for values in good],
            "turns": turned(system, searches[BASE_NAME]),
            "bound": {name: known[name].part.bound for name in PLATFORMS},
            "chosen": {name: known[name].chosen.bound for name in PLATFORMS},
            "seen": {name: search.longest for name, search in searches.items()}}, evidence


def about(known: Known) -> dict[str, int]:
    """The sizes of a kernel and of its cache sets."""
    return {"bytes": known.code_bytes, "nodes": known.part.nodes,
            "evicting": len(known.part.evicting), "useful": len(known.part.useful),
            "useful at once": known.useful_at_once,
            "useful persistently": known.chosen.useful.bit_count(),
            "useful persistently at once": known.chosen_at_once}


def turned(system: System, search: DataSearch) -> dict[str, Any]:
    """How often the longest run reached the heads of loops, and how often the bounds let it."""
    name = search.kernel.name
    image = system.image.with_values(name, search.values)
    longest = walk(image, name, "stack_0", search.platform)
    if longest.cycles != search.longest:
        stop(f"the recomputed run of {name} takes {longest.cycles} cycles")
    return turns.numbers(image, search.kernel, search.platform, longest)


def know_all(workers: Workers) -> dict[str, dict[str, Known]]:
    """Each kernel on each of PLATFORMS."""
    found = dict(zip(PLATFORMS, workers.map(know, PLATFORMS.values())))
    return {kernel: {name: known[kernel] for name, known in found.items()}
            for kernel in found[BASE_NAME]}


def measure(workers: Workers, effort: Effort) -> dict[str, Any]:
    """The numbers of all kernels."""
    known = know_all(workers)
    made = workers.map(kernel_bounds, [Unit(name, one, effort) for name, one in known.items()])
    tried = (1 + len(list(patterns(4))) + CLIMBS * (effort.at_random + effort.uphill)
             + len(PLATFORMS))
    return {"values tried": tried, "kernels": dict(zip(known, (row for row, _ in made))),
            "evidence": total([evidence for _, evidence in made]).numbers()}


def longest(found: dict[str, Any]) -> dict[str, int]:
    """The longest runs seen by kernel on the base platform."""
    return {name: row["seen"][BASE_NAME] for name, row in found["kernels"].items()}


def with_longest_data(image: Image, bounds: dict[str, Any]) -> Image:
    """The image in which each kernel has the data of its longest run."""
    for name, row in bounds["kernels"].items():
        image = image.with_values(name, bytes.fromhex(row["values"]))
    return image
