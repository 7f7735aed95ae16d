"""Looks for a better placement: climbs from the start, and again from others."""
from __future__ import annotations

import sys
import time
from collections.abc import Collection
from concurrent.futures import ThreadPoolExecutor
from dataclasses import dataclass, field
from pathlib import Path
from tempfile import TemporaryDirectory

from commonkit.calls import Trouble

from .judge import Judge, Judgement, Score, Slack
from .linker import Linked, Linker, LinkerScript
from .placement import Change, Function, Mover, Names, Placement, changed
from .taskset import Owners, TaskSet, owners

TOGETHER = 8  # tries of a round, however many run at once, so that a seed gives the same tries
PATIENCE = 6  # rounds without a gain after which a climb ends
NEAR = 0.7  # the share of new climbs that begin near the best placement
KICK = 6  # the moves between them
GUESSES = 50  # for a placement that was not tried yet
SILENCE = 5.0  # seconds


@dataclass(frozen=True)
class Tried:
    """A placement that was linked and judged. `script` is the linker script with it."""

    placement: Placement
    script: str
    judgement: Judgement

    @property
    def score(self) -> Score:
        """How good it is."""
        return self.judgement.score


@dataclass
class Workshop:
    """Links and judges placements, each in a folder of its own. `functions` are those that tasks reach, as the given script
    places them."""

    found: TaskSet
    linker: Linker
    judge: Judge
    script: LinkerScript
    functions: list[Function]
    owners: Owners
    known: dict[tuple[int, ...], Judgement] = field(default_factory=dict)
    failures: list[str] = field(default_factory=list)

    def attempt(self, placement: Placement) -> Tried | None:
        """The placement with what it is worth, None if it cannot be linked or judged."""
        text = self.script.text(placement, self.found.line)
        try:
            with TemporaryDirectory(prefix="layout-") as place:
                linked = self.linked(text, Path(place))
                return Tried(placement, text, self.judged(linked))
        except (Trouble, OSError) as trouble:
            self.failures.append(str(trouble))
            return None

    def linked(self, text: str, place: Path) -> Linked:
        """The file that a linker script gives; `Trouble` if functions have other sizes than at the start, or if a symbol by
        which a place is stated does not move with its function."""
        script = place / "link.ld"
        script.write_text(text)
        linked = self.linker.link(script, place / "linked.elf")
        sizes = {function.names: function.sizes for function in linked.functions}
        for function in self.functions:
            if sizes.get(function.names) != function.sizes:
                raise Trouble(f"the linker makes {function.name} of another size, so that loops would be elsewhere in it")
        if owners(self.found, linked) != self.owners:
            raise Trouble("a place is stated by a symbol that does not move with its function, or is the entry of the file")
        return linked

    def judged(self, linked: Linked) -> Judgement:
        """What a linked file is worth; with the same addresses of functions it is the same."""
        addresses = tuple(function.address for function in sorted(linked.only(self.names()), key=lambda one: one.names))
        if addresses not in self.known:
            self.known[addresses] = self.judge.judged(linked.path)
        return self.known[addresses]

    def names(self) -> Collection[Names]:
        """The names of the functions that tasks reach."""
        return {function.names for function in self.functions}

    def slack(self, script: str) -> Slack:
        """The slack of what a linker script gives."""
        with TemporaryDirectory(prefix="layout-") as place:
            return self.judge.slack(self.linked(script, Path(place)).path)


@dataclass
class Limit:
    """When a search ends: after some tries, or some seconds, of which the count begins with the first try."""

    tries: int | None
    seconds: float | None
    began: float = field(default_factory=time.monotonic)

    def passed(self) -> float:
        """The seconds since the search began."""
        return time.monotonic() - self.began

    def left(self, tries: int) -> int:
        """How many tries there may be in a round after so many."""
        return TOGETHER if self.tries is None else min(TOGETHER, self.tries - tries)

    def is_out_of_time(self) -> bool:
        """Whether the seconds are over."""
        return self.seconds is not None and self.passed() >= self.seconds


@dataclass(frozen=True)
class Candidate:
    """A placement that is to be tried, with the change that makes it of that of its climb."""

    placement: Placement
    change: Change = ()


@dataclass
class Climb:
    """Where a climb is: its placement, how good that is (None if not known), for how many rounds it gained nothing, and what is
    tried next of all."""

    placement: Placement
    next: list[Candidate]
    score: Score | None = None
    rounds: int = 0

    def step(self, tried: list[tuple[Candidate, Tried]]) -> None:
        """Goes to the best of a round if that is no worse. What gained is tried all together in the next round."""
        ordered = sorted(tried, key=lambda pair: pair[1].score, reverse=True)
        gains = [candidate.change for candidate, one in ordered if candidate.change and self.score and one.score > self.score]
        if len(gains) > 1:
            self.next.append(Candidate(changed(self.placement, sum(gains, ()))))
        best = ordered[0][1] if ordered else None
        if best is None or self.score is not None and best.score < self.score:
            self.rounds += 1
            return
        self.rounds = self.rounds + 1 if best.score == self.score else 0
        self.placement, self.score = best.placement, best.score


class Search:
    """A search by climbs. Each round tries some changes of a climb's placement and goes to the best of them, if it is no
    worse."""

    def __init__(self, shop: Workshop, start: Tried, mover: Mover, limit: Limit) -> None:
        self.shop, self.start, self.best, self.mover, self.limit = shop, start, start, mover, limit
        self.seen: set[Placement] = set()
        self.slacks: dict[str, Slack] = {}
        self.tries = self.failed = 0
        self.told = 0.0

    def run(self, jobs: int) -> Tried:
        """The best placement that is found before the limit, or before Ctrl-C."""
        pool = ThreadPoolExecutor(jobs)
        try:
            self.climb(pool)
        except KeyboardInterrupt:
            self.tell("stopped")
        finally:
            pool.shutdown(cancel_futures=True)
        return self.best

    def climb(self, pool: ThreadPoolExecutor) -> None:
        """Climbs until the limit, or until no more placements are found."""
        first = self.start.placement
        climb = Climb(first, [Candidate(start) for start in self.mover.starts(first)])
        while not self.limit.is_out_of_time():
            candidates = self.candidates(climb)
            if not candidates:
                return
            tried = self.tried(pool, candidates)
            climb.step(tried)
            self.keep([one for _, one in tried])
            if climb.rounds > PATIENCE:
                another = self.another()
                climb = Climb(another, [Candidate(another)])

    def tried(self, pool: ThreadPoolExecutor, candidates: list[Candidate]) -> list[tuple[Candidate, Tried]]:
        """What the candidates of a round are worth, of those that can be linked."""
        found = pool.map(self.attempt, candidates)
        pairs = [(candidate, one) for candidate, one in zip(candidates, found) if one is not None]
        self.tries += len(candidates)
        self.failed = len(self.shop.failures)
        return pairs

    def attempt(self, candidate: Candidate) -> Tried | None:
        """What a candidate is worth, None after the end of the time."""
        return None if self.limit.is_out_of_time() else self.shop.attempt(candidate.placement)

    def candidates(self, climb: Climb) -> list[Candidate]:
        """What a climb tries in a round: what it has to try next, and changes of its placement that were not tried yet."""
        found, climb.next = climb.next, []
        wanted = self.limit.left(self.tries)
        for _ in range(GUESSES * TOGETHER):
            if len(found) >= wanted:
                break
            change = self.mover.change(climb.placement)
            placement = changed(climb.placement, change)
            if placement not in self.seen:
                self.seen.add(placement)
                found.append(Candidate(placement, change))
        return found[:wanted]

    def another(self) -> Placement:
        """Where the next climb begins: near the best placement, or anywhere."""
        best = self.best.placement
        if self.mover.random.random() < NEAR:
            return changed(best, self.mover.change(best, KICK))
        return self.mover.shuffled(best)

    def keep(self, tried: list[Tried]) -> None:
        """Keeps the best of a round if it is better than the best so far, and tells of it."""
        best = max(tried, key=lambda one: one.score, default=self.best)
        if self.is_better(best):
            self.best = best
            self.tell("better")
        elif self.limit.passed() - self.told > SILENCE:
            self.tell("so far")

    def is_better(self, tried: Tried) -> bool:
        """Whether it is better than the best so far; the slack decides between what is as good."""
        if tried.score != self.best.score or tried.judgement is self.best.judgement:
            return tried.score > self.best.score
        try:
            return self.slack(tried).order() > self.slack(self.best).order()
        except (Trouble, OSError) as trouble:
            self.shop.failures.append(str(trouble))
            return False

    def slack(self, tried: Tried) -> Slack:
        """The slack of what was tried, which is asked for once."""
        if tried.script not in self.slacks:
            self.slacks[tried.script] = self.shop.slack(tried.script)
        return self.slacks[tried.script]

    def tell(self, word: str) -> None:
        """Tells on standard error how far the search is."""
        self.told = self.limit.passed()
        state = self.best.judgement.main.progress()
        print(f"layout: {self.told:.1f} s, {self.tries} tries, {word}: {state}", file=sys.stderr, flush=True)
