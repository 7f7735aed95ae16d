"""Certified responses next to the longest that a search over releases finds, and reloads seen next
to certified delays."""
from __future__ import annotations

import copy
from collections.abc import Callable
from dataclasses import dataclass, field
from typing import Any

from reportkit.reading import Task

from . import bounds, windows
from .ending import stop
from .kernels import Timed
from .measuring import BASE, Evidence, Knowledge, System, know, progress, total
from .program import Job, Run, reloads
from .searched import Judged, Searched, controller_set, judge, kernel_sets, read_sets, turned
from .workers import Workers


# A search climbs uphill so many times, each time from other random patterns.
CLIMBS = 3


@dataclass(frozen=True)
class Effort:
    """How many patterns of releases are drawn, and how many steps uphill are made, for each climb
    of the search for a late completion and of the one for many reloads."""

    at_random: int = 400
    uphill: int = 1000
    reloads_at_random: int = 50
    reloads_uphill: int = 120

    def scaled(self, share: float) -> Effort:
        """So much more or less of it."""
        return Effort(*(max(1, round(count * share)) for count in (
            self.at_random, self.uphill, self.reloads_at_random, self.reloads_uphill)))


@dataclass
class Releases:
    """The jobs of a higher task: how long after the job looked at the first one is released, by how
    much more than the period each next one arrives later, and each one's jitter."""

    phase: int
    extra: list[int]
    jitter: list[int]


# The releases of all higher tasks.
Pattern = list[Releases]


@dataclass
class Search:
    """A search for the releases of higher tasks with which one task's first job responds late, or
    reloads much. The run ends a cycle after the job's refined window."""

    system: System
    one: Searched
    judged: Judged
    target: int
    evidence: Evidence = field(default_factory=Evidence)

    def __post_init__(self) -> None:
        self.tasks, judged = self.one.given.tasks, self.judged
        jitters = [task.jitter for task in self.tasks]
        names = [task.name for task in self.tasks]
        self.window, self.name = judged.refined[self.target].length, names[self.target]
        self.higher = self.tasks[:self.target]
        self.rng = self.system.generator("releases", self.one.name, self.name)
        self.arrival = max(jitters)
        self.release = self.arrival + jitters[self.target]
        self.cycles = self.release + self.window + 1
        self.responses = {name: part.window + jitter
                          for name, part, jitter in zip(names, judged.parts, jitters, strict=True)}
        self.refined = {name: window.length + jitter for name, window, jitter
                        in zip(names, judged.refined, jitters, strict=True)}
        self.delay, self.miss = judged.delays[self.target], self.one.given.platform.miss

    def critical(self) -> Pattern:
        """All at once with the job looked at: first jobs as late as may be, later ones as early."""
        counts = [self.window // task.period + 2 for task in self.higher]
        return [Releases(0, [0] * count, [task.jitter] + [0] * (count - 1))
                for count, task in zip(counts, self.higher)]

    def any_phase(self, task: Task) -> int:
        return self.rng.randrange(min(task.period, self.window))

    def at_random(self) -> Pattern:
        """Random phases, and now and then random jitters."""
        pattern, rng = self.critical(), self.rng
        for releases, task in zip(pattern, self.higher):
            releases.phase = self.any_phase(task)
            if rng.random() < 0.3:
                releases.jitter = [rng.randint(0, task.jitter) for _ in releases.jitter]
        return pattern

    def near(self, pattern: Pattern) -> Pattern:
        """The pattern with one or two changes."""
        changed = copy.deepcopy(pattern)
        for _ in range(self.rng.randint(1, 2)):
            at = self.rng.randrange(len(changed))
            self.change(changed[at], self.higher[at])
        return changed

    def change(self, releases: Releases, task: Task) -> None:
        """Changes a phase, a gap or a jitter."""
        rng, kind = self.rng, self.rng.random()
        if kind < 0.55:
            step = rng.choice((1, 2, 5, 15, 50, 200, 1000))
            releases.phase = max(0, releases.phase + rng.randint(-step, step))
        elif kind < 0.65:
            releases.phase = self.any_phase(task)
        elif kind < 0.85:
            gap = rng.choice((0, rng.randint(0, 20), rng.randint(0, 300)))
            releases.extra[rng.randrange(len(releases.extra))] = gap
        else:
            jitter = rng.choice((0, task.jitter, rng.randint(0, task.jitter)))
            releases.jitter[rng.randrange(len(releases.jitter))] = jitter

    def jobs(self, pattern: Pattern) -> list[Job]:
        """The script's jobs, the one looked at first."""
        jobs = [Job(self.name, self.arrival, self.release)]
        for releases, task in zip(pattern, self.higher):
            arrival = self.release + releases.phase - releases.jitter[0]
            for extra, jitter in zip(releases.extra, releases.jitter):
                jobs.append(Job(task.name, arrival, arrival + jitter))
                arrival += task.period + extra
        return jobs

    def run(self, pattern: Pattern) -> Run:
        """The run of a pattern, as evidence."""
        run = self.system.crpd.run(self.cycles, self.jobs(pattern))
        self.evidence.look(run, self.responses, self.refined)
        if not run.is_legal_and_kept():
            stop(f"of {self.name}: {run.last_line()}")
        return run

    def response(self, pattern: Pattern) -> int:
        """The response of the job looked at; one that is not completed counts to the run's end."""
        run = self.run(pattern)
        return end_of(run) - self.arrival

    def counts(self, pattern: Pattern) -> list[int]:
        """How many jobs of each higher task are released before the job looked at completes."""
        run = self.run(pattern)
        return [sum(job.task == task.name and job.release < end_of(run) for job in run.jobs)
                for task in self.higher]

    def reload_cycles(self, pattern: Pattern) -> int:
        """The cycles of the reloads that `explain` lists for the job looked at."""
        lines = self.system.crpd.explain(self.cycles, self.jobs(pattern))
        cycles = self.miss * reloads(lines, self.name)
        self.evidence.look_at_reloads(lines, cycles, self.delay)
        return cycles

    def greatest(self, value: Callable[[Pattern], int], first: Pattern, at_random: int,
                 uphill: int) -> tuple[int, Pattern]:
        """The largest value found: of the first pattern, and of climbs from random ones, of which
        the last starts from the best."""
        best = value(first), first
        if not self.higher:
            return best
        for climb in range(CLIMBS):
            here = max(((value(pattern), pattern) for pattern in
                        (self.at_random() for _ in range(at_random))), key=lambda one: one[0])
            if climb == CLIMBS - 1:
                here = max(best, here, key=lambda one: one[0])
            for _ in range(uphill):
                pattern = self.near(here[1])
                found = value(pattern)
                if found >= here[0]:
                    here = found, pattern
            best = max(best, here, key=lambda one: one[0])
        return best


def end_of(run: Run) -> int:
    """When the first job completes; if it does not, the run's end."""
    return run.jobs[0].end if run.jobs[0].is_complete() else run.cycles


@dataclass(frozen=True)
class Unit:
    """A task of a set whose responses are searched."""

    one: Searched
    target: int
    effort: Effort


def task_row(system: System, unit: Unit) -> tuple[dict[str, Any], Evidence]:
    """The numbers of a task that `crpd` tells or that runs show."""
    judged, target, effort = judge(system, unit.one), unit.target, unit.effort
    search = Search(system, unit.one, judged, target)
    critical = search.response(search.critical())
    seen, pattern = search.greatest(search.response, search.critical(), effort.at_random,
                                    effort.uphill)
    most, _ = search.greatest(search.reload_cycles, pattern, effort.reloads_at_random,
                              effort.reloads_uphill)
    task, part, window = search.tasks[target], judged.parts[target], judged.refined[target]
    progress(f"responses: {unit.one.name}, {task.name}")
    return {"task": task.name, "period": task.period, "jitter": task.jitter,
            "response": part.window + task.jitter, "method": part.method,
            "critical": critical, "seen": seen, "reloads": search.reload_cycles(pattern),
            "most reloads": most, "refined": window.length + task.jitter,
            "refined method": window.method, **causes(search),
            "alone": judged.alone[target], "own bound": judged.sums[target].bound,
            "turns": turned(unit.one, target, judged.alone[target])["more"],
            "steps": steps(search, search.counts(pattern), seen)}, search.evidence


def causes(search: Search) -> dict[str, int]:
    """What is in the certified window of `analyze`, by cause."""
    parts, part = search.judged.parts, search.judged.parts[search.target]
    counts = [-(-(part.window + other.jitter) // other.period) for other in search.higher]
    higher = sum(count * other.bound for count, other in zip(counts, parts))
    switches = (1 + 2 * sum(counts)) * search.one.given.platform.switch
    return {"bound": part.bound, "higher": higher, "switches": switches, "delay": search.delay}


def steps(search: Search, counts: list[int], seen: int) -> dict[str, int]:
    """From the longest response seen to the refined one. `counts` are the jobs of higher tasks in
    that run. *Shared*: what the longest runs alone of these jobs, with two switches each, sum up to
    beyond it. *Executions*: their bounds in place of the runs. *Counts*: the other jobs that the
    window has to hold. *Delays*: their reloads. *Blocking*: by instructions under way."""
    window, alone = search.judged.sums[search.target], search.judged.alone
    switch = search.one.given.platform.switch
    run_sum = window.jitter + switch + alone[search.target] + sum(
        count * (cycles + 2 * switch) for count, cycles in zip(counts, alone))
    bounds_of = [one.execution // one.jobs for one in window.shares]
    executions = window.bound - alone[search.target] + sum(
        count * (bound - cycles) for count, bound, cycles in zip(counts, bounds_of, alone))
    more = sum((one.jobs - count) * (bound + 2 * switch)
               for count, bound, one in zip(counts, bounds_of, window.shares))
    found = {"shared": run_sum - seen, "executions": executions, "counts": more,
             "delays": window.higher().reloads, "blocking": window.blocking}
    if seen + sum(found.values()) != window.response():
        stop(f"the steps of {search.name} do not sum up to its refined response")
    return found


@dataclass(frozen=True)
class Recomputed:
    """Windows of a set that the evaluation works out itself: with the certified bounds by both
    multiset delays, and by those with the delay by points; with persistent blocks, too; and with
    the longest runs seen in place of the bounds."""

    certified: list[windows.Window]
    points: list[windows.Window]
    refined: list[windows.Window]
    by_runs: list[windows.Window]


def recompute(tasks: list[Timed], known: Knowledge, seen: dict[str, int]) -> Recomputed:
    """The windows of a set; `seen` are the longest runs by kernel."""
    def all_windows(runs: dict[str, int]) -> dict[str, list[windows.Window]]:
        rows = [(known[task.kernel.name], task.timing) for task in tasks]
        plain = [one.task(timing, runs.get(one.part.name)) for one, timing in rows]
        chosen = [one.chosen_task(timing) for one, timing in rows]
        return windows.windows_by_all(windows.Parts(
            windows.TaskSet(plain, BASE.switch, BASE.miss),
            windows.TaskSet(chosen, BASE.switch, BASE.miss)))

    by_bounds = all_windows({})
    return Recomputed(by_bounds["combination"], by_bounds["points"], by_bounds["refined"],
                      all_windows(seen)["combination"])


def with_recomputed(rows: list[dict[str, Any]], found: Recomputed) -> list[dict[str, Any]]:
    """The rows of a set with the responses that `crpd` does not tell; what it tells has to be what
    is recomputed."""
    made = []
    for row, certified, refined, points, by_runs in zip(
            rows, found.certified, found.refined, found.points, found.by_runs, strict=True):
        jitter = row["jitter"]
        if (row["response"], row["refined"], row["refined method"]) != (
                certified.length + jitter, refined.length + jitter, refined.method):
            stop(f"the recomputed windows of {row['task']} are not those of crpd")
        made.append({**row, "points": points.length + jitter, "by runs": by_runs.length + jitter})
    return made


def measure(workers: Workers, found: dict[str, Any], effort: Effort) -> dict[str, Any]:
    """The numbers of all sets, with the data of the longest runs in `found`."""
    system = workers.system()
    known, longest = workers.map(know, [BASE])[0], bounds.longest(found)
    sets = {**kernel_sets(system, found), "controller": controller_set()}
    units = [Unit(one, target, effort)
             for one in sets.values() for target in range(len(one.given.tasks))]
    made = workers.map(task_row, units)
    rows = {name: [row for unit, (row, _) in zip(units, made) if unit.one.name == name]
            for name in sets}
    controller = rows.pop("controller")
    for name, tasks in read_sets(system).items():
        rows[name] = with_recomputed(rows[name], recompute(tasks, known, longest))
    return {"runs": 2 + CLIMBS * (effort.at_random + effort.uphill),
            "explained": 2 + CLIMBS * (effort.reloads_at_random + effort.reloads_uphill),
            "sets": rows, "controller": controller,
            "evidence": total([evidence for _, evidence in made]).numbers()}
