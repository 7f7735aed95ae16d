"""Runs that attack delays: jobs that are preempted before each of their instructions.

A block that stays in a loop is loaded once, so a preemption inside the loop costs what was paid for
at the entry once more. The controls show that the runs notice a delay that is missing: jobs are
later than responses that leave some or all reloads out.
"""
from __future__ import annotations

from dataclasses import asdict, dataclass, field, replace
from itertools import takewhile
from typing import Any

from . import bounds, windows
from .ending import stop
from .kernels import Image, Timed, set_text
from .measuring import BASE, Evidence, Knowledge, System, know, progress, total
from .program import Job, Run
from .searched import read_sets
from .stepping import Walk, walk
from .workers import Workers

# Cycles between the end of one preemption and the next, in which a loop loads its blocks again.
REST = 150
# How many kernels together preempt each kernel with loops, and the period of all, so that each
# comes once.
PREEMPTING, APART = 5, 100_000
# A pressed set runs for that many of its longest windows.
WINDOWS = 6
# The responses that leave reloads out.
CONTROLS = ("mistake", "no delays", "no delays, runs")


@dataclass(frozen=True)
class Effort:
    """Each how many of its instructions a job is preempted at, and the runs of a pressed set."""

    every: int = 1
    pressed: int = 800

    def scaled(self, share: float) -> Effort:
        """So much more or less of it."""
        return Effort(max(1, round(1 / share)), max(1, round(self.pressed * share)))


@dataclass
class Tally:
    """The evidence of some runs, and how many jobs were later than by each of CONTROLS."""

    evidence: Evidence = field(default_factory=Evidence)
    late: list[int] = field(default_factory=lambda: [0] * len(CONTROLS))

    def numbers(self) -> dict[str, object]:
        return {"evidence": asdict(self.evidence), "late": dict(zip(CONTROLS, self.late))}


def together(tallies: list[Tally]) -> Tally:
    """All tallies as one."""
    return Tally(total([tally.evidence for tally in tallies]),
                 [sum(counts) for counts in zip(*(tally.late for tally in tallies))])


@dataclass(frozen=True)
class Plan:
    """What all targets share: what is known of the kernels, their image with the data of the
    longest runs, and these runs."""

    known: Knowledge
    image: Image
    longest: dict[str, int]
    effort: Effort


@dataclass(frozen=True)
class Target:
    """A task of a set that is attacked, by its place; at place 0, the whole set is pressed."""

    label: str
    tasks: list[Timed]
    target: int
    plan: Plan


class Attack:
    """A set with its refined windows, those by the controls, and the tally of its runs."""

    def __init__(self, system: System, one: Target) -> None:
        self.system, self.one, self.tasks, self.tally = system, one, one.tasks, Tally()
        self.names = [task.kernel.name for task in one.tasks]
        system.crpd.load(one.plan.image)
        text = set_text(BASE, one.tasks)
        self.windows = [window.length for window in system.crpd.verdict("refine", text).windows]
        if len(self.windows) != len(one.tasks):
            stop(f"refine does not accept a set of {', '.join(self.names)}")
        accepted = system.crpd.verdict("analyze", text)
        self.certified = {} if accepted.failed else self.responses(
            [window.length for window in accepted.windows])
        self.refined = self.responses(self.windows)
        self.controls = [self.responses(lengths) for lengths in controls(one)]

    def responses(self, lengths: list[int]) -> dict[str, int]:
        """The responses by windows; a list that is too short says nothing of the last tasks."""
        return {name: length + task.jitter
                for name, task, length in zip(self.names, self.tasks, lengths)}

    def look(self, cycles: int, jobs: list[Job]) -> None:
        """Lets the set in set.toml run."""
        run = self.system.crpd.run(cycles, jobs)
        if not run.is_legal_and_kept():
            stop(f"a run of {', '.join(self.names)}: {run.last_line()}")
        self.tally.evidence.look(run, self.certified, self.refined)
        for n, responses in enumerate(self.controls):
            self.tally.late[n] += late(run, responses)

    def scan(self) -> None:
        """Lets the first jobs of all higher tasks come before one instruction of the longest job
        after another: all at once, and each a while after the last one ended."""
        target = self.one.target
        start = max(task.jitter for task in self.tasks)
        for place in self.walk().starts[::self.one.plan.effort.every]:
            for gaps in self.both_gaps():
                self.look(start + self.windows[target] + 1,
                          self.preempted(start, BASE.switch + place.cycle, gaps))

    def walk(self) -> Walk:
        """The target's job alone, which has to take as long as the longest run seen."""
        name = self.names[self.one.target]
        found = walk(self.one.plan.image, name, f"stack_{self.one.target}", BASE)
        if found.cycles != self.one.plan.longest[name]:
            stop(f"the recomputed run of {name} takes {found.cycles} cycles")
        return found

    def both_gaps(self) -> list[list[int]]:
        """Both ways in which higher tasks come; for one there is no difference."""
        target = self.one.target
        return [[0] * target] + ([self.gaps(target)] if target > 1 else [])

    def gaps(self, target: int) -> list[int]:
        """How much later each higher task comes, so that none comes while the last one runs."""
        times = [self.one.plan.known[name].chosen.bound + 2 * BASE.switch + REST
                 for name in self.names[:target]]
        return [sum(times[:place]) for place in range(target)]

    def preempted(self, start: int, at: int, gaps: list[int]) -> list[Job]:
        """A job that is released at `start`, and higher ones from `at` cycles later on."""
        target = self.one.target
        task = self.tasks[target]
        jobs = [Job(self.names[target], start - task.jitter, start)]
        for name, higher, gap in zip(self.names, self.tasks, gaps):
            jobs += closest(name, higher, start + at + gap, start + self.windows[target])
        return jobs

    def press(self) -> None:
        """Lets all tasks run at their shortest distances, with other phases in each run."""
        rng = self.system.generator("pressed", *self.names)
        start = max(task.jitter for task in self.tasks)
        end = start + WINDOWS * max(self.windows)
        for _ in range(self.one.plan.effort.pressed):
            jobs = []
            for name, task in zip(self.names, self.tasks):
                jobs += closest(name, task, start + rng.randrange(task.period), end)
            self.look(end, jobs)


def closest(name: str, task: Timed, first: int, end: int) -> list[Job]:
    """The jobs of a task up to a time: the first with all its jitter, later ones without."""
    arrivals = range(first - task.jitter, max(end, first - task.jitter + 1), task.period)
    return [Job(name, at, max(at, first)) for at in arrivals]


def late(run: Run, responses: dict[str, int]) -> int:
    """How many jobs of a run are known to be later than these responses."""
    return sum((job.end if job.is_complete() else run.cycles) - job.arrival
               > responses.get(job.task, run.cycles) for job in run.jobs)


def controls(one: Target) -> list[list[int]]:
    """The windows by each of CONTROLS: the smaller bounds with what is useful by the greater ones;
    the smaller bounds without any reloads; and the longest runs without any reloads."""
    rows = [(one.plan.known[task.kernel.name], task.timing) for task in one.tasks]
    mistaken = [known.unsound_task(timing) for known, timing in rows]
    chosen = [known.chosen_task(timing) for known, timing in rows]
    runs = [known.task(timing, one.plan.longest[known.part.name]) for known, timing in rows]
    unsound = windows.unsound_windows(windows.TaskSet(mistaken, BASE.switch, BASE.miss))
    return [[window.length for window in unsound], without_reloads(chosen), without_reloads(runs)]


def without_reloads(tasks: list[windows.Task]) -> list[int]:
    """The windows without any reloads, up to the first task that has none."""
    found = windows.TaskSet(tasks, BASE.switch, BASE.miss).alone
    return list(takewhile(bool, (length or 0 for length in found)))


def at_percent(tasks: list[Timed], percents: int) -> list[Timed]:
    """The tasks with periods and jitters of so many percent."""
    return [replace(task, period=task.period * percents // 100,
                    jitter=task.jitter * percents // 100) for task in tasks]


def accepts(tasks: list[Timed], known: Knowledge) -> bool:
    """Whether all tasks have refined windows."""
    rows = [known[task.kernel.name].chosen_task(task.timing) for task in tasks]
    return len(windows.unsound_windows(windows.TaskSet(rows, BASE.switch, BASE.miss))) == len(tasks)


def pressed(tasks: list[Timed], known: Knowledge) -> list[Timed]:
    """The set at the fewest percent of its periods at which it is still accepted by the smaller
    bounds."""
    percents = 100
    while accepts(at_percent(tasks, percents - 1), known):
        percents -= 1
    return at_percent(tasks, percents)


def filled(plan: Plan, name: str) -> int:
    """The cache sets that the longest run of a kernel fills."""
    found = 0
    for start in walk(plan.image, name, "stack_0", BASE).starts:
        found |= 1 << start.node[1] // BASE.line % BASE.sets
    return found


def harm(plan: Plan, name: str, low: str) -> int:
    """By how much the longest run of a preempting kernel can disturb another one at one node, apart
    from what the kernel's own bound is beyond that run."""
    evicted, known = filled(plan, name), plan.known[name]
    lost = max((point & evicted).bit_count() for point in plan.known[low].chosen.points)
    return BASE.miss * lost - (known.chosen.bound - plan.longest[name])


def below_others(system: System, plan: Plan) -> list[Target]:
    """Each kernel with loops below each other kernel, and below those together that harm it
    most."""
    timed = {name: Timed(kernel, APART) for name, kernel in system.kernels.items()}
    found = []
    for low in (name for name, kernel in system.kernels.items() if kernel.loops):
        others = sorted((name for name in timed if name != low), reverse=True,
                        key=lambda name: harm(plan, name, low))
        found += [Target(f"`{low}` below each other kernel", [timed[name], timed[low]], 1, plan)
                  for name in others]
        worst = [timed[name] for name in (*others[:PREEMPTING], low)]
        found.append(Target(f"`{low}` below {PREEMPTING} others", worst, PREEMPTING, plan))
    return found


def attack(system: System, one: Target) -> Tally:
    """The tally of a target: preempted before each of its instructions, or pressed."""
    made = Attack(system, one)
    if one.target:
        made.scan()
    else:
        made.press()
    progress(f"attacks: {one.label}, {made.names[one.target] if one.target else 'pressed'}")
    return made.tally


def targets_of(system: System, plan: Plan) -> list[Target]:
    """All targets: the tasks of the sets, the sets with shorter periods, and each kernel with loops
    below others."""
    found = []
    for name, tasks in read_sets(system).items():
        found += [Target(f"{name}, each instruction", tasks, target, plan)
                  for target in range(1, len(tasks))]
        found.append(Target(f"{name}, short periods", pressed(tasks, plan.known), 0, plan))
    return found + below_others(system, plan)


def measure(workers: Workers, found: dict[str, Any], effort: Effort) -> dict[str, Any]:
    """The numbers of all sets, with the data of the longest runs in `found`."""
    system, known = workers.system(), workers.map(know, [BASE])[0]
    plan = Plan(known, bounds.with_longest_data(system.image, found), bounds.longest(found), effort)
    targets = targets_of(system, plan)
    tallies: dict[str, list[Tally]] = {}
    for one, tally in zip(targets, workers.map(attack, targets)):
        tallies.setdefault(one.label, []).append(tally)
    return {"every": effort.every, "pressed runs": effort.pressed, "windows": WINDOWS,
            "preempting": PREEMPTING,
            "first periods": {one.label: one.tasks[0].period for one in targets if not one.target},
            "tallies": {label: together(some).numbers() for label, some in tallies.items()}}
