"""Draws a run: each job from its release to its completion, with its reloads and deadlines."""
from __future__ import annotations

from bisect import bisect_left
from dataclasses import dataclass
from html import escape

from commonkit.calls import Job

from .facts import Facts
from .markup import Frame, box, counted, hue, joined, num, step, tag, title
from .pictures import Item, Mark, Picture, Row, sample, stroke
from .reading import Reload, Run

CROWD = 40  # of more jobs in a row, the bars alone are drawn
TELL = 20  # of more jobs in a row, their number alone is written
TOGETHER = 9  # that many reloads are listed one by one if they are close together


@dataclass(frozen=True)
class Axis:
    """The cycles that a picture shows."""

    start: int
    end: int

    def at(self, cycle: int) -> float:
        """A place in per cent; what is outside is at the nearer end."""
        return 100 * (min(max(cycle, self.start), self.end) - self.start) / (self.end - self.start)

    def x(self, cycle: int) -> str:
        """A place as SVG writes it."""
        return f"{self.at(cycle):.3f}%"

    def shows(self, start: int, end: int) -> bool:
        """Whether a span of cycles meets the picture."""
        return start <= self.end and end >= self.start

    def line(self, css: str, across: tuple[int, int], down: tuple[int, int], words: str = "") -> str:
        """A line between two cycles, if it meets the picture."""
        if not self.shows(*across):
            return ""
        return stroke(css, self.x(across[0]), self.x(across[1]), *down, title(words) if words else "")

    def upright(self, css: str, cycle: int, down: tuple[int, int], words: str = "") -> str:
        """An upright line at a cycle."""
        return self.line(css, (cycle, cycle), down, words)

    def bar(self, css: str, start: int, end: int, words: str, place: int = 0) -> str:
        """A bar between two cycles."""
        if not self.shows(start, end):
            return ""
        return box(css, Frame(self.x(start), 18, f"{self.at(end) - self.at(start):.3f}%", 18), words, place)

    def cycles(self) -> range:
        """The cycles that are marked."""
        by = step(self.end - self.start, 10)
        return range(-(-self.start // by) * by, self.end + 1, by)


def whole(facts: Facts, run: Run) -> Axis:
    """From 0 to after the last completion, with the deadlines that come soon after it."""
    last = max((job.end for job in run.jobs), default=1)
    dues = [job.arrival + limit for job in run.jobs for limit in limits(facts, job)]
    return Axis(0, 1 + max([last, *(due for due in dues if due <= last * 3 // 2)]) * 51 // 50)


def busiest(run: Run, axis: Axis) -> Axis | None:
    """The longest stretch in which some job is between release and completion, if it is less than a third of the whole."""
    start, end = max(spans(run.jobs), key=lambda span: span[1] - span[0], default=(0, axis.end))
    margin = (end - start) // 25
    return Axis(max(start - margin, 0), end + margin + 1) if 3 * (end - start) < axis.end else None


def spans(jobs: list[Job]) -> list[tuple[int, int]]:
    """When some of the jobs is between release and completion."""
    return joined((job.release, job.end) for job in jobs if job.end > job.release)


def limits(facts: Facts, job: Job) -> list[int]:
    """The deadline and, if the set is certified, the response, from the arrival on."""
    response = facts.response(job.task)
    return [facts.deadline(job.task)] + ([] if response is None else [response])


def is_late(facts: Facts, job: Job) -> bool:
    """Whether a job did not complete by its deadline and its response."""
    return job.state == "fault" or job.end > job.arrival + min(limits(facts, job))


def job_words(facts: Facts, job: Job) -> str:
    """What is said of a job."""
    deadline, *response = limits(facts, job)
    end = f"completion {num(job.end)}, response {num(job.end - job.arrival)}" if job.is_complete() else job.state
    sure = "".join(f", certified by {num(job.arrival + limit)}" for limit in response)
    return (f"{job.task} {job.number}: arrival {num(job.arrival)}, release {num(job.release)}, {end}{sure}, "
            f"deadline {num(job.arrival + deadline)}")


def run_picture(facts: Facts, run: Run, axis: Axis, with_legend: bool) -> Picture:
    """The picture of a run, a row for each task."""
    rows = []
    for place, task in enumerate(facts.tasks()):
        jobs = [job for job in run.jobs if job.task == task.name]
        higher = {other.name for other in facts.tasks()[:place]}
        busy = spans([job for job in run.jobs if job.task in higher])
        words = "; ".join(job_words(facts, job) for job in jobs) if len(jobs) <= TELL else counted(len(jobs), "job")
        rows.append(Row(place, task.name, row_note(facts, task.name, jobs), 56,
                        row_shapes(facts, run, JobRow(place, jobs, busy, axis)), f"{task.name}: {words}"))
    marks = [Mark(axis.at(cycle), num(cycle)) for cycle in axis.cycles()]
    return Picture("run", run_legend(facts) if with_legend else [], rows, "cycle", marks)


def row_note(facts: Facts, name: str, jobs: list[Job]) -> str:
    """How many jobs there are, and the longest response next to the certified one."""
    longest = max((job.end - job.arrival for job in jobs if job.is_complete()), default=None)
    response = facts.response(name)
    sure = "" if response is None else f" of {num(response)}"
    return counted(len(jobs), "job") + ("" if longest is None else f", {num(longest)}{sure}")


def run_legend(facts: Facts) -> list[Item]:
    """What the shapes of a run mean."""
    arrow = stroke("arrival", "8", "8", 0, 12)
    items = [Item(arrow, "arrival"), Item(stroke("wait", "0", "16", 6, 6), "jitter"),
             Item(sample(f"{hue(0)} ran"), "release to completion"),
             Item(sample("waits"), "hollow: meanwhile a higher job is not complete"),
             Item(sample("late"), "late or faulted"), Item(stroke("tick", "8", "8", 0, 12), "reload")]
    items += [Item(stroke("sure", "0", "16", 6, 6), "certified response")] if facts.is_certified() else []
    return items + [Item(stroke("dashes", "8", "8", 0, 12), "deadline")]


@dataclass(frozen=True)
class JobRow:
    """The jobs of a task, and when a higher job is between release and completion."""

    place: int
    jobs: list[Job]
    busy: list[tuple[int, int]]
    axis: Axis


def row_shapes(facts: Facts, run: Run, row: JobRow) -> list[str]:
    """The shapes in the row of a task."""
    axis = row.axis
    jobs = [job for job in row.jobs if axis.shows(job.arrival, max(job.end, job.arrival + max(limits(facts, job))))]
    shapes = [axis.upright("grid", cycle, (0, 56)) for cycle in axis.cycles()]
    for job in jobs:
        shapes += job_bar(facts, row, job)
    if len(jobs) <= CROWD:
        shapes += [shape for job in jobs for shape in job_marks(facts, job, axis)] + job_labels(facts, jobs, axis)
    own = [reload for reload in run.reloads if reload.task == facts.tasks()[row.place].name]
    return shapes + reload_ticks([reload for reload in own if axis.shows(reload.cycle, reload.cycle)], axis)


def job_bar(facts: Facts, row: JobRow, job: Job) -> list[str]:
    """A job from its release to its completion, hollow while a higher job is not complete."""
    if job.end == job.release:
        return []
    words = job_words(facts, job)
    hollow = row.busy[max(bisect_left(row.busy, (job.release,)) - 1, 0):bisect_left(row.busy, (job.end,))]
    css = "late" if is_late(facts, job) else f"{hue(row.place)} ran"
    return [row.axis.bar(css, job.release, job.end, words, row.place)] + [
        row.axis.bar("waits", max(start, job.release), min(end, job.end), words) for start, end in hollow if end > job.release]


def job_marks(facts: Facts, job: Job, axis: Axis) -> list[str]:
    """A job's arrival, jitter, certified response and deadline."""
    deadline, *response = (job.arrival + limit for limit in limits(facts, job))
    words = job_words(facts, job)
    shapes = [axis.line("wait", (job.arrival, job.release), (27, 27))] if job.release > job.arrival else []
    for sure in response:
        shapes += [axis.line("sure", (job.arrival, sure), (44, 44), words), axis.upright("sure", sure, (38, 50))]
    shapes.append(axis.upright("dashes", deadline, (4, 52), words))
    if axis.shows(job.arrival, job.arrival):
        shapes.append(tag("use", title(words), href="#arrival", x=axis.x(job.arrival), y=6))
    return shapes


def job_labels(facts: Facts, jobs: list[Job], axis: Axis) -> list[str]:
    """The numbers of jobs, if there is room, with what became of those that are late or not complete."""
    shapes, free = [], 0.0
    for job in jobs:
        at, late = axis.at(job.arrival), is_late(facts, job)
        state = job.state if not job.is_complete() else "late" if late else ""
        label = f"{job.number} {state}".strip()
        if axis.shows(job.arrival, job.arrival) and free <= at:
            shapes.append(tag("text", escape(label), x=f"{at:.3f}%", y=13, dx=6, class_="alarm" if late else None))
            free = at + (len(label) + 2) * 0.85
    return shapes


def reload_ticks(reloads: list[Reload], axis: Axis) -> list[str]:
    """A tick for the reloads of each thousandth of the axis, whose title lists them."""
    near: dict[int, list[Reload]] = {}
    for reload in reloads:
        near.setdefault(int(10 * axis.at(reload.cycle)), []).append(reload)
    shapes = []
    for group in near.values():
        words = [f"cycle {num(reload.cycle)}: {reload.task} {reload.number} reloads set {reload.cache_set}, evicted by "
                 f"{reload.evictor}, preempted by {reload.preemptor}" for reload in group[:TOGETHER]]
        words += [f"and {num(len(group) - TOGETHER)} more"] if len(group) > TOGETHER else []
        shapes.append(axis.upright("tick", group[0].cycle, (12, 36), "\n".join(words)))
    return shapes
