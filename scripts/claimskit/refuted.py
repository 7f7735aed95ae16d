"""The claims that a stored run refutes: each says a number of cycles that no job may exceed, and the run has one that does."""
from __future__ import annotations

from collections.abc import Callable
from dataclasses import dataclass, replace

from commonkit.calls import Trouble
from evaluatekit.windows import Delay, PerJob, TaskSet, plain_ecb, plain_ucb

from .stored import Stored


@dataclass(frozen=True)
class Claim:
    """What is claimed, the stored set and the run that refute it, the task whose job is too late, and what the claim says of it."""

    words: str
    name: str
    run: str
    task: str
    says: Callable[[Stored, str], int]

    def row(self, stored: Stored) -> str:
        """The row of the page. The job is later than the claim says, and not later than `refine` says."""
        claimed, taken = self.says(stored, self.task), stored.taken(self.run, self.task)
        refined = stored.windows("refine")[self.task].length
        if not claimed < taken <= refined:
            raise Trouble(f"{self.run} refutes nothing: {claimed} by the claim, {taken} in the run, {refined} by refine")
        return f"| {self.words} | `{self.name}.toml` | `{self.run}.toml` | `{self.task}` | {claimed} | {taken} | {refined} |"


def window(tasks: TaskSet, delay: Delay, place: int) -> int:
    """The window of a task by a delay for which the windows of higher tasks do not matter."""
    length = tasks.least_window(place, delay, 1)
    if length is None:
        raise Trouble("a claim gives no window")
    return length


def per_job(each: Callable[[TaskSet, int, int], int]) -> Callable[[Stored, str], int]:
    """A claim on the reloads that each higher job costs."""
    return lambda stored, task: window(stored.tasks, PerJob(stored.tasks, each), stored.place(task))


def smaller_for_each_pair(tasks: TaskSet, i: int, j: int) -> int:
    """The smaller of both union delays, for each higher task by itself."""
    return min(plain_ucb(tasks, i, j), plain_ecb(tasks, i, j))


def of_the_task_alone(tasks: TaskSet, i: int, j: int) -> int:
    """What j evicts of what is useful to i."""
    return tasks.lost_to_one[i][j]


def of_one_by_its_own(tasks: TaskSet, i: int, j: int) -> int:
    """The most that j itself evicts of what is useful to one affected task."""
    return max(tasks.lost_to_one[k][j] for k in range(j + 1, i + 1))


def without_jitter_in_delays(stored: Stored, task: str) -> int:
    """The window if jitter counts for the bounds of higher jobs, and not for the union delays that they cause."""
    tasks, place = stored.tasks, stored.place(task)
    punctual = TaskSet([replace(row, jitter=0) for row in tasks.tasks], tasks.switch, tasks.miss)
    delay, length, demand = PerJob(tasks, plain_ucb), 0, 1
    while demand > length:
        length = demand
        demand = tasks.demand(place, tasks.jobs(place, length), delay.reloads(place, punctual.jobs(place, length)))
    return length


def beside_persistent_blocks(stored: Stored, task: str) -> int:
    """The window by the bounds that `refine` took, with what is useful by the bounds of the certificate."""
    bounds = [int(line[2]) for line in stored.ask("refine").lines()[1:]]
    rows = [replace(row, bound=bound) for row, bound in zip(stored.tasks.tasks, bounds)]
    tasks = TaskSet(rows, stored.tasks.switch, stored.tasks.miss)
    return window(tasks, PerJob(tasks, plain_ucb), stored.place(task))


def in_run(run: str) -> Callable[[Stored, str], int]:
    """A claim that no run is worse than this one."""
    return lambda stored, task: stored.taken(run, task)


REFUTED = (
    Claim("no release is worse than all at once", "pair", "pair-later", "other", in_run("pair-together")),
    Claim("the smaller delay for each pair of tasks", "nested", "nested-run", "lower", per_job(smaller_for_each_pair)),
    Claim("what the higher task evicts of the lower one", "nested", "nested-run", "lower", per_job(of_the_task_alone)),
    Claim("what the preempting job itself evicts", "nested", "nested-run", "lower", per_job(of_one_by_its_own)),
    Claim("delays without jitter", "jitter", "jitter-run", "steps", without_jitter_in_delays),
    Claim("smaller bounds, useful blocks as before", "turns", "turns-run", "turns", beside_persistent_blocks),
    Claim("a fuller cache is never worse", "warm", "warm-more", "two", in_run("warm-less")),
)
