"""What in a run is illegal or broken: the jobs that come too early or too late, and the loops whose bounds are broken."""
from __future__ import annotations

from collections import defaultdict

from commonkit.calls import Crpd, Job, Run
from loopkit.runs import Runner
from loopkit.seen import Counter, other_break

from .places import Places
from .reading import Raw, read_toml

MOST = 5  # of each kind are told


def misdeeds(crpd: Crpd, raw: Raw, script: str, run: Run) -> list[str]:
    """What is wrong with a run, in words."""
    found = illegal_jobs(raw, run.jobs)[:MOST] if not run.legal else []
    return found + (breaks(crpd, raw, read_toml(script))[:MOST] if not run.kept else [])


def illegal_jobs(raw: Raw, jobs: list[Job]) -> list[str]:
    """The jobs of which an arrival or a release is not allowed."""
    found, by_task = [], defaultdict(list)
    for job in jobs:
        by_task[job.task].append(job)
    for task in raw["task"]:
        own = sorted(by_task[task["name"]], key=lambda job: job.arrival)
        found += [f"{job.name()} arrives {job.arrival - other.arrival} cycles after {other.name()}, and the period is {task['period']}"
                  for other, job in zip(own, own[1:]) if job.arrival - other.arrival < task["period"]]
        found += [f"{job.name()} is released {job.release - job.arrival} cycles after its arrival, and the jitter is {task['jitter']}"
                  for job in own if not 0 <= job.release - job.arrival <= task["jitter"]]
    return found


def breaks(crpd: Crpd, raw: Raw, script: Raw) -> list[str]:
    """The loops whose bounds are broken; what else broke the run, if none is."""
    runner = Runner(crpd, raw, script)
    with runner.folder:
        counter = Counter(runner, script["cycles"])
        if not runner.run({}).kept:
            return [other_break(counter).text]
        loops = runner.loops()
        stated = {key: runner.stated(key) for key in loops}
        broken = [key for key in loops if key not in counter.kept_by(loops, stated)]
        places = Places(raw["task"])
        return [broken_loop(raw, places, key, counter.turns(key, stated[key], False).turns) for key in broken[:MOST]]


def broken_loop(raw: Raw, places: Places, key: tuple[int, int], turns: int) -> str:
    """A loop whose bound is broken."""
    task = raw["task"][key[0]]
    loop, image = task["loop"][key[1]], places.images[task["file"]]
    where = places.of_task(task["name"], image.elf.address(loop["head"]))
    return f"{task['name']} reaches the head of the loop at {where} {turns} times, and its bound is {loop['bound']}"
