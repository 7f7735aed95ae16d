"""The task sets whose responses are searched, and all that is known of their windows."""
from __future__ import annotations

import tomllib
from dataclasses import dataclass
from pathlib import Path
from typing import Any

from commonkit.calls import Trouble
from reportkit import windows as sums
from reportkit.parts import all_parts
from reportkit.program import read_bodies, read_code
from reportkit.reading import Refined, TaskSet, read_set

from . import bounds, turns
from .ending import stop
from .kernels import KERNELS, Kernel, Loop, Platform, Timed, read_image, set_text
from .measuring import BASE, System
from .program import Job, Part, certified_delay
from .stepping import walk
from .windows import Window

SETS = Path(__file__).parent / "sets.toml"
CONTROLLER = KERNELS.parent / "controller"
# The cycles within which a job alone completes.
ALONE_CYCLES = 1_000_000


@dataclass(frozen=True)
class Searched:
    """A task set with the files of its programs by name."""

    name: str
    text: str
    files: dict[str, bytes]

    @property
    def raw(self) -> dict[str, Any]:
        """Its document."""
        return tomllib.loads(self.text)

    @property
    def given(self) -> TaskSet:
        """Its platform and its tasks."""
        return read_set(self.raw)


def kernel_sets(system: System, found: dict[str, Any]) -> dict[str, Searched]:
    """The sets of kernels by name, with the data of the longest runs in `found`."""
    content = bounds.with_longest_data(system.image, found).content
    return {name: Searched(name, set_text(BASE, tasks), {"kernels.elf": content})
            for name, tasks in read_sets(system).items()}


def controller_set() -> Searched:
    """The set of examples/controller, with the data of its file."""
    text = (CONTROLLER / "set.toml").read_text(encoding="utf-8")
    names = {task["file"] for task in tomllib.loads(text)["task"]}
    return Searched("controller", text, {name: (CONTROLLER / name).read_bytes() for name in names})


def read_sets(system: System) -> dict[str, list[Timed]]:
    """The sets of kernels by name, as tasks."""
    with SETS.open("rb") as handle:
        sets = tomllib.load(handle)["set"]
    return {one["name"]: [Timed(system.kernels[task["kernel"]], task["period"], task["jitter"])
                          for task in one["task"]] for one in sets}


@dataclass(frozen=True)
class Judged:
    """What `crpd` says of a set, the certified delays in the windows of `analyze`, what is in the
    windows of `refine`, and the cycles of a job of each task alone."""

    parts: list[Part]
    refined: list[Window]
    delays: list[int]
    sums: list[sums.Window]
    alone: list[int]


def judge(system: System, one: Searched) -> Judged:
    """All of it. Then the set is in set.toml, and its certificate in cert.json."""
    crpd, given = system.crpd, one.given
    for name, content in one.files.items():
        (crpd.folder / name).write_bytes(content)
    refined = crpd.verdict("refine", one.text)
    parts = crpd.certificate(one.text)
    if refined.failed:
        stop(f"refine does not accept {one.name}")
    lines = crpd.explain(1, [])
    names = [task.name for task in given.tasks]
    return Judged(parts, refined.windows, [certified_delay(lines, name) for name in names],
                  summed(system, one), [alone(system, one, name) for name in names])


def summed(system: System, one: Searched) -> list[sums.Window]:
    """The refined windows, summed up again from the code and the stated loops."""
    crpd, stated = system.crpd, one.raw
    raw = {**stated, "task": [{**task, "file": str(crpd.folder / task["file"])}
                              for task in stated["task"]]}
    given = read_set(raw)
    try:
        longest = [body.longest for body in read_bodies(crpd.crpd, "set.toml", given)]
        parts = all_parts(*read_code(crpd.crpd, "set.toml", given), given, raw)
        told = [Refined(int(line[2]), int(line[4]), int(line[6]), line[8])
                for line in crpd.call("refine", "set.toml").lines()[1:]]
        return sums.Refinement(given, parts, sums.blocking_of(given, longest)).summed(told)
    except Trouble as trouble:
        stop(str(trouble))


def alone(system: System, one: Searched, name: str) -> int:
    """The cycles of a task's job alone and from an empty cache, without its switch."""
    run = system.crpd.run(ALONE_CYCLES, [Job(name, 0, 0)])
    if not run.is_legal_and_kept() or not run.jobs[0].is_complete():
        stop(f"{name} of {one.name} does not complete alone")
    return run.jobs[0].end - one.given.platform.switch


def turned(one: Searched, target: int, cycles: int) -> dict[str, Any]:
    """How often a task's job alone, which takes so many cycles, reached the heads of its loops, and
    how often the bounds let it."""
    task, raw = one.raw["task"][target], one.raw["platform"]
    platform = Platform(**{key: value for key, value in raw.items() if key != "switching"})
    image = read_image(one.files[task["file"]])
    run = walk(image, task["entry"], task["stack"], platform)
    if run.cycles != cycles:
        stop(f"the recomputed run of {task['name']} takes {run.cycles} cycles")
    loops = [Loop(loop["head"], loop["bound"], loop["range"]) for loop in task.get("loop", [])]
    return turns.numbers(image, Kernel(task["entry"], loops), platform, run)
