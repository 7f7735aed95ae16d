"""Reads what goes into `crpd` and what it writes."""
from __future__ import annotations

import json
from dataclasses import dataclass, fields
from pathlib import Path
from typing import Any

from commonkit import calls
from commonkit.calls import Crpd, Output, Trouble
from commonkit.toml import read_toml_file

Raw = dict[str, Any]  # a table as TOML or JSON has it


@dataclass(frozen=True)
class Platform:
    """The numbers of the core, under the names of the set's keys."""

    line: int
    sets: int
    hit: int
    miss: int
    data: int
    taken: int
    switch: int
    mul: int = 0
    div: int = 0
    switching: str = "cycle"

    def switches_between_instructions(self) -> bool:
        """Whether switches wait for the end of an instruction."""
        return self.switching == "instruction"


@dataclass(frozen=True)
class Task:
    """A task of the set. A place (`entry`, `stack`) is a number, or a text with a symbol."""

    name: str
    file: str
    period: int
    deadline: int
    jitter: int
    entry: int | str | None = None
    stack: int | str | None = None


@dataclass(frozen=True)
class TaskSet:
    """The platform, and the tasks in order of priority, the highest first."""

    platform: Platform
    tasks: list[Task]


@dataclass(frozen=True)
class Claim:
    """What a certificate says of a task."""

    name: str
    bound: int
    evicting: frozenset[int]
    useful: frozenset[int]
    method: str
    window: int
    response: int


def read_bytes(name: str) -> bytes:
    """The bytes of a file; `Trouble` if it cannot be read."""
    try:
        return Path(name).read_bytes()
    except OSError as error:
        raise Trouble(f"{name}: {error.strerror}") from error


def read_toml(name: str) -> Raw:
    """The document of a file; `Trouble` if it is none."""
    try:
        return read_toml_file(name)[1]
    except OSError as error:
        raise Trouble(f"{name}: {error.strerror}") from error


def read_set(raw: Raw) -> TaskSet:
    """A set that `crpd` does not refuse, without its loops."""
    keys = [field.name for field in fields(Task)]
    tasks = [Task(**{key: task[key] for key in keys if key in task}) for task in raw["task"]]
    return TaskSet(Platform(**raw["platform"]), tasks)


def read_claims(text: str) -> list[Claim]:
    """What a certificate that `crpd` does not refuse says, task by task."""
    return [read_claim(task) for task in json.loads(text)["tasks"]]


def read_claim(task: Raw) -> Claim:
    """What a certificate says of one task."""
    evicting, useful = frozenset(task["evicting"]), frozenset(task["useful"])
    return Claim(task["name"], task["bound"], evicting, useful, task["method"], task["window"], task["response"])


@dataclass(frozen=True)
class Refined:
    """What `refine` says of a task."""

    bound: int
    window: int
    response: int
    method: str


def read_refined(answer: Output) -> list[Refined]:
    """The lines after the `yes` of `refine`, task by task; none if some task has no window."""
    return [Refined(int(line[2]), int(line[4]), int(line[6]), line[8]) for line in answer.lines()[1:]]


@dataclass(frozen=True)
class Reload:
    """A line that a job loads again. Evictor and preemptor are a task's name with a job's number."""

    task: str
    number: int
    cache_set: int
    cycle: int
    evictor: str
    preemptor: str


@dataclass(frozen=True)
class Run(calls.Run):
    """A run of a script; with a certificate also its reloads, and the certified cycles of reloads by task."""

    reloads: list[Reload]
    delays: dict[str, int]


def read_run(crpd: Crpd, name: str, certificate: str | None, script: str) -> Run | Output:
    """The run of a script, or its refusal."""
    simulated = crpd.ask("simulate", name, script)
    if simulated.status != 0:
        return simulated
    run = calls.read_run(simulated, read_toml(script)["cycles"])
    explained = crpd.ask("explain", name, certificate, script).lines() if certificate else []
    reloads = [read_reload(line) for line in explained if line[0] == "reload"]
    delays = {line[1]: int(line[2]) for line in explained if line[0] == "delay"}
    return Run(run.jobs, run.legal, run.kept, reloads, delays)


def read_reload(line: list[str]) -> Reload:
    """A line `reload NAME NUMBER set S cycle T evictor NAME NUMBER preemptor NAME NUMBER`."""
    _, task, number, _, cache_set, _, cycle, _, *evictor, _, preemptor, job = line
    return Reload(task, int(number), int(cache_set), int(cycle), " ".join(evictor), f"{preemptor} {job}")
