"""A stored task set of examples/claims, with what the program says of it and of its runs."""
from __future__ import annotations

import json
from dataclasses import dataclass
from functools import cached_property
from pathlib import Path
from typing import Any

from commonkit.calls import Crpd, Job, Output, Run, Trouble, read_run
from commonkit.sets import read_script_file, read_set_file
from evaluatekit.measuring import mask
from evaluatekit.program import read_verdict
from evaluatekit.windows import Task, TaskSet, Window


@dataclass(frozen=True)
class Stored:
    """A set by its name, which is that of its file without the ending; so are those of its runs."""

    crpd: Crpd
    folder: Path
    name: str

    def path(self, name: str) -> str:
        """The file of a set or a run."""
        return str(self.folder / f"{name}.toml")

    def ask(self, *words: str) -> Output:
        """What a command says of the set; it must not be refused."""
        answer = self.crpd.ask(words[0], self.path(self.name), *words[1:])
        if answer.status == 2:
            raise Trouble(f"{self.name}: {answer.text.strip()}")
        return answer

    @cached_property
    def document(self) -> dict[str, Any]:
        """The set's document."""
        return read_set_file(self.path(self.name))[1]

    @cached_property
    def names(self) -> list[str]:
        """The tasks, the highest first."""
        return [task["name"] for task in self.document["task"]]

    def windows(self, command: str) -> dict[str, Window]:
        """The windows by a command that accepts the set."""
        verdict = read_verdict(self.ask(command))
        if verdict.failed:
            raise Trouble(f"{command} does not accept {self.name}")
        return dict(zip(self.names, verdict.windows))

    @cached_property
    def certificate(self) -> list[dict[str, Any]]:
        """The parts of the certificate, by task."""
        parts: list[dict[str, Any]] = json.loads(self.ask("analyze").text)["tasks"]
        return parts

    @cached_property
    def tasks(self) -> TaskSet:
        """The set as the formulas know it, by the parts of the certificate."""
        found = [Task(part["bound"], mask(part["evicting"]), mask(part["useful"]), task["period"], task["deadline"], task["jitter"])
                 for part, task in zip(self.certificate, self.document["task"])]
        platform = self.document["platform"]
        return TaskSet(found, platform["switch"], platform["miss"])

    def place(self, task: str) -> int:
        """The place of a task in the set."""
        return self.names.index(task)

    def run(self, name: str) -> Run:
        """A stored run, which has to be legal and kept."""
        cycles = read_script_file(self.path(name))["cycles"]
        run = read_run(self.ask("simulate", self.path(name)), cycles)
        if not (run.legal and run.kept):
            raise Trouble(f"{name}: {run.last_line()}")
        return run

    def taken(self, name: str, task: str) -> int:
        """The cycles from release to completion of a task's first job in a run."""
        job: Job = next(job for job in self.run(name).jobs if job.task == task)
        if not job.is_complete():
            raise Trouble(f"{name}: {job.name()} is not complete")
        return job.end - job.release
