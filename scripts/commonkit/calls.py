"""Calls of the program `crpd`, and the runs that its `simulate` writes."""
from __future__ import annotations

import subprocess
from dataclasses import dataclass
from pathlib import Path


class Trouble(Exception):
    """Why something cannot be had."""


@dataclass(frozen=True)
class Output:
    """What a command wrote, with its status: 0 done, 1 no, 2 refused."""

    status: int
    text: str

    def lines(self) -> list[list[str]]:
        """The words of each line."""
        return [line.split() for line in self.text.splitlines()]


@dataclass(frozen=True)
class Crpd:
    """The program, and the folder from which its files are meant."""

    path: str
    folder: Path | None = None

    def ask(self, *words: str) -> Output:
        """Runs a command; `Trouble` if it does not start, or if its status is not done, no or refused."""
        try:
            done = subprocess.run([self.path, *words], cwd=self.folder, stdout=subprocess.PIPE, close_fds=False, check=False)
        except OSError as error:
            raise Trouble(f"{self.path} does not start: {error.strerror}") from error
        text = done.stdout.decode(errors="replace")
        if done.returncode not in (0, 1, 2):
            raise Trouble(f"`crpd {' '.join(words)}` ends with status {done.returncode}: {text.strip()[:300]}")
        return Output(done.returncode, text)


@dataclass(frozen=True)
class Job:
    """A job of a run. Its `state` is `answer`, `open`, `fault` or `unreleased`; its `end` is when it completed, the end of the
    run if it is open, otherwise its release."""

    task: str
    number: int
    arrival: int
    release: int
    state: str
    end: int

    def name(self) -> str:
        """The task's name with the number of the job."""
        return f"{self.task} {self.number}"

    def is_complete(self) -> bool:
        """Whether it completed."""
        return self.state == "answer"

    def is_under_way(self) -> bool:
        """Whether it was released and did not complete."""
        return self.state in ("open", "fault")


@dataclass(frozen=True)
class Run:
    """What `simulate` writes."""

    jobs: list[Job]
    legal: bool
    kept: bool

    def last_line(self) -> str:
        """The last line of the text."""
        return f"run {'legal' if self.legal else 'illegal'} {'kept' if self.kept else 'broken'}"


def read_run(answer: Output, cycles: int) -> Run:
    """The run of a script of that many cycles; `Trouble` if the text is none."""
    try:
        *jobs, (_, legal, kept) = answer.lines()
        return Run([read_job(line, cycles) for line in jobs], legal == "legal", kept == "kept")
    except ValueError as fault:
        raise no_run(answer) from fault


def read_kept(answer: Output) -> bool:
    """Whether a run is kept, by its last line alone; `Trouble` if that is none."""
    match answer.text.rstrip().rpartition("\n")[2].split():
        case ["run", _, "kept" | "broken" as kept]:
            return kept == "kept"
    raise no_run(answer)


def no_run(answer: Output) -> Trouble:
    """What stops a script if the program's text is no run."""
    return Trouble(f"the program wrote what is no run: {answer.text.strip()[:100]!r}")


def read_job(line: list[str], cycles: int) -> Job:
    """A line `job NAME NUMBER arrival A release R answer T`, or with another state instead of `answer T`."""
    _, task, number, _, arrival, _, release, state, *end = line
    last = int(end[0]) if end else cycles if state == "open" else int(release)
    return Job(task, int(number), int(arrival), int(release), state, last)
