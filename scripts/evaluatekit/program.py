"""Calls of the command `crpd`, and what is read from its texts."""
import json
import os
import re
import subprocess
from collections.abc import Iterable
from dataclasses import dataclass
from pathlib import Path

from commonkit import calls

from .ending import stop
from .kernels import Image
from .windows import Window


@dataclass(frozen=True)
class Job:
    """A job of a script."""

    task: str
    arrival: int
    release: int

    def text(self) -> str:
        """The job in a script."""
        return (f'[[job]]\ntask = "{self.task}"\narrival = {self.arrival}\n'
                f"release = {self.release}\n")


@dataclass(frozen=True)
class Run(calls.Run):
    """The run of a script of that many cycles."""

    cycles: int

    def is_legal_and_kept(self) -> bool:
        """Whether certificates say something of it."""
        return self.legal and self.kept


@dataclass(frozen=True)
class Part:
    """What a certificate says of a task."""

    name: str
    bound: int
    evicting: list[int]
    useful: list[int]
    method: str
    window: int
    nodes: int


@dataclass(frozen=True)
class Verdict:
    """The windows of a set's tasks, or the name of the first task without one."""

    windows: list[Window]
    failed: str = ""


# Both forms of a yes: the keys of a certificate, which are in this order, and a line a task.
CERTIFIED = re.compile(r'"method":"(?P<method>\w+)".*?"window":(?P<window>\d+)')
TOLD = re.compile(r"^\S+ bound \d+ window (?P<window>\d+) response \d+ method (?P<method>[\w-]+)$",
                  re.MULTILINE)


def read_verdict(answer: calls.Output) -> Verdict:
    """The windows that `analyze`, `classic`, `check` or `refine` writes."""
    if answer.status != 0:
        return Verdict([], answer.text.split()[1])
    form = TOLD if answer.text.startswith("yes") else CERTIFIED
    return Verdict([Window(int(found["window"]), found["method"])
                    for found in form.finditer(answer.text)])


class Crpd:
    """Calls of the program over files in a separate folder."""

    def __init__(self, program: Path, folder: Path) -> None:
        self.program, self.calls, self.folder = str(program.resolve()), 0, folder
        self.crpd = calls.Crpd(self.program, self.folder)

    def write(self, name: str, text: str) -> None:
        """Writes a file into the folder."""
        (self.folder / name).write_text(text, encoding="ascii")

    def load(self, image: Image) -> None:
        """Puts the image of all tasks in place."""
        (self.folder / "kernels.elf").write_bytes(image.content)

    def call(self, *words: str) -> calls.Output:
        """What a command writes; its status has to be 0 or 1."""
        self.calls += 1
        try:
            answer = self.crpd.ask(*words)
        except calls.Trouble as trouble:
            stop(str(trouble))
        if answer.status not in (0, 1):
            stop(f"{' '.join(words)}: {answer.text.strip()}")
        return answer

    def certificate(self, text: str) -> list[Part]:
        """The parts of a set that is accepted. Then its certificate is in cert.json."""
        self.write("set.toml", text)
        answer = self.call("analyze", "set.toml")
        if answer.status != 0:
            stop(answer.text.strip())
        self.write("cert.json", answer.text)
        return [Part(task["name"], task["bound"], task["evicting"], task["useful"],
                     task["method"], task["window"], len(task["potentials"]))
                for task in json.loads(answer.text)["tasks"]]

    def verdict(self, command: str, text: str) -> Verdict:
        """What a command says of a set."""
        self.write("set.toml", text)
        return read_verdict(self.call(command, "set.toml"))

    def refined_bound(self, text: str) -> int:
        """The bound that `refine` has for the only task of a set: the smaller one of both."""
        self.write("set.toml", text)
        answer = self.call("refine", "set.toml")
        if answer.status != 0:
            stop(answer.text.strip())
        return int(answer.lines()[1][2])

    def script(self, cycles: int, jobs: Iterable[Job]) -> None:
        """Writes a script."""
        self.write("script.toml", f"cycles = {cycles}\n" + "".join(job.text() for job in jobs))

    def run(self, cycles: int, jobs: list[Job]) -> Run:
        """The run of a script on the set in set.toml."""
        self.script(cycles, jobs)
        run = calls.read_run(self.call("simulate", "set.toml", "script.toml"), cycles)
        return Run(run.jobs, run.legal, run.kept, cycles)

    def explain(self, cycles: int, jobs: list[Job]) -> list[list[str]]:
        """The words of each line of `explain` for the set in set.toml with cert.json."""
        self.script(cycles, jobs)
        return self.call("explain", "set.toml", "cert.json", "script.toml").lines()


def reloads(lines: list[list[str]], task: str) -> int:
    """How many reloads `explain` lists for the first job of a task."""
    return sum(words[:3] == ["reload", task, "0"] for words in lines)


def certified_delay(lines: list[list[str]], task: str) -> int:
    """The certified cycles of reloads in a task's window, as `explain` states them."""
    return next(int(words[2]) for words in lines if words[:2] == ["delay", task])


def processor_seconds(program: str, folder: Path, words: list[str]) -> float:
    """The processor time of a call, with that of the system for it."""
    with open(os.devnull, "wb") as sink:
        done = subprocess.Popen([program, *words], cwd=folder, stdout=sink)
        _, _, usage = os.wait4(done.pid, 0)
    taken: float = usage.ru_utime + usage.ru_stime
    return taken
