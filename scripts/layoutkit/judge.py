"""What a placement is worth, by what `crpd` says of the linked file."""
from __future__ import annotations

import json
from dataclasses import dataclass, replace
from functools import total_ordering
from pathlib import Path
from typing import Any

from commonkit.calls import Output, Trouble
from commonkit.toml import toml

from .calling import call

Document = dict[str, Any]
LONGER = 64  # how much longer deadlines are made, to have a response of a task without a window
MOST_CYCLES = 1 << 40
MOST_SHOWN = 300  # signs of an output that is not understood
NEVER = float("inf")
COMMANDS = ("refine", "analyze")


@dataclass(frozen=True)
class Response:
    """The response of a task, with the method of its window."""

    task: str
    cycles: int
    method: str


@dataclass(frozen=True)
class Verdict:
    """What a command says of a set: how many tasks have windows, up to the first without one; their responses, and the sum of
    these over the deadlines. Of the first task without a window: its name, and its response over its deadline, if that were
    longer."""

    windows: int
    responses: tuple[Response, ...] = ()
    spent: float = 0.0
    failed: str = ""
    beyond: float = 0.0

    def text(self) -> str:
        """The verdict in a word or two, as `crpd` writes it."""
        return f"unschedulable {self.failed}" if self.failed else "yes"

    def progress(self) -> str:
        """How good it is, in a line."""
        text = f"tasks with windows {self.windows}, their responses over deadlines {self.spent:.4f}"
        return f"{text}, that of {self.failed} {self.beyond:.4f}" if self.failed else text

    def responses_by_name(self) -> dict[str, Response]:
        """The responses of the tasks that have windows."""
        return {response.task: response for response in self.responses}


@total_ordering
@dataclass(frozen=True)
class Score:
    """How good a placement is: the more tasks have windows, the better; then the nearer the first one without is to its deadline;
    then the more tasks have windows by the other command; then the less the sum of responses over deadlines is."""

    windows: int
    beyond: float
    other_windows: int
    spent: float

    def key(self) -> tuple[float, ...]:
        """Greater for the better one."""
        return (self.windows, -self.beyond, self.other_windows, -self.spent)

    def __lt__(self, other: Score) -> bool:
        return self.key() < other.key()


@dataclass(frozen=True)
class Slack:
    """The lines of `crpd slack`: the largest costs of a switch and of a line with which the set is accepted, or `none`."""

    switch: str
    miss: str

    def order(self) -> tuple[int, int]:
        """Greater for the better one."""
        return (number_of(self.switch), number_of(self.miss))


def number_of(word: str) -> int:
    """A cost of `crpd slack`; `none` is below all."""
    return int(word) if word.isdecimal() else -1


@dataclass(frozen=True)
class Judgement:
    """What `crpd` says of a linked file: by the command that counts, and by the other one."""

    main: Verdict
    other: Verdict

    @property
    def score(self) -> Score:
        """How good it is."""
        return Score(self.main.windows, self.main.beyond, self.other.windows, self.main.spent)


@dataclass(frozen=True)
class Judge:
    """The certifier with a task set, in which a linked file takes the place of one. The first of its commands counts."""

    program: str
    document: Document
    file: str
    commands: tuple[str, str] = COMMANDS

    @property
    def tasks(self) -> list[Document]:
        """The tasks in order of priority."""
        return list(self.document["task"])

    def judged(self, linked: Path) -> Judgement:
        """What both commands say."""
        main, other = self.commands
        return Judgement(self.with_responses(self.verdict(main, linked), main, linked), self.verdict(other, linked))

    def verdict(self, command: str, linked: Path) -> Verdict:
        """What a command says of the set, with responses if it accepts it; `Trouble` if it refuses it."""
        answer = self.ask(command, self.tasks, linked)
        if answer.status == 0:
            responses = self.responses(answer)
            return Verdict(len(responses), responses, self.spent(responses))
        first = next((k for k, task in enumerate(self.tasks) if answer.text.split() == ["unschedulable", task["name"]]), None)
        if first is None:
            raise Trouble(f"crpd {command} ends with status 1 and writes: {shown(answer.text)}")
        return Verdict(first, failed=self.tasks[first]["name"])

    def with_responses(self, verdict: Verdict, command: str, linked: Path) -> Verdict:
        """A verdict with responses also if a task has no window: with longer deadlines for that one and those below it."""
        first = verdict.windows
        if not verdict.failed:
            return verdict
        answer = self.ask(command, [*self.tasks[:first], *map(with_longer_deadline, self.tasks[first:])], linked)
        if answer.status != 0:
            return replace(verdict, beyond=NEVER)
        responses = self.responses(answer)
        before, late = responses[:first], responses[first:first + 1]
        return Verdict(first, before, self.spent(before), verdict.failed, self.spent(late))

    def responses(self, answer: Output) -> tuple[Response, ...]:
        """The responses of all tasks; `Trouble` if the output has others."""
        try:
            found = read_responses(answer.text)
        except (ValueError, KeyError, IndexError, TypeError):
            found = ()
        if [response.task for response in found] != [task["name"] for task in self.tasks]:
            raise Trouble(f"{self.program} does not write the responses of all tasks: {shown(answer.text)}")
        return found

    def spent(self, responses: tuple[Response, ...]) -> float:
        """The sum of responses over deadlines."""
        deadlines = {task["name"]: task["deadline"] for task in self.tasks}
        return float(sum(response.cycles / deadlines[response.task] for response in responses))

    def slack(self, linked: Path) -> Slack:
        """What the costs of the platform may rise to."""
        lines = self.ask("slack", self.tasks, linked).lines()
        if [words[0] for words in lines if len(words) > 1] != ["switch", "miss"]:
            raise Trouble(f"{self.program} does not write the slack")
        return Slack(lines[0][1], lines[1][1])

    def ask(self, command: str, tasks: list[Document], linked: Path) -> Output:
        """What a command writes of the set with these tasks; `Trouble` if that is neither done nor no."""
        path = linked.with_suffix(".toml")
        path.write_text(self.set_text(tasks, linked))
        done = call([self.program, command, str(path)])
        text = done.stdout.decode(errors="replace")
        if done.returncode not in (0, 1):
            raise Trouble(f"crpd {command} ends with status {done.returncode}: {shown(text)}")
        return Output(done.returncode, text)

    def set_text(self, tasks: list[Document], linked: Path) -> str:
        """The set with these tasks and the linked file."""
        return toml({**self.document, "task": [self.with_file(task, linked) for task in tasks]})

    def with_file(self, task: Document, linked: Path) -> Document:
        """The task with the linked file, if its own is the one that is replaced."""
        return {**task, "file": str(linked)} if task["file"] == self.file else task


def shown(text: str) -> str:
    """The first line of an output that is not as it should be."""
    return text.strip().partition("\n")[0][:MOST_SHOWN] or "nothing"


def with_longer_deadline(task: Document) -> Document:
    """The task with a longer deadline, and with as long a period."""
    cycles = min(LONGER * task["period"], MOST_CYCLES)
    return {**task, "period": cycles, "deadline": cycles}


def read_responses(text: str) -> tuple[Response, ...]:
    """The responses that a certificate or the `yes` of `refine` has."""
    if text.startswith("{"):
        return tuple(Response(task["name"], task["response"], task["method"]) for task in json.loads(text)["tasks"])
    lines = [line.split() for line in text.splitlines()[1:]]
    return tuple(Response(words[0], int(words[6]), words[8]) for words in lines)
