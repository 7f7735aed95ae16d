"""The outcome in words."""
from __future__ import annotations

from dataclasses import dataclass

from .judge import Document, Judgement, Response, Slack


@dataclass(frozen=True)
class Stand:
    """What `crpd` says of a linked file, with the slack."""

    judgement: Judgement
    slack: Slack


def gains(tasks: list[Document], commands: tuple[str, str], start: Stand, now: Stand) -> list[str]:
    """For each task what it gained, then the verdicts of both commands, and the slack."""
    before, after = (stand.judgement.main.responses_by_name() for stand in (start, now))
    lines = [task_line(task, before.get(task["name"]), after.get(task["name"])) for task in tasks]
    for command, one, two in zip(commands, verdicts(start), verdicts(now)):
        lines.append(f"{command} {one} now {two}")
    lines.append(f"slack switch {start.slack.switch} now {now.slack.switch}")
    lines.append(f"slack miss {start.slack.miss} now {now.slack.miss}")
    return lines


def verdicts(stand: Stand) -> list[str]:
    """The verdicts of both commands."""
    return [stand.judgement.main.text(), stand.judgement.other.text()]


def task_line(task: Document, before: Response | None, after: Response | None) -> str:
    """What a task gained."""
    change = ""
    if before and after:
        change = f" {100 * (after.cycles - before.cycles) / before.cycles:+.1f} %"
    return f"{task['name']} deadline {task['deadline']} response {cycles(before)} now {cycles(after)}{change}"


def cycles(response: Response | None) -> str:
    """A response, `none` of a task without a window."""
    return str(response.cycles) if response else "none"
