"""Gathers what a page shows of a set."""
from __future__ import annotations

import json
from dataclasses import dataclass
from pathlib import Path

from commonkit.calls import Crpd, Output, Trouble
from commonkit.toml import toml

from .misdeeds import misdeeds
from .parts import all_parts
from .places import Costs, Places, read_costs
from .program import Body, read_bodies, read_code
from .reading import (Claim, Platform, Raw, Refined, Run, Task, TaskSet, read_bytes, read_claims, read_refined, read_run,
                      read_set, read_toml)
from .windows import Analysis, Refinement, Window, blocking_of

LONGEST = 1 << 40  # the longest period that a set may state
TASK_REFUSALS = range(41, 65)  # refusals whose subject is a task
CODE_REFUSALS = range(50, 65)  # of these, those whose detail is an address
ROUND = 4  # lines of code that are shown on each side of it


@dataclass(frozen=True)
class Request:
    """The files that a page is about."""

    task_set: str
    script: str | None = None
    certificate: str | None = None


@dataclass(frozen=True)
class Refusal:
    """A line `refused NUMBER NAME SUBJECT DETAIL`, and if the detail is an address, the code round it, and its function and
    source line."""

    number: int
    name: str
    subject: str
    detail: str
    code: list[str]
    where: str = ""


@dataclass(frozen=True)
class Objection:
    """A line `no NAME clause K place P` on a given certificate, with what that claims of the task."""

    task: str
    clause: int
    place: int
    claim: Claim | None


@dataclass(frozen=True)
class CacheSets:
    """What a task's code evicts, and what is useful to it."""

    evicting: frozenset[int]
    useful: frozenset[int]


@dataclass(frozen=True)
class Facts:
    """What there is to report of a set that is not refused. If a task fails there is no certificate, but perhaps refined
    windows; there are windows of the first tasks alone, up to one that may not complete within its period, and perhaps no
    claims at all. Without refined windows, `unrefined` is the first task that has none. `summed` are the refined windows summed
    up again, none if the code is too large for that. Of each task there is where its cycles go, if that comes to its bound; of a
    set without certificate the caches with which it would have one; and of a run what in it is illegal or broken."""

    given: TaskSet
    failing: str | None
    objection: Objection | None
    analysis: Analysis | None
    windows: list[Window]
    cache: list[CacheSets]
    bodies: list[Body]
    slack: list[list[str]]
    classic: Output
    refined: list[Refined]
    summed: list[Window]
    unrefined: str
    run: Run | Refusal | None
    costs: list[Costs | None]
    wider: list[str]
    misdeeds: list[str]

    def platform(self) -> Platform:
        """The numbers of the core."""
        return self.given.platform

    def tasks(self) -> list[Task]:
        """The tasks in order of priority."""
        return self.given.tasks

    def claims(self) -> list[Claim]:
        """What is claimed of each task; nothing without an analysis."""
        return self.analysis.claims if self.analysis else []

    def place(self, name: str) -> int:
        """The place of a task."""
        return next(place for place, task in enumerate(self.tasks()) if task.name == name)

    def load(self) -> float:
        """The share of the core that the tasks require at most."""
        return sum(claim.bound / task.period for claim, task in zip(self.claims(), self.tasks()))

    def is_certified(self) -> bool:
        """Whether there is a response that is certified for each task: by a certificate, or by `refine`."""
        return not self.failing or self.refined != []

    def response(self, name: str) -> int | None:
        """The certified response of a task; without a certificate the refined one."""
        if self.failing:
            return self.refined[self.place(name)].response if self.refined else None
        return self.windows[self.place(name)].response()

    def deadline(self, name: str) -> int:
        """The deadline of a task."""
        return self.tasks()[self.place(name)].deadline


@dataclass(frozen=True)
class Basis:
    """What the page is about: a certificate that `check` accepts, or the task for which `analyze` found no window; and what
    `check` said of a given certificate that it does not accept."""

    certificate: str | None
    failing: str | None
    objection: Objection | None


def gather(crpd: Crpd, asked: Request, folder: Path) -> Facts | Refusal:
    """Runs `crpd` for all that a page shows. Files are made in the folder. `Trouble` if the program writes what `crpd` does not."""
    try:
        return gathered(crpd, asked, folder)
    except (ValueError, IndexError, KeyError, TypeError) as fault:
        raise Trouble(f"{crpd.path} wrote what is not understood: is it crpd, and of this version?") from fault


def gathered(crpd: Crpd, asked: Request, folder: Path) -> Facts | Refusal:
    """The same, with an error of Python's if something is not understood."""
    objection = None
    if asked.certificate:
        checked = crpd.ask("check", asked.task_set, asked.certificate)
        if checked.status == 2:
            return read_refusal(crpd, asked, checked)
        if checked.status == 0:
            return read_facts(crpd, asked, Basis(asked.certificate, None, None), folder)
        objection = read_objection(checked, asked.certificate)
    analysed = crpd.ask("analyze", asked.task_set)
    if analysed.status == 2:
        return read_refusal(crpd, asked, analysed)
    if analysed.status == 1:
        return read_facts(crpd, asked, Basis(None, analysed.text.split()[1], objection), folder)
    certificate = write(folder / "cert.json", analysed.text)
    if crpd.ask("check", asked.task_set, certificate).status != 0:
        raise Trouble("the analysis' certificate is not accepted")
    return read_facts(crpd, asked, Basis(certificate, None, objection), folder)


def read_facts(crpd: Crpd, asked: Request, basis: Basis, folder: Path) -> Facts:
    """What there is to report of a set that is not refused."""
    name, raw = asked.task_set, read_toml(asked.task_set)
    given = read_set(raw)
    bodies = read_bodies(crpd, name, given)
    blocking = blocking_of(given, [body.longest for body in bodies])
    text = read_bytes(basis.certificate).decode() if basis.certificate else lifted_certificate(crpd, raw, folder)
    analysis = Analysis(given, read_claims(text), blocking) if text else None
    answer = crpd.ask("refine", name)
    refined = read_refined(answer)
    parts = all_parts(*read_code(crpd, name, given), given, raw) if refined else []
    summed = Refinement(given, parts, blocking).summed(refined) if parts else []
    run = read_run(crpd, name, basis.certificate, asked.script) if asked.script else None
    return Facts(given, basis.failing, basis.objection, analysis, windows_of(analysis, basis.failing),
                 read_cache(crpd.ask("sets", name)), bodies, crpd.ask("slack", name).lines(), crpd.ask("classic", name),
                 refined, summed, "" if refined else answer.text.split()[1],
                 read_refusal(crpd, asked, run) if isinstance(run, Output) else run,
                 read_costs(crpd, name, raw, json.loads(text)["tasks"] if text else []),
                 wider_caches(crpd, raw, folder) if basis.failing and not refined else [],
                 misdeeds(crpd, raw, asked.script, run) if isinstance(run, Run) and asked.script else [])


def wider_caches(crpd: Crpd, raw: Raw, folder: Path) -> list[str]:
    """The caches near that of the set with which `analyze` makes a certificate, at the same costs."""
    line, sets = raw["platform"]["line"], raw["platform"]["sets"]
    found = []
    for other, number in ((2 * line, max(sets // 2, 1)), (2 * line, sets), (line, 2 * sets)):
        if other <= 64 and number <= 512:
            changed = {**raw, "platform": {**raw["platform"], "line": other, "sets": number}}
            if crpd.ask("analyze", write(folder / "wider.toml", toml(changed))).status == 0:
                found.append(f"lines of {other} bytes in {number} set{'s' * (number > 1)}")
    return found


def read_cache(answer: Output) -> list[CacheSets]:
    """The lines `NAME evicting ..` and `NAME useful ..` of each task."""
    sets = [frozenset(map(int, line[2:])) for line in answer.lines()]
    return [CacheSets(evicting, useful) for evicting, useful in zip(sets[::2], sets[1::2])]


def lifted_certificate(crpd: Crpd, raw: Raw, folder: Path) -> str:
    """The certificate of a set that has none, with the longest periods and deadlines, and without jitter: bounds and cache sets do
    not depend on these. Empty if that set has no certificate either."""
    lifted = {**raw, "task": [{**task, "period": LONGEST, "deadline": LONGEST, "jitter": 0} for task in raw["task"]]}
    answer = crpd.ask("analyze", write(folder / "set.toml", toml(lifted)))
    return answer.text if answer.status == 0 else ""


def windows_of(analysis: Analysis | None, failing: str | None) -> list[Window]:
    """The windows that are certified, or those that would be needed whatever the deadlines. Of these the first that is not
    within its task's deadline must be that of the task that `analyze` names."""
    if not analysis or not failing:
        return analysis.certified() if analysis else []
    windows = analysis.possible()
    responses = [window.response() for window in windows] + [LONGEST + 1]
    late = next((task.name for task, response in zip(analysis.given.tasks, responses) if response > task.deadline), "none")
    if late != failing:
        raise Trouble(f"the sums differ: `analyze` finds no window for {failing}; the first task without one within its "
                      f"deadline should be {late}")
    return windows


def read_refusal(crpd: Crpd, asked: Request, answer: Output) -> Refusal:
    """A refusal, whose subject is written without the path of a file."""
    _, number, name, *subject, detail = answer.text.split()
    roles = {asked.task_set: "the task set", asked.script: "the script", asked.certificate: "the certificate"}
    whom = " ".join(subject)
    code: list[str] = []
    if int(number) in CODE_REFUSALS:
        code = lines_round(crpd.ask("list", asked.task_set, whom).text.splitlines(), detail)
        place = Places(read_toml(asked.task_set)["task"]).of_task(whom, int(detail, 16))
    else:
        place = ""
    where = f"task {whom}" if int(number) in TASK_REFUSALS else roles.get(whom, Path(whom).name)
    return Refusal(int(number), name, where, detail, code, place)


def lines_round(listing: list[str], address: str) -> list[str]:
    """The lines of code round an address, that of the address marked."""
    at = next((k for k, line in enumerate(listing) if line >= address), len(listing))
    near = listing[max(at - ROUND, 0):at + ROUND]
    return [("▸ " if line.startswith(address) else "  ") + line for line in near]


def read_objection(answer: Output, certificate: str) -> Objection:
    """The `no` on a certificate, with what that claims."""
    _, name, _, clause, _, place = answer.text.split()
    claims = read_claims(read_bytes(certificate).decode())
    return Objection(name, int(clause), int(place), next((claim for claim in claims if claim.name == name), None))


def write(path: Path, text: str) -> str:
    """Writes a file, and gives its name."""
    path.write_text(text, encoding="utf-8")
    return str(path)
