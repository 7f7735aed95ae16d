"""Puts verdicts and refusals into words, with what helps."""
from __future__ import annotations

import re
from dataclasses import dataclass, field
from functools import cache
from html import escape
from pathlib import Path

from .cautions import cautions, names
from .facts import Facts, Objection, Refusal
from .markup import counted, marked, num, tag
from .reading import Claim, Run
from .windows import Window

FORMATS = Path(__file__).parents[2] / "docs" / "FORMATS.md"
NUMBERED = re.compile(r"(\d+(?:, \d+)*) [A-Z]\w*$")


@dataclass(frozen=True)
class Advice:
    """When a refusal comes, and what usually helps."""

    comes_where: str
    helps: str


@dataclass(frozen=True)
class Verdict:
    """A colour, a sign, a title; in HTML what it means and what may help; and the code round what was refused."""

    css: str
    sign: str
    title: str
    sentences: list[str]
    helps: list[str] = field(default_factory=list)
    code: list[str] = field(default_factory=list)


@cache
def rows() -> list[list[str]]:
    """The rows of the tables of docs/FORMATS.md. An empty cell parts the tables."""
    lines = FORMATS.read_text().splitlines() if FORMATS.exists() else []
    return [[cell.strip() for cell in line.strip("|").split("|")] if line.startswith("|") else [] for line in lines]


def advice() -> dict[int, Advice]:
    """The refusals of docs/FORMATS.md by number."""
    found: dict[int, Advice] = {}
    helps = ""
    for row in rows():
        if row and (numbered := NUMBERED.match(row[0])):
            helps = helps if row[-1] == "the same" else row[-1]
            for number in numbered[1].split(", "):
                found[int(number)] = Advice(row[1], helps.replace("tables above", "tables of keys in docs/FORMATS.md"))
    return found


@dataclass(frozen=True)
class Clause:
    """Where a clause holds, and what the place of a failure is."""

    holds_where: str
    place: str


def clauses() -> dict[int, Clause]:
    """The clauses of docs/FORMATS.md."""
    heads = [at for at, row in enumerate(rows()) if row[:2] == ["clause", "holds where"]]
    found: dict[int, Clause] = {}
    for row in rows()[heads[0] + 2:] if heads else []:
        if not row:
            break
        found[int(row[0])] = Clause(row[1], row[2])
    return found


def refusal_words(refusal: Refusal) -> str:
    """What is refused, and when that refusal comes."""
    at = "" if refusal.detail == "-" else f", {tag('code', escape(refusal.detail))}"
    at += f", in {escape(refusal.where)}" if refusal.where else ""
    known = advice().get(refusal.number)
    when = f" It comes where: {marked(known.comes_where)}." if known else ""
    return f"{tag('strong', f'{refusal.number} {refusal.name}')} in {escape(refusal.subject)}{at}.{when}"


def refusal_helps(refusal: Refusal) -> list[str]:
    known = advice().get(refusal.number)
    return [marked(words) for words in known.helps.split("; ")] if known else ["see docs/FORMATS.md"]


def refused(refusal: Refusal) -> Verdict:
    return Verdict("odd", "!", "Refused: nothing is said of the tasks", [refusal_words(refusal)], refusal_helps(refusal),
                   refusal.code)


def status_of(found: Facts | Refusal) -> int:
    """The status of what a page shows: 0 for a yes, 1 for a no, a task without a window or a run that is illegal or broken, 2 for
    a refusal."""
    if isinstance(found, Refusal) or isinstance(found.run, Refusal):
        return 2
    is_bad_run = isinstance(found.run, Run) and not (found.run.kept and found.run.legal)
    return 1 if found.objection or not found.is_certified() or is_bad_run else 0


def decided(facts: Facts) -> Verdict:
    """The verdict on a set that is not refused, and on a given certificate that `check` does not accept."""
    verdict = schedulable(facts) if facts.is_certified() else unschedulable(facts, facts.failing or "")
    return rejected(facts, facts.objection, verdict) if facts.objection else verdict


def schedulable(facts: Facts) -> Verdict:
    """The verdict on a set of which each response is certified."""
    promise = ("As long as jobs keep their stated loop bounds and return to where they were called, each job of "
               f"{names(facts, range(len(facts.tasks())))} completes within its task’s certified response, and each response "
               "is within the deadline. This holds for all arrivals that keep periods and jitters, from any cache and any "
               "memory. Of other runs nothing is said.")
    if facts.failing:
        promise += (f" The responses are those of {tag('code', 'crpd refine')}, in section “Room”: they count the reloads of a "
                    "preemption at the place of the code where it comes, and a line that stays in a loop as loaded once. There is "
                    "no certificate, since the analysis, which counts what is useful anywhere and the lines of each turn, finds "
                    f"no window for {escape(facts.failing)}.")
    if isinstance(facts.run, Run) and not facts.run.kept:
        told = [escape(words) for words in facts.misdeeds]
        return Verdict("odd", "!", "Accepted, but a run is broken", [tag("strong", "The certificate says nothing of the run of "
                       "this script, in which a job broke a stated loop bound or a return."), *told, promise],
                       ["larger bounds of the loops that the run shows to be too small", "a separate stack for each task"])
    if isinstance(facts.run, Run) and not facts.run.legal:
        told = [escape(words) for words in facts.misdeeds]
        return Verdict("odd", "!", "Accepted, but a run is illegal", [tag("strong", "The certificate says nothing of the run of "
                       "this script, whose arrivals or releases do not keep periods and jitters."), *told, promise],
                       ["other arrivals or releases in the script", "if the device does so, a shorter period or a longer jitter in the set"])
    found = cautions(facts)
    count = tag("strong", f"There {'is' if len(found) == 1 else 'are'} {counted(len(found), 'warning')} below.")
    if facts.failing:
        title = f"By refine every job meets its deadline; analyze finds no window for {escape(facts.failing)}"
        return Verdict("good", "✓", title, [numbers(facts, facts.place(facts.failing)), promise] + [count] * bool(found), [
            f"{tag('code', 'crpd refine')} in place of {tag('code', 'crpd analyze')}: it certifies every task of this set",
            *costliest(facts, facts.place(facts.failing))])
    return Verdict("good", "✓", "Every job meets its deadline", [promise] + [count] * bool(found))


def unschedulable(facts: Facts, name: str) -> Verdict:
    """The verdict on a set of which neither the analysis nor `refine` finds all windows; it is about the first that is missing."""
    place = facts.place(name)
    sentences = [f"The analysis finds no window for {escape(name)}: no number of cycles, up to the deadline less the jitter, "
                 "holds all that may happen between a job’s release and its completion. Nothing is certified of this set. "
                 "A job need not miss its deadline.", numbers(facts, place)]
    title = f"{escape(name)} may miss its deadline"
    if facts.tasks()[place].jitter >= facts.tasks()[place].deadline:
        sentences.append("Its jitter alone takes its deadline.")
    if facts.unrefined:
        sentences.append(f"Nor does {tag('code', 'refine')} find one for {escape(facts.unrefined)}.")
    if place >= len(facts.windows):
        sentences += ["Nor do 64 of its periods hold it."] if facts.claims() else []
        return Verdict("bad", "✗", title, sentences, costliest(facts, place) + [
            "fewer cycles in this task and in those above it, or longer periods above it"] + wider_words(facts))
    window, deadline = facts.windows[place], facts.deadline(name)
    over = tag("strong", f"{num(window.response() - deadline)} too many")
    sentences.append(f"From arrival to completion it would need {num(window.response())} cycles, and its deadline allows "
                     f"{num(deadline)}: {over}.")
    return Verdict("bad", "✗", title, sentences, remedies(facts, place, window))


def numbers(facts: Facts, place: int) -> str:
    """The numbers of a task that fails."""
    task = facts.tasks()[place]
    bound = f"bound {num(facts.claims()[place].bound)}, " if facts.claims() else ""
    return f"Its numbers: {bound}deadline {num(task.deadline)}, period {num(task.period)}, jitter {num(task.jitter)}."


def remedies(facts: Facts, place: int, window: Window) -> list[str]:
    """What may make a window that is too long short enough, the most helpful first."""
    deadline, found = facts.tasks()[place].deadline, costliest(facts, place, window)
    found += wider_words(facts)
    for cost, words, cure in (("miss", "reloads after preemptions", "functions placed otherwise, so that tasks share fewer cache sets"),
                              ("switch", "switches", "a cheaper switch, or fewer preemptions")):
        response = needed_without(facts, place, cost)
        if response is not None and response <= deadline:
            found.append(f"{cure}: if {words} cost nothing, it would need {num(response)} cycles")
    if window.shares:
        most = max(range(place), key=lambda high: window.shares[high].total())
        found.append(f"fewer cycles, or a longer period, of {escape(facts.tasks()[most].name)}: its jobs take "
                     f"{num(window.shares[most].total())} cycles of this window, all higher jobs "
                     f"{num(window.higher().total())}")
    found += [f"fewer cycles of its own, now {num(window.bound)}", "another order of priorities"]
    room = [f"{'a switch' if kind == 'switch' else 'a line load'} of at most {counted(int(most), 'cycle')}"
            for kind, most, *_ in facts.slack if most != "none"]
    return found + [" or ".join(room)] * bool(room)


def costliest(facts: Facts, place: int, window: Window | None = None) -> list[str]:
    """The loop that takes most of a window, with the jobs of the tasks above; without a window, of one job of each."""
    found = []
    for k, costs in enumerate(facts.costs[:place + 1]):
        jobs = window.shares[k].jobs if window and k < place else 1
        found += [(jobs * cost.spent.cycles, jobs, k, cost) for cost in (costs.loops[:1] if costs else [])]
    if not found:
        return []
    total, jobs, k, cost = max(found, key=lambda entry: entry[0])
    source = f" ({escape(cost.source)})" if cost.source else ""
    loads = jobs * cost.spent.loads
    return [f"fewer cycles in the loop at {tag('code', escape(cost.place))}{source} of {escape(facts.tasks()[k].name)}: "
            f"{counted(cost.spent.turns, 'turn')} of {num(cost.spent.turn)} cycles; in {counted(jobs, 'job')} {num(total)}, of which "
            f"{num(loads)} are loads of lines"]


def wider_words(facts: Facts) -> list[str]:
    """The caches with which the set has a certificate."""
    return [f"another cache: at the same costs, {words} are enough" for words in facts.wider]


def needed_without(facts: Facts, place: int, cost: str) -> int | None:
    windows = facts.analysis.without(cost).possible() if facts.analysis else []
    return windows[place].response() if place < len(windows) else None


def rejected(facts: Facts, objection: Objection, own: Verdict) -> Verdict:
    """The verdict on a given certificate that `check` does not accept; `own` is that on the set by itself."""
    name, clause = escape(objection.task), clauses().get(objection.clause, Clause("docs/FORMATS.md says", "see there"))
    found = [claim for claim in facts.claims() if claim.name == objection.task and not facts.failing]
    said = f"It claims {claim_words(objection.claim)} for {name}." if objection.claim else f"It claims nothing for {name}."
    said += f" The analysis finds {claim_words(found[0])}." if found else ""
    helps = "another set: no certificate of this one is found" if facts.failing else "the certificate that `analyze` writes"
    return Verdict("bad", "✗", "The certificate does not hold for this set", [
        f"Clause {objection.clause} does not hold for {name}, at place {objection.place} (what a place is: "
        f"{marked(clause.place)}). Nobody may rely on this certificate.",
        f"The clause holds where: {marked(clause.holds_where)}.", said,
        f"The rest of the page is about what the analysis finds by itself: {tag('strong', own.title)}."], [marked(helps)])


def claim_words(claim: Claim) -> str:
    return f"bound {num(claim.bound)}, window {num(claim.window)}, response {num(claim.response)}"
