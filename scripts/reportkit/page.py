"""Puts a page together."""
from __future__ import annotations

import hashlib
from bisect import bisect_left
from collections import Counter
from html import escape
from pathlib import Path

from .advice import Verdict, decided, refusal_helps, refusal_words, refused
from .cautions import cautions, looked_at, names
from .facts import Facts, Refusal, Request
from .markup import counted, num, paragraph, per_cent, section, table, tag
from .places import Costs
from .pictures import SHAPES, cache_picture, definitions, named, windows_picture
from .reading import Claim, Platform, Run, Task, read_bytes, read_claims
from .runs import busiest, is_late, run_picture, whole
from .spent import Spent
from .windows import Window

OPEN_TABLES = 12  # of more tasks, the numbers of windows are folded up
OPEN_ROWS = 12  # of more jobs or reloads, the table is folded up
MOST_COSTS = 12  # loops, and functions, that are listed of a task
LISTED = 200  # that many jobs or reloads are listed
STYLE = Path(__file__).with_name("page.css")


def page(found: Facts | Refusal, asked: Request) -> str:
    """The whole page, in one text."""
    verdict = refused(found) if isinstance(found, Refusal) else decided(found)
    parts = [header(verdict)] + ([] if isinstance(found, Refusal) else sections(found))
    style = SHAPES.read_text() + STYLE.read_text()
    hidden = tag("svg", definitions(), width=0, height=0, aria_hidden="true", style="position: absolute")
    return ('<!DOCTYPE html>\n<html lang="en"><head><meta charset="utf-8"><meta name="viewport" content="width=device-width, '
            f'initial-scale=1"><title>{verdict.title}</title><style>\n{style}</style></head>\n<body>{hidden}\n'
            + tag("main", *("\n" + part for part in parts)) + "\n" + footer(found, asked) + "</body></html>\n")


def sections(facts: Facts) -> list[str]:
    return [tiles(facts), platform_words(facts.platform()), warnings(facts), tasks_section(facts), windows_section(facts),
            cycles_section(facts), cache_section(facts), room_section(facts), run_section(facts) if facts.run else ""]


def footer(found: Facts | Refusal, asked: Request) -> str:
    """The files that the page was made from, by their contents."""
    files = [("task set", asked.task_set), ("certificate", asked.certificate), ("script", asked.script)]
    if isinstance(found, Facts):
        files += dict.fromkeys((Path(task.file).name, task.file) for task in found.tasks())
    prints = (f"{escape(name)} {tag('code', hashlib.sha256(read_bytes(file)).hexdigest()[:16])}" for name, file in files
              if file and Path(file).is_file())
    return tag("footer", f"Times are cycles of the core. Made from files with these beginnings of SHA-256: {', '.join(prints)}.")


def header(verdict: Verdict) -> str:
    heading = tag("h1", tag("span", verdict.sign, class_="sign", aria_hidden="true"), verdict.title)
    return tag("header", heading, *map(paragraph, verdict.sentences), helping(verdict.helps),
               tag("pre", escape("\n".join(verdict.code))) if verdict.code else "", class_=verdict.css)


def helping(helps: list[str]) -> str:
    """What may help, as a list."""
    return paragraph("What may help:") + tag("ul", *(tag("li", words) for words in helps)) if helps else ""


def tiles(facts: Facts) -> str:
    """The numbers of first interest."""
    found = [(per_cent(facts.load(), 1), "utilization: bounds over periods")] if facts.claims() else []
    if facts.is_certified():
        left, name = min((1 - (facts.response(task.name) or 0) / task.deadline, task.name) for task in facts.tasks())
        found.append((per_cent(left, 1), f"least margin to a deadline: {escape(name)}"))
    for kind, most, *_ in facts.slack:
        what = "a switch" if kind == "switch" else "a line load"
        value = most if most == "none" else num(int(most))
        found.append((value, f"cycles that {what} may cost; now {num(cost_now(facts.platform(), kind))}"))
    return tag("ul", *(tag("li", tag("b", value), words) for value, words in found), class_="tiles")


def cost_now(platform: Platform, kind: str) -> int:
    return platform.switch if kind == "switch" else platform.miss


def platform_words(p: Platform) -> str:
    costs = (("instruction", p.hit), ("line load", p.miss), ("load or store", p.data), ("taken jump", p.taken),
             ("multiply", p.mul), ("divide", p.div), ("switch", p.switch))
    where = "between instructions" if p.switches_between_instructions() else "in any cycle"
    return paragraph(f"{tag('b', 'Platform')} Direct-mapped instruction cache of {counted(p.sets, 'set')} of {p.line} bytes "
                     f"({num(p.sets * p.line)} bytes). Cycles: {', '.join(f'{name} {num(n)}' for name, n in costs)}. "
                     f"Switches happen {where}.", "soft")


def warnings(facts: Facts) -> str:
    found = cautions(facts)
    if not found:
        return section("Warnings", paragraph(looked_at(facts), "soft"))
    return section("Warnings", tag("ul", *(tag("li", words) for words in found), class_="warnings"))


# ---- tasks and windows


def tasks_section(facts: Facts) -> str:
    rows = [task_row(facts, place, task) for place, task in enumerate(facts.tasks())]
    caption = "Highest priority first; times in cycles" + (
        ". There is no certificate: windows and responses are what it would need, whatever the deadlines" if facts.failing else "")
    heads = ["Task", "Entry", "Period", "Deadline", "Jitter", "Bound", "Window", "Response", "Response / deadline",
             "Bound / period", "Method"]
    return section("Tasks", table(caption, "llrrrrrrlrl", heads, rows))


def task_row(facts: Facts, place: int, task: Task) -> list[str]:
    claim = facts.claims()[place] if facts.claims() else None
    window = facts.windows[place] if place < len(facts.windows) else None
    entry = "the file’s" if task.entry is None else task.entry if isinstance(task.entry, str) else f"{task.entry:#x}"
    row = [named(place, task.name), tag("code", escape(entry)), num(task.period), num(task.deadline), num(task.jitter),
           num(claim.bound) if claim else "–"]
    row += [num(window.total()), num(window.response()), gauge(window, task)] if window else ["–"] * 3
    return row + [per_cent(claim.bound, task.period) if claim else "–", window.method if window else "–"]


def gauge(window: Window, task: Task) -> str:
    left, used = task.deadline - window.response(), window.response() / task.deadline
    bar = tag("span", tag("i", style=f"width:{min(100 * used, 100):.2f}%"), class_="gauge" if left >= 0 else "gauge over")
    words = f"{num(left)} left" if left >= 0 else f"✗ {num(-left)} too many"
    return bar + per_cent(used, 1) + tag("small", words, class_="under")


def windows_section(facts: Facts) -> str:
    if not facts.windows:
        return ""
    words = "What there may be from a job’s arrival to its completion, at most. Each bar is scaled to the task’s deadline. " + (
        "The sums are this page’s own, and certify nothing." if facts.failing else
        "Each sum was made again for this page, from the certificate’s bounds and cache sets, and equals its window.")
    tables = tag("div", *(window_table(facts, place, window) for place, window in enumerate(facts.windows)), class_="tables")
    numbers = tag("details", tag("summary", "The numbers of each window"), tables,
                  open="" if len(facts.windows) <= OPEN_TABLES else None)
    return section("Windows", paragraph(words), windows_picture(facts).html(), numbers)


def window_table(facts: Facts, place: int, window: Window, kind: str = "") -> str:
    task, higher = facts.tasks()[place], window.higher()
    rows = [["own, first switch", "1", num(window.bound), num(window.switch), "", num(window.bound + window.switch)]]
    if facts.platform().switches_between_instructions():
        rows.append(["blocking", "", num(window.blocking), "", "", num(window.blocking)])
    for high, share in enumerate(window.shares):
        numbers = (share.jobs, share.execution, share.switches, share.reloads, share.total())
        rows.append([named(high, facts.tasks()[high].name), *map(num, numbers)])
    sums = (window.bound + window.blocking + higher.execution, window.switch + higher.switches, higher.reloads, window.total())
    foot = [["window", "", *map(num, sums)], ["jitter", "", "", "", "", num(window.jitter)],
            ["response", "", "", "", "", num(window.response())]]
    caption = named(place, task.name) + " " + tag("small", f"{kind}by the {window.method} method; deadline {num(task.deadline)}")
    return table(caption, "lrrrrr", ["In the window", "Jobs", "Execution", "Switches", "Reloads", "Cycles"], rows, foot)


def cycles_section(facts: Facts) -> str:
    """Where the cycles of each bound go."""
    known = [(place, costs) for place, costs in enumerate(facts.costs) if costs]
    if not known:
        return ""
    words = ("What each task’s bound consists of, on the longest path that its code and its stated loops allow. A loop counts all "
             "that is done in it, in inner loops and in calls too; a function counts its own instructions alone.")
    other = [place for place, costs in enumerate(facts.costs) if costs is None]
    words += f" Of {names(facts, other)} the certificate’s bound is another one than that of this path." if other else ""
    tables = [costs_table(facts, place, costs) for place, costs in known]
    return section("Where the cycles go", paragraph(words),
                   tag("details", tag("summary", "The loops and functions of each task"), *tables,
                       open="" if len(known) <= OPEN_TABLES else None))


def costs_table(facts: Facts, place: int, costs: Costs) -> str:
    """What the loops and the functions of a task take."""
    bound = facts.claims()[place].bound
    shown = [(cost, True) for cost in costs.loops[:MOST_COSTS]] + [(cost, False) for cost in costs.functions[:MOST_COSTS]]
    has_sources = any(cost.source for cost, _ in shown)
    rows = [[tag("code", escape(cost.place)), *[escape(cost.source)] * has_sources, *turning(cost.spent, is_loop), *taken(cost.spent, bound)]
            for cost, is_loop in shown]
    caption = named(place, facts.tasks()[place].name) + " " + tag("small", f"bound {num(bound)}; loops first, then functions by themselves")
    heads = ["Loop or function", *["Source"] * has_sources, "Entered", "Turns", "One turn", "Cycles", "Of the bound", "Loads"]
    return table(caption, "l" * (1 + has_sources) + "rrrrrr", heads, rows)


def turning(spent: Spent, is_loop: bool) -> list[str]:
    """How often a loop is entered and turns, and the cycles of one turn."""
    return [num(spent.entries), num(spent.turns), num(spent.turn)] if is_loop else [""] * 3


def taken(spent: Spent, bound: int) -> list[str]:
    """The cycles that something takes, its share of the bound, and the loads in it."""
    return [num(spent.cycles), per_cent(spent.cycles, bound), num(spent.loads)]


# ---- the cache, and the room that is left


def cache_section(facts: Facts) -> str:
    words = ("The cache sets that each task’s code evicts, and those in which it may use again what it has loaded. Where a task "
             "evicts a set that is useful to a lower one, a preemption may cost the lower one a reload.")
    other = [place for place, (claim, cache) in enumerate(zip(facts.claims(), facts.cache))
             if (claim.evicting, claim.useful) != (cache.evicting, cache.useful)]
    words += f" The certificate counts with other sets of {names(facts, other)}." if other else ""
    return section("Cache", paragraph(words), cache_picture(facts).html(), disturbance(facts))


def disturbance(facts: Facts) -> str:
    """How many useful sets of each task a higher one evicts."""
    tasks, miss = facts.tasks(), facts.platform().miss
    met = [[len(higher.evicting & cache.useful) for higher in facts.cache[:low]] for low, cache in enumerate(facts.cache)]
    most = max([1, *(count for counts in met for count in counts)])
    rows = []
    for low, counts in list(enumerate(met))[1:]:
        cells = [tag("span", with_cycles(count, miss), class_="heat", style=f"--heat:{45 * count // most}%") for count in counts]
        rows.append([named(low, tasks[low].name), *cells, *[""] * (len(tasks) - 1 - low)])
    heads = ["Preempted, by →", *(named(high, task.name) for high, task in enumerate(tasks[:-1]))]
    return table("Who can disturb whom: the useful sets of a preempted task that a preempting one evicts, and the cycles to "
                 f"load them again ({miss} each)", "l" + "r" * (len(tasks) - 1), heads, rows) if rows else ""


def with_cycles(lines: int, miss: int) -> str:
    return f"{num(lines)} {tag('small', num(lines * miss))}" if lines else "0"


def room_section(facts: Facts) -> str:
    parts = [tag("ul", *(tag("li", slack_words(facts.platform(), *line)) for line in facts.slack))]
    if facts.classic.status == 1:
        name = facts.classic.text.split()[1]
        end = " either" if facts.failing else ": it is the multiset delays that accept this set"
        parts.append(paragraph(f"By the plain union delays of older tools {escape(name)} has no window up to its deadline{end}."))
    elif facts.classic.status == 0:
        parts.append(plain_table(facts, read_claims(facts.classic.text)))
    if facts.unrefined:
        parts.append(paragraph(f"By {tag('code', 'refine')} {escape(facts.unrefined)} has no window either."))
    return section("Room", *parts, *([refined_table(facts), refined_windows(facts)] if facts.refined else []))


def plain_table(facts: Facts, plain: list[Claim]) -> str:
    """The windows next to those of the plain union delays."""
    rows = []
    for place, (task, window, claim) in enumerate(zip(facts.tasks(), facts.windows, plain)):
        gain = claim.window - window.total()
        rows.append([named(place, task.name), num(claim.window), num(window.total()), num(gain), per_cent(gain, claim.window)])
    return table("What the plain union delays of older tools would have certified", "lrrrr",
                 ["Task", "Plain window", "This window", "Gain", "Gain / plain"], rows)


def refined_table(facts: Facts) -> str:
    """The windows of `refine` next to those of the certificate, or next to those that it would need."""
    rows = []
    for place, (task, refined) in enumerate(zip(facts.tasks(), facts.refined)):
        gain = ["–"] * 3
        if place < len(facts.windows):
            window = facts.windows[place].total()
            gain = [num(window), num(window - refined.window), per_cent(window - refined.window, window)]
        rows.append([named(place, task.name), num(refined.window), *gain, num(refined.response), num(task.deadline),
                     refined.method])
    words = (f"What {tag('code', 'refine')} certifies, which counts the reloads of a preemption at one place of the code, and a "
             "line that stays in the cache during a loop as loaded once")
    heads = ["Task", "Refined window", "This window", "Gain", "Gain / this", "Refined response", "Deadline", "Method"]
    return table(words, "lrrrrrrl", heads, rows)


def refined_windows(facts: Facts) -> str:
    """What fills the windows of `refine`."""
    if not facts.summed:
        return paragraph("These windows were not summed up again for this page, since the code is large.", "soft")
    words = ("What fills these windows. Each sum was made again for this page, from the code and its stated loops: bounds, cache "
             "sets and windows are as written.")
    tables = tag("div", *(window_table(facts, place, window, "refined, ") for place, window in enumerate(facts.summed)),
                 class_="tables")
    return (paragraph(words) + windows_picture(facts, facts.summed).html()
            + tag("details", tag("summary", "The numbers of each refined window"), tables))


def slack_words(platform: Platform, kind: str, most: str, *stop: str) -> str:
    """A line of `slack` in words."""
    now = cost_now(platform, kind)
    cost = f"{'A switch' if kind == 'switch' else 'Loading a line'} costs {counted(now, 'cycle')}"
    if stop[0] == "limit":
        return f"{cost}, and may cost whatever can be stated, up to {num(int(most))}."
    ends = {"window": "has no window within its deadline", "bound": "has a bound beyond 2^40 cycles"}
    why = f"{escape(stop[1])} {ends[stop[0]]}"
    if most == "none":
        return f"{cost}, and no cost is low enough, not even 0: {why}."
    if int(most) < now:
        return f"{cost}. With {tag('strong', num(int(most)))} or less the set would be accepted."
    return f"{cost}, and may cost up to {tag('strong', num(int(most)))}. With {num(int(most) + 1)}, {why}."


# ---- the run


def run_section(facts: Facts) -> str:
    run = facts.run
    if not isinstance(run, Run):
        words = [paragraph(f"The script is refused: {refusal_words(run)}"), helping(refusal_helps(run))] if run else []
        return section("Run", *words)
    said_of = [(run.legal, "✓ legal", "arrivals keep the periods, and releases the jitters", "✗ illegal",
                "two arrivals are closer than the period, or a release is not within the jitter"),
               (run.kept, "✓ kept", "no job left its stated loop bounds, calls and returns", "✗ broken",
                "a job reached a loop’s head more often than stated, or returned to another place than it was called from")]
    lines = [paragraph(f"{tag('strong', yes if good else no)}: {words if good else others}.", None if good else "alarm")
             for good, yes, words, no, others in said_of]
    lines += [tag("ul", *(tag("li", escape(words)) for words in facts.misdeeds))] if facts.misdeeds else []
    axis = whole(facts, run)
    pictures = [paragraph("Below a task’s name: its jobs, and the longest response of this run"
                          + (", of the certified one." if facts.is_certified() else ". Nothing is certified.")),
                run_picture(facts, run, axis, True).html()]
    if near := busiest(run, axis):
        pictures += [paragraph("The longest stretch in which some job is between release and completion:"),
                     run_picture(facts, run, near, False).html()]
    return section("Run", *lines, *pictures, jobs_table(facts, run), reloads_table(run), ledger(facts, run))


def folded(words: str, rows: list[list[str]], kinds: str, heads: list[str]) -> str:
    """A table that is open if it is short; of a long one the first rows."""
    if not rows:
        return ""
    caption = f"{words}; times in cycles" + (f"; the first {LISTED} of {num(len(rows))}" if len(rows) > LISTED else "")
    return tag("details", tag("summary", words), table(caption, kinds, heads, rows[:LISTED]),
               open="" if len(rows) <= OPEN_ROWS else None)


def jobs_table(facts: Facts, run: Run) -> str:
    """What the picture shows of each job, in numbers."""
    rows = []
    for job in run.jobs:
        name, response = named(facts.place(job.task), f"{job.task} {job.number}"), facts.response(job.task)
        own = num(job.end - job.arrival) if job.is_complete() else job.state
        late = tag("span", f"✗ {own}", class_="alarm") if is_late(facts, job) else own
        rows.append([name, num(job.arrival), num(job.release), num(job.end) if job.is_complete() else "–", late,
                     "–" if response is None else num(response), num(facts.deadline(job.task))])
    return folded("Each job of the run", rows, "lrrrrrr",
                  ["Job", "Arrival", "Release", "Completion", "Response", "Certified response", "Deadline"])


def reloads_table(run: Run) -> str:
    """Each reload, with who evicted the block and who preempted."""
    rows = [[num(reload.cycle), escape(f"{reload.task} {reload.number}"), str(reload.cache_set), escape(reload.evictor),
             escape(reload.preemptor)] for reload in run.reloads]
    return folded("Each reload of the run", rows, "rlrll", ["Cycle", "Job", "Cache set", "Evicted by", "Preempted by"])


def ledger(facts: Facts, run: Run) -> str:
    """The reloads of the run by victim and evictor, and the most in a job's window next to the certified delay."""
    if facts.failing:
        return paragraph("Without a certificate there is no ledger of reloads.", "soft")
    tasks, miss, rows = facts.tasks(), facts.platform().miss, []
    count = Counter((reload.task, reload.evictor.split()[0]) for reload in run.reloads)
    for place, task in enumerate(tasks):
        own = [count[task.name, other.name] for other in tasks[:-1]]
        rows.append([named(place, task.name), *(with_cycles(lines, miss) if lines else "" for lines in own),
                     with_cycles(sum(own), miss), num(most_in_a_window(facts, run, place) * miss), num(run.delays[task.name])])
    heads = ["Reloads, evicted by →", *(named(place, task.name) for place, task in enumerate(tasks[:-1])), "All",
             "Most in a window", "Certified"]
    return table("Ledger: reloads of this run, by who loads again and who had evicted the block, with their cycles. On the "
                 "right the most cycles of reloads in a job’s window, its own and those of higher jobs, next to the certified "
                 "ones", "l" + "r" * (len(heads) - 1), heads, rows)


def most_in_a_window(facts: Facts, run: Run, place: int) -> int:
    """The most reloads between release and completion of a job of a task, by it and by higher jobs."""
    names_down = {task.name for task in facts.tasks()[:place + 1]}
    cycles = sorted(reload.cycle for reload in run.reloads if reload.task in names_down)
    return max((bisect_left(cycles, job.end) - bisect_left(cycles, job.release) for job in run.jobs
                if job.task == facts.tasks()[place].name), default=0)
