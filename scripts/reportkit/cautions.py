"""What a yes does not cover, and what may soon cost it."""
from __future__ import annotations

from collections.abc import Sequence
from html import escape

from .facts import Facts
from .markup import counted, listed, num, per_cent
from .reading import Run

MANY = 12  # more tasks are not named one by one
CLOSE = 5  # a margin of fewer per cent of the deadline is warned of


def cautions(facts: Facts) -> list[str]:
    """Warnings, in HTML."""
    return of_the_run(facts) + of_stacks(facts) + of_margins(facts)


def looked_at(facts: Facts) -> str:
    """What was looked at for warnings, and what could not be."""
    looked = ["stacks"] + ["margins"] * bool(facts.windows) + ["utilization"] * bool(facts.claims())
    missing = [what for what in ("margins", "utilization") if what not in looked]
    words = f"None of {listed(looked)}, which {'was' if len(looked) == 1 else 'were'} looked at."
    if missing:
        words += f" {listed(missing).capitalize()} could not be computed, since there are no bounds or windows."
    return words


def of_the_run(facts: Facts) -> list[str]:
    """Warnings of a run that is illegal or broken."""
    run, found = facts.run, []
    if isinstance(run, Run) and not run.legal:
        found.append("The run of the script is illegal: arrivals or releases do not keep periods and jitters. The certificate "
                     "says nothing of it.")
    if isinstance(run, Run) and not run.kept:
        found.append("The run of the script is broken: a stated loop bound is too small, or a job returned to another place "
                     "than it was called from (frames of a shared stack, for one). While such a run is possible, a yes is "
                     "worth nothing.")
    return found


def of_margins(facts: Facts) -> list[str]:
    """Warnings of responses that nearly reach their deadlines."""
    found = []
    if facts.load() > 1:
        found.append(f"The tasks need {per_cent(facts.load(), 1)} of the core. Above 100\u00a0% no order of priorities helps.")
    left = [(task, task.deadline - window.response()) for task, window in zip(facts.tasks(), facts.windows)]
    close = [f"{escape(task.name)} ({num(cycles)})" for task, cycles in left if 0 <= 100 * cycles < CLOSE * task.deadline]
    if close:
        found.append(f"Less than {CLOSE}\u00a0% of the deadline is left, in cycles: {', '.join(close)}. A small change of code, "
                     "layout or platform may cost the yes.")
    return found


def of_stacks(facts: Facts) -> list[str]:
    """Tasks whose frames may meet in the one memory, by the starts of their stacks and the bytes that they take at most."""
    bodies, found = facts.bodies, []
    for start in sorted({body.stack_start for body in bodies}):
        places = [place for place, body in enumerate(bodies) if body.stack_start == start]
        used = [place for place in places if bodies[place].stack_bytes]
        stated = [place for place in places if facts.tasks()[place].stack is not None]
        if len(used) > 1:
            found.append(f"{names(facts, used)} use one stack, from {start:#x} down. Jobs preempt each other in one memory, so "
                         "each task needs its own stack. A job that overwrites another’s frames breaks the run, and the "
                         "certificate says nothing of a broken run.")
        elif len(stated) > 1:
            found.append(f"{names(facts, stated)} state one stack, {start:#x}. Not more than one of them is seen to use it, so "
                         "this is harmless until another does.")
        if missing := [place for place in used if facts.tasks()[place].stack is None]:
            found.append(f"No stack is stated for {names(facts, missing)}, whose code uses one. It starts at 0, from the end of "
                         "memory down.")
    if unknown := [place for place, body in enumerate(bodies) if body.stack_bytes is None]:
        found.append(f"The code of {names(facts, unknown)} sets x2 by itself. Whether that stack meets another was not "
                     "looked at.")
    return found + close_stacks(facts)


def close_stacks(facts: Facts) -> list[str]:
    """Stacks that reach into the one below."""
    order = sorted((body.stack_start, body.stack_bytes, place) for place, body in enumerate(facts.bodies) if body.stack_bytes)
    return [f"{names(facts, [upper])} uses up to {counted(depth, 'byte')} below {high:#x}, and the stack of "
            f"{names(facts, [lower])} begins only {counted(high - low, 'byte')} lower."
            for (low, _, lower), (high, depth, upper) in zip(order, order[1:]) if low < high < low + depth]


def names(facts: Facts, places: Sequence[int]) -> str:
    """The names of some tasks; of many the first and the last."""
    words = [escape(facts.tasks()[place].name) for place in places]
    return listed(words) if len(words) <= MANY else f"{len(words)} tasks ({words[0]}, {words[1]}, .. {words[-1]})"
