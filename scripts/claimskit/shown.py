"""What the stored sets show beside the refuted claims: sentences of the page, made from what the program says."""
from __future__ import annotations

import re
from collections.abc import Callable
from dataclasses import dataclass
from pathlib import Path
from tempfile import TemporaryDirectory

from commonkit.calls import Trouble
from evaluatekit.windows import METHODS, Parts, plain_ecb, plain_ucb, windows

from .stored import Stored


@dataclass(frozen=True)
class Shown:
    """A stored set, and the sentence that it gives."""

    name: str
    sentence: Callable[[Stored], str]


def require(holds: bool, stored: Stored, words: str) -> None:
    """`Trouble` if a set does not show what its sentence says."""
    if not holds:
        raise Trouble(f"{stored.name} does not show {words}")


def in_full(stored: Stored) -> str:
    """Each job of the nested run takes its certified window."""
    lengths = {name: one.length for name, one in stored.windows("analyze").items()}
    require({name: stored.taken("nested-run", name) for name in lengths} == lengths, stored, "windows that are taken in full")
    for union in ("ucb", "ecb"):
        require(by_method(stored, f"{union} multiset") == by_method(stored, f"plain {union}"), stored, "equal multiset and plain delays")
    first, second, third = lengths.values()
    return ("In `nested-run.toml` three jobs preempt each other, and each takes its certified window in full: "
            f"{first}, {second} and {third} cycles.")


def pair_counts(stored: Stored) -> str:
    """What both union delays count for the tasks above the lowest one of the nested run."""
    counts = [each(stored.tasks, 2, j) for each in (plain_ucb, plain_ecb) for j in (0, 1)]
    return "UCB-union counts {} reloads for `four` and {} for `upper`, and ECB-union {} and {}.".format(*counts)


def costs(stored: Stored) -> str:
    """The lower job of the pair takes its window, and at the slack's costs acceptance ends."""
    length = stored.windows("analyze")["other"].length
    require(length == stored.taken("pair-later", "other"), stored, "a window that is taken in full")
    found = {line[0]: int(line[1]) for line in stored.ask("slack").lines()}
    for key, most in found.items():
        require(is_accepted(stored, key, most) and not is_accepted(stored, key, most + 1), stored, f"the slack of {key}")
    return (f"In `pair-later.toml` the lower job takes its window of {length} in full. Its set is accepted up to a switch of "
            f"{found['switch']} cycles and up to a miss of {found['miss']}, and at one more of either it is not.")


def is_accepted(stored: Stored, key: str, cost: int) -> bool:
    """Whether `analyze` accepts the set at another cost."""
    text = Path(stored.path(stored.name)).read_text(encoding="utf-8")
    with TemporaryDirectory() as folder:
        path = Path(folder) / "set.toml"
        path.write_text(re.sub(rf"(?m)^{key} = \d+$", f"{key} = {cost}", text), encoding="utf-8")
        return stored.crpd.ask("analyze", str(path)).status == 0


def reload_bound(stored: Stored) -> str:
    """The reloads of a preemption by a task that evicts everything."""
    reloads = explained(stored, "all-run")
    evicted, useful = (len(stored.certificate[place][key]) for place, key in ((0, "evicting"), (1, "useful")))
    require(reloads == useful < evicted, stored, "as many reloads as there are useful sets")
    return (f"In `all-run.toml` the preempting job evicts {evicted} cache sets, and the lower job reloads the {reloads} that are "
            "useful to it.")


def explained(stored: Stored, run: str) -> int:
    """How many reloads `explain` lists in a run, by the certificate of `analyze`."""
    with TemporaryDirectory() as folder:
        path = Path(folder) / "cert.json"
        path.write_text(stored.ask("analyze").text, encoding="utf-8")
        return sum(line[0] == "reload" for line in stored.ask("explain", str(path), stored.path(run)).lines())


def by_method(stored: Stored, method: str) -> int:
    """The window of the lowest task by one of the methods that the evaluation recomputes."""
    parts = Parts(stored.tasks, stored.tasks)
    return windows([make(parts) for make in METHODS[method]], [1] * len(stored.names))[-1].length


def neither_is_better(stored: Stored) -> str:
    """Either multiset delay may be the smaller one."""
    other = Stored(stored.crpd, stored.folder, "ecb")
    numbers = [by_method(one, method) for one in (stored, other) for method in ("ucb multiset", "ecb multiset")]
    chosen = [one.windows("analyze")["lower"] for one in (stored, other)]
    require([(one.length, one.method) for one in chosen] == [(numbers[0], "ucb"), (numbers[3], "ecb")], stored, "both methods")
    return ("In `ucb.toml` the window of `lower` is {} by UCB-union multiset and {} by ECB-union multiset, and in `ecb.toml` it is "
            "{} and {}.".format(*numbers))


def plain(stored: Stored) -> str:
    """The multiset delay is smaller than the plain one."""
    multiset, union = (stored.windows(command)["steps"].length for command in ("analyze", "classic"))
    require(multiset < union, stored, "a smaller window")
    return f"In `plain.toml` the window of `steps` is {multiset} by the multiset delays, and {union} by the plain ones."


def points(stored: Stored) -> str:
    """The delay by points accepts what both unions reject, and a run takes its window."""
    require(stored.ask("analyze").status == 1, stored, "a set that analyze rejects")
    length = stored.windows("refine")["lines"].length
    require(stored.taken("points-run", "lines") == length, stored, "a window that is taken in full")
    return (f"`analyze` rejects `points.toml`, and `refine` accepts it: the window of `lines` is {length}, which a job of "
            "`points-run.toml` takes in full.")


def blocked(stored: Stored) -> str:
    """The highest task takes its window with the blocking in full."""
    free = Stored(stored.crpd, stored.folder, "pair").windows("analyze")["two"].length
    length = stored.windows("analyze")["two"].length
    require(stored.taken("instruction-run", "two") == length > free, stored, "a window that is taken in full")
    return (f"In `instruction.toml` the window of the highest task is {length} instead of {free}, since an instruction under way ends "
            "first; `instruction-run.toml` takes it in full.")


SHOWN = (Shown("nested", in_full), Shown("nested", pair_counts), Shown("pair", costs), Shown("all", reload_bound),
         Shown("ucb", neither_is_better), Shown("plain", plain), Shown("points", points), Shown("instruction", blocked))
