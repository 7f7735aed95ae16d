"""The section on sets as the papers draw them: its plot, its table, the values of its sentences,
and what these say in words."""
from __future__ import annotations

from . import synthetic
from .charts import Axis, Box, Drawing, Mark, Panel, Point, legend, marks
from .confidence import Estimate
from .plots import METHODS, Numbers, gain, percent, share_at, weight
from .synthetic import KERNELS, PUBLISHED, SWEEP, UNIT
from .tables import Cells, table, thousands

TITLES = {PUBLISHED.name: f"reuse as published: {PUBLISHED.least} to {PUBLISHED.most} %",
          KERNELS.name: f"reuse as the kernels: {KERNELS.most} %"}
MULTISETS = ("ecb multiset", "ucb multiset")


def curve(xs: list[float], found: list[Estimate], words: str) -> list[Point]:
    """The points of a method."""
    return [Point(x, one.value, f"{words}, {x:g}: {one.text()} %", one.error)
            for x, one in zip(xs, found, strict=True)]


def accepted_panel(drawing: Drawing, box: Box, row: Numbers, title: str) -> None:
    """Accepted sets against utilization."""
    xs = [one / 100 for one in row["utilizations"]]
    panel = Panel(drawing, box, Axis(0, 1, marks([n / 5 for n in range(6)]), "utilization"),
                  Axis(0, 100, marks(list(range(0, 101, 20)), "{:g} %"), "accepted sets"))
    panel.frame(title)
    for method in synthetic.METHODS:
        found = [share_at(row, method, n) for n in range(len(xs))]
        panel.curve(curve(xs, found, METHODS[method].label), METHODS[method])


def sweep_panel(drawing: Drawing, box: Box, rows: list[Numbers]) -> None:
    """Weighted schedulability against the reuse."""
    xs = [float(reuse.most) for reuse in SWEEP]
    panel = Panel(drawing, box, Axis(0, 100, [Mark(x, f"{x:g} %") for x in xs],
                                     "useful of the sets that a task fills"),
                  Axis(0, 100, marks(list(range(0, 101, 20)), "{:g} %"), "weighted"))
    panel.frame("against the reuse")
    for method in synthetic.METHODS:
        found = [weight(row, method) for row in rows]
        panel.curve(curve(xs, found, METHODS[method].label), METHODS[method])


def synthetic_plot(numbers: Numbers) -> Drawing:
    """Both kinds of reuse against utilization, and weighted schedulability against the reuse."""
    drawing = Drawing(1000, 420, "Sets as the papers draw them",
                      "The share of random sets with stated execution times and cache sets that "
                      "each method accepts, by utilization, and weighted by reuse.")
    for n, (name, title) in enumerate(TITLES.items()):
        accepted_panel(drawing, Box(76 + 316 * n, 110, 236, 240), numbers["families"][name], title)
    sweep_panel(drawing, Box(76 + 316 * 2, 110, 236, 240), numbers["sweep"])
    legend(drawing, 60, 26, [0, 310, 620], [METHODS[method] for method in synthetic.METHODS])
    return drawing


def synthetic_table(numbers: Numbers) -> str:
    """Weighted schedulability of each method by reuse."""
    found = numbers["synthetic"]
    rows = [*found["families"].values(), *found["sweep"]]
    heads = [*TITLES.values(), *(reuse.name.replace(" percent", " %") for reuse in SWEEP)]
    cells: list[Cells] = [[METHODS[method].label, *(weight(row, method).text() for row in rows)]
                          for method in synthetic.METHODS]
    return table(["weighted, percent", *heads], cells)


def turning(numbers: Numbers) -> tuple[int, int]:
    """The last reuse of the sweep at which ECB-union multiset is above UCB-union multiset, and the
    first at which it is not, if the order turns in it."""
    above = [gain(row, *MULTISETS).is_above() for row in numbers["synthetic"]["sweep"]]
    first = [*above, False].index(False)
    return SWEEP[max(first - 1, 0)].most, SWEEP[min(first, len(SWEEP) - 1)].most


def turns_once(rows: list[Numbers]) -> bool:
    """Whether ECB-union multiset is first above UCB-union multiset, and then no more."""
    found = [gain(row, *MULTISETS) for row in rows]
    signs = [one.is_above() for one in found]
    return signs == sorted(signs, reverse=True) and signs[0] and found[-1].is_below()


def synthetic_values(numbers: Numbers) -> dict[str, object]:
    """The numbers in the section's sentences."""
    families = numbers["synthetic"]["families"]
    published, kernels = families[PUBLISHED.name], families[KERNELS.name]
    last, first = turning(numbers)
    return {"synthetic each": published["each"], "synthetic tasks": synthetic.TASKS,
            "synthetic cache": synthetic.CACHE_SETS, "synthetic caches": synthetic.CACHES,
            "synthetic reload": synthetic.RELOAD * UNIT // 1000,
            "synthetic periods": f"{synthetic.SHORTEST * UNIT // 10 ** 6} to "
                                 f"{synthetic.LONGEST * UNIT // 10 ** 6}",
            "synthetic reuse": f"{PUBLISHED.least} to {PUBLISHED.most}",
            "synthetic sets": thousands(sum(row["each"] * len(row["utilizations"]) for row in
                                            [*families.values(), *numbers["synthetic"]["sweep"]])),
            "ecb over ucb, published": gain(published, *MULTISETS).words(),
            "ecb over ucb, kernels": gain(kernels, *MULTISETS).words(),
            "both over ecb only, published": gain(published, "combination", "ecb only").words(),
            "both over ecb only, kernels": gain(kernels, "combination", "ecb only").words(),
            "both over classic, published": gain(published, "combination", "classic").words(),
            "last reuse for ecb": last, "first reuse for ucb": first}


def synthetic_statements(numbers: Numbers) -> dict[str, bool]:
    """What the section says in words."""
    found = numbers["synthetic"]
    published, kernels = (found["families"][one.name] for one in (PUBLISHED, KERNELS))
    counts = published["accepted"]
    rows = [*found["families"].values(), *found["sweep"]]
    useful, evicting = (sum(row[key] for row in numbers["bounds"]["kernels"].values())
                        for key in ("useful", "evicting"))
    return {
        "with the published reuse ECB-union multiset is above UCB-union multiset":
            gain(published, *MULTISETS).is_above(),
        "with the published reuse it accepts at least as many at each utilization":
            all(a >= b for a, b in zip(counts["ecb multiset"], counts["ucb multiset"])),
        "with the kernels' reuse it is below": gain(kernels, *MULTISETS).is_below(),
        "the kernels' reuse is theirs": f"{percent(useful, evicting):.0f}" == str(KERNELS.most),
        "the order turns once in the sweep": turns_once(found["sweep"]),
        "with the published reuse both multisets are above both plain unions":
            gain(published, "combination", "classic").is_above(),
        "no method is out of order": all(row["out of order"] == 0 for row in rows)}
