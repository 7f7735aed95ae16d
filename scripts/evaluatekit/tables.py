"""The tables of the page, made from the numbers alone."""
from typing import Any

from . import confidence
from .acceptance import COMPARED, PAIRS
from .attacks import CONTROLS
from .confidence import Estimate
from .plots import METHODS, SWEEPS, gain, ratio, share_at, weight

Cells = list[object]
Numbers = dict[str, Any]


def table(heads: list[str], rows: list[Cells]) -> str:
    """A Markdown table whose first column is to the left and all others to the right."""
    lines: list[Cells] = [list(heads), ["---", *["---:"] * (len(heads) - 1)], *rows]
    return "\n".join("| " + " | ".join(map(str, line)) + " |" for line in lines)


def thousands(number: int) -> str:
    return f"{number:,}"


# The bounds of each platform's columns; if misses cost nothing, both are equal.
BOUND_KEYS = {"free misses": ("bound",), "32 sets": ("bound", "chosen"),
              "8 sets": ("bound", "chosen")}


def bounds_table(numbers: Numbers) -> str:
    """Each kernel's bounds and longest runs."""
    rows: list[Cells] = []
    for name, row in numbers["bounds"]["kernels"].items():
        cells: Cells = [f"`{name}`", row["bytes"], row["nodes"]]
        for platform, keys in BOUND_KEYS.items():
            cells += [row[key][platform] for key in (*keys, "seen")]
            cells += [f"{ratio(row, platform, key):.2f}" for key in keys]
        rows.append(cells)
    heads = ["kernel", "bytes", "nodes"]
    for platform, keys in BOUND_KEYS.items():
        names = ["bound", "persistent"][:len(keys)]
        heads += [f"{platform}: bound", *names[1:], "seen", *(f"{name} / seen" for name in names)]
    return table(heads, rows)


def responses_table(numbers: Numbers) -> str:
    """Each task's responses and delays."""
    rows: list[Cells] = []
    for name, tasks in numbers["responses"]["sets"].items():
        for row in tasks:
            over = [f"{row[key] / row['seen']:.2f}" for key in ("response", "refined", "by runs")]
            rows.append([f"{name} `{row['task']}`", row["period"], row["jitter"], row["response"],
                         row["points"], row["refined"], f"`{row['refined method']}`",
                         row["critical"], row["seen"], *over, row["delay"],
                         f"{row['reloads']}, {row['most reloads']}"])
    return table(["task", "period", "jitter", "`analyze`", "by points", "`refine`", "method",
                  "critical instant", "longest seen", "`analyze` / seen", "`refine` / seen",
                  "by runs / seen", "delay", "reloads seen"], rows)


def controller_table(numbers: Numbers) -> str:
    """The responses of the tasks of examples/controller."""
    rows: list[Cells] = []
    for row in numbers["responses"]["controller"]:
        over = [f"{row[key] / row['seen']:.2f}" for key in ("response", "refined")]
        rows.append([f"`{row['task']}`", row["period"], row["jitter"], row["response"],
                     row["refined"], f"`{row['refined method']}`", row["critical"], row["seen"],
                     *over])
    return table(["task", "period", "jitter", "`analyze`", "`refine`", "method",
                  "critical instant", "longest seen", "`analyze` / seen", "`refine` / seen"], rows)


STEPS = ("shared", "executions", "counts", "delays", "blocking")


def steps_table(numbers: Numbers) -> str:
    """What lies between the longest response seen of each task and the refined one."""
    found = {**numbers["responses"]["sets"], "controller": numbers["responses"]["controller"]}
    rows: list[Cells] = [
        [f"{name} `{row['task']}`", row["seen"], *(f"{row['steps'][key]:+}" for key in STEPS),
         row["refined"]] for name, tasks in found.items() for row in tasks]
    return table(["task", "longest seen", *STEPS, "`refine`"], rows)


PARTS = {"bounds": "kernels alone", "responses": "searched sets", "attacks": "attacks",
         "acceptance": "random sets", "sweeps": "random sets, swept"}


def added(tallies: list[Numbers]) -> Numbers:
    """The sums of counts, key by key."""
    total: Numbers = {}
    for tally in tallies:
        for key, value in tally.items():
            if isinstance(value, dict):
                total[key] = added([total.get(key, {}), value])
            else:
                total[key] = total.get(key, 0) + value
    return total


def all_evidence(numbers: Numbers) -> dict[str, int]:
    """The evidence of all parts together."""
    return added([evidence_of(numbers, part) for part in PARTS])


def evidence_of(numbers: Numbers, part: str) -> dict[str, int]:
    """The evidence of a part."""
    if part != "attacks":
        return dict(numbers[part]["evidence"])
    return added([tally["evidence"] for tally in numbers["attacks"]["tallies"].values()])


def attacks_table(numbers: Numbers) -> str:
    """The runs that attack delays, and how many jobs were later than responses."""
    tallies = numbers["attacks"]["tallies"]
    rows: list[Cells] = [attack_cells(words, tally) for words, tally in tallies.items()]
    return table(["set", "runs", "jobs compared", "later than certified", "later than refined",
                  "later than by the mistake", "without delays", "without delays, by runs"],
                 [*rows, attack_cells("all", added(list(tallies.values())))])


def attack_cells(words: str, tally: Numbers) -> Cells:
    """A line of that table."""
    found = [tally["evidence"][key] for key in ("kept", "jobs", "late", "late_refined")]
    return [words, *map(thousands, found), *(thousands(tally["late"][key]) for key in CONTROLS)]


def evidence_table(numbers: Numbers) -> str:
    """The runs of each part, and how many jobs were later than certified."""
    found = {words: evidence_of(numbers, part) for part, words in PARTS.items()}
    found["all"] = all_evidence(numbers)
    keys = ("runs", "kept", "jobs", "late", "late_refined", "explained", "above_delay")
    rows: list[Cells] = [[words, *(thousands(one[key]) for key in keys)]
                         for words, one in found.items()]
    return table(["runs of", "simulated", "legal and kept", "jobs compared", "later than certified",
                  "later than refined", "explained", "above the certified delay"], rows)


# Random sets

def accepted(row: Numbers, method: str) -> Estimate:
    """The share of all sets that a method accepts."""
    return confidence.share(row["accepted"][method], row["each"])


def alone(row: Numbers, first: str, second: str) -> int:
    """How many sets the first method accepts and the second one does not."""
    return sum(row["only"][f"{first} > {second}"])


def weighted_table(numbers: Numbers) -> str:
    """Weighted schedulability of each method for each family, and the share of all sets."""
    families = numbers["acceptance"]["families"]
    rows: list[Cells] = [
        [style.label, *(weight(row, method).text() for row in families.values()),
         *(accepted(row, method).text() for row in families.values())]
        for method, style in METHODS.items()]
    return table(["percent", *(f"weighted: {name}" for name in families),
                  *(f"accepted: {name}" for name in families)], rows)


def acceptance_rows(numbers: Numbers, by_runs: bool, at: list[int]) -> str:
    """The share of sets that each method accepts at some utilizations, for the families of a
    scale."""
    families = {name: one for name, one in numbers["acceptance"]["families"].items()
                if one["by runs"] == by_runs}
    rows: list[Cells] = [
        [style.label, *(share_at(row, method, row["utilizations"].index(percents)).text()
                        for row in families.values() for percents in at)]
        for method, style in METHODS.items()]
    return table(["accepted, percent", *(f"{name}: U {percents / 100:.2f}" for name in families
                                         for percents in at)], rows)


def acceptance_table(numbers: Numbers) -> str:
    """The share of sets that each method accepts, by certified bounds."""
    return acceptance_rows(numbers, False, [65, 75, 85])


def runs_table(numbers: Numbers) -> str:
    """The share of sets that each method accepts, by the longest runs."""
    return acceptance_rows(numbers, True, [30, 45, 60, 75])


def sweep_rows(numbers: Numbers, scale: str) -> list[tuple[str, int, Numbers]]:
    """All rows of the sweeps on a scale, each with what is varied and its value."""
    sweeps = numbers["sweeps"]["sweeps"][scale]
    return [(key, value, row) for key, sweep in sweeps.items()
            for value, row in zip(sweep["values"], sweep["rows"])]


def sweeps_table(numbers: Numbers) -> str:
    """Weighted schedulability at each value of each sweep, with differences of methods."""
    by_bounds = {(key, value): row for key, value, row in sweep_rows(numbers, "by bounds")}
    rows: list[Cells] = []
    for key, value, row in sweep_rows(numbers, "by runs"):
        other = by_bounds[key, value]
        rows.append([
            f"{SWEEPS[key].title} {SWEEPS[key].mark(value)}",
            *(weight(row, method).text() for method in ("refined", "combination")),
            *(gain(row, *pair).signed() for pair in (("refined", "combination"),
                                                              ("refined", "partition"))),
            *(weight(other, method).text() for method in ("refined", "combination")),
            *(gain(other, "combination", method).signed()
              for method in ("classic", "ecb only"))])
    return table(["weighted schedulability", "by runs: `refine`", "`analyze`",
                  "`refine` − `analyze`", "`refine` − partition", "by bounds: `refine`",
                  "`analyze`", "`analyze` − `classic`", "`analyze` − ECB-only"], rows)


def tallies(numbers: Numbers) -> dict[str, Numbers]:
    """The counts of each kind of sets; those of a sweep together."""
    found = dict(numbers["acceptance"]["families"])
    keys = ("compared", "agree", "out of order")
    for scale, sweeps in numbers["sweeps"]["sweeps"].items():
        found[f"swept, {scale}"] = added([{key: row[key] for key in keys}
                                          for sweep in sweeps.values() for row in sweep["rows"]])
    return found


def agreement_table(numbers: Numbers) -> str:
    """How many verdicts were compared with the recomputation, and how many agree."""
    rows: list[Cells] = []
    for words, tally in tallies(numbers).items():
        cells: Cells = [words]
        for command in COMPARED:
            cells += [thousands(tally["compared"][command]), thousands(tally["agree"][command])]
        rows.append([*cells, tally["out of order"]])
    heads = ["sets"]
    for command in COMPARED:
        heads += [f"compared with `{command}`", "agree"]
    return table([*heads, "out of order"], rows)


def pairs_table(numbers: Numbers) -> str:
    """How two methods differ in weighted schedulability, and how many sets each accepts alone."""
    families = numbers["acceptance"]["families"]
    rows: list[Cells] = [
        [METHODS[a].label, METHODS[b].label,
         *(f"{gain(row, a, b).signed()} ({thousands(alone(row, a, b))} : "
           f"{thousands(alone(row, b, a))})" for row in families.values())] for a, b in PAIRS]
    return table(["A", "B", *families], rows)


TABLES = {"steps table": steps_table, "attacks table": attacks_table, "runs table": runs_table,
          "bounds table": bounds_table, "responses table": responses_table,
          "controller table": controller_table, "weighted table": weighted_table,
          "sweeps table": sweeps_table, "evidence table": evidence_table,
          "acceptance table": acceptance_table, "agreement table": agreement_table,
          "pairs table": pairs_table}
