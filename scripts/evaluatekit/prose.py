"""The numbers in the page's sentences, and the statements that its sentences make.

Each value has a name, by which the page's text names it. Each statement is what a sentence says in
words; if it does not hold for the numbers, no page is written.
"""
from . import bounds, windows
from .acceptance import BETTER, CLASSIC_EVERY, COMPARED, PAIRS, RUN_EVERY
from .attacks import CONTROLS, REST, WINDOWS
from .bounds import CLIMBS
from .confidence import Estimate
from .draws import FACTOR
from .measuring import SETS
from .plots import SWEEPS, gain, percent, ratio, weight
from .responses import CLIMBS as RELEASE_CLIMBS
from .sweeps import PAIRS as SWEPT_PAIRS, RARER
from .tables import (PARTS, Numbers, accepted, all_evidence, alone, evidence_of, sweep_rows,
                     tallies, thousands)

Values = dict[str, object]
BASE, FREE = bounds.BASE_NAME, "free misses"
# Pairs of delays of which neither is the better one by its formula.
OPEN = [pair for pair in PAIRS
        if set(pair) <= set(windows.METHODS) and not {pair, pair[::-1]} & BETTER]
# Up to these ratios a bound with free misses, a bound with persistent blocks, and a refined
# response are reported as near the longest seen.
NEAR, NEAR_PERSISTENT, NEAR_REFINED = 1.1, 1.06, 1.15


def listed(words: list[str]) -> str:
    """Words with commas, and with `and` before the last."""
    if len(words) < 2:
        return "".join(words)
    return ", ".join(words[:-1]) + (" and " if len(words) == 2 else ", and ") + words[-1]


def spread(ratios: list[float], digits: int = 1) -> str:
    """The smallest and the largest of some ratios."""
    return f"{min(ratios):.{digits}f} to {max(ratios):.{digits}f}"


# Bounds

def free_ratios(numbers: Numbers) -> dict[str, float]:
    return {name: ratio(row, FREE) for name, row in numbers["bounds"]["kernels"].items()}


def bounds_values(numbers: Numbers) -> Values:
    rows = numbers["bounds"]["kernels"]
    free = free_ratios(numbers)
    near = [value for value in free.values() if value <= NEAR]
    far = [f"{value:.2f} (`{name}`)" for name, value in free.items() if value > NEAR]
    worst = max(rows, key=lambda name: ratio(rows[name], BASE))
    row = rows[worst]
    useful, evicting = (sum(one[key] for one in rows.values()) for key in ("useful", "evicting"))
    return {"kernels": len(rows),
            "code bytes": thousands(sum(one["bytes"] for one in rows.values())),
            "loops": sum(one["loops"] for one in rows.values()),
            "values tried": thousands(numbers["bounds"]["values tried"]), "climbs": CLIMBS,
            "near kernels": len(near),
            "near ratios": spread(near, 2), "far ratios": listed(far),
            "farthest ratio": f"{max(free.values()):.2f}",
            "costly ratios": spread([ratio(one, BASE) for one in rows.values()]),
            **persistent_values(rows),
            "worst kernel": f"`{worst}`", "worst sets": row["evicting"],
            "worst bound grows": thousands(row["bound"][BASE] - row["bound"][FREE]),
            "worst run grows": row["seen"][BASE] - row["seen"][FREE],
            "evicting on average": f"{evicting / len(rows):.0f}",
            "useful of evicting": f"{percent(useful, evicting):.0f}",
            "most useful at once": max(one["useful at once"] for one in rows.values())}


def persistent_values(rows: Numbers) -> Values:
    """The ratios of bounds with persistent blocks, apart from those of the two farthest kernels."""
    found = {name: ratio(row, BASE, "chosen") for name, row in rows.items()}
    *others, second, farthest = sorted(found, key=lambda name: found[name])
    return {"persistent ratios": spread([found[name] for name in others], 2),
            "near persistent": sum(value <= NEAR_PERSISTENT for value in found.values()),
            "near persistent ratio": f"{NEAR_PERSISTENT:.2f}",
            "persistent kernels": sum(row["chosen"][BASE] < row["bound"][BASE]
                                      for row in rows.values()),
            "far persistent": listed([f"`{name}` ({found[name]:.2f})" for name in
                                      (farthest, second)]),
            "most useful persistently":
                max(row["useful persistently at once"] for row in rows.values())}


def bounds_statements(numbers: Numbers) -> dict[str, bool]:
    rows = list(numbers["bounds"]["kernels"].values())
    return {
        "each loop reaches its bound in some run":
            all(row["loops"] == row["reached"] for row in rows),
        "code without loops has the least ratios":
            max(ratio(row, BASE) for row in rows if not row["loops"])
            < min(ratio(row, BASE) for row in rows if row["loops"]),
        "with 32 and with 128 sets all numbers are equal":
            all(row[key][BASE] == row[key]["128 sets"]
                for row in rows for key in ("bound", "seen")),
        "with 8 sets the runs of most kernels that evict themselves come closer to the bounds":
            2 * sum(ratio(row, "8 sets") < ratio(row, BASE) for row in rows)
            > sum(row["seen"]["8 sets"] > row["seen"][BASE] for row in rows) > 0,
        "no run is longer than its persistent bound":
            all(row["seen"][key] <= row["chosen"][key] <= row["bound"][key]
                for row in rows for key in row["seen"]),
        "with persistent blocks sort and levinson are farthest from their runs":
            {"sort", "levinson"} == set(sorted(numbers["bounds"]["kernels"], key=lambda name: ratio(
                numbers["bounds"]["kernels"][name], BASE, "chosen"))[-2:]),
        "each kernel with loops has a smaller bound, and no other one":
            all((row["chosen"][BASE] < row["bound"][BASE]) == (row["loops"] > 0) for row in rows),
        "sort and levinson have the greatest ratios with free misses":
            {"sort", "levinson"} == set(sorted(free_ratios(numbers),
                                               key=lambda name: free_ratios(numbers)[name])[-2:]),
    }


# Responses

def all_rows(numbers: Numbers) -> list[Numbers]:
    return [row for rows in numbers["responses"]["sets"].values() for row in rows]


def over_seen(row: Numbers, key: str = "response") -> float:
    return float(row[key]) / float(row["seen"])


def utilization(numbers: Numbers, rows: list[Numbers], key: str) -> str:
    """The percent of the processor that a set takes, by certified bounds or by longest runs."""
    kernels = numbers["bounds"]["kernels"]
    return f"{sum(100 * kernels[row['task']][key][BASE] / row['period'] for row in rows):.0f}"


def responses_values(numbers: Numbers) -> Values:
    rows, sets = all_rows(numbers), numbers["responses"]["sets"]
    disturbed = [row for one in sets.values() for row in one[1:]]
    later = [row for row in disturbed if row["seen"] > row["critical"]]
    widest = max(sets, key=lambda name: max(map(over_seen, sets[name])))
    dearest = max(rows, key=lambda row: int(row["delay"]))
    kernel = numbers["bounds"]["kernels"][dearest["task"]]
    return {"searched sets": len(sets), "searched tasks": len(rows),
            "release runs": thousands(numbers["responses"]["runs"]),
            "explained runs": numbers["responses"]["explained"], "release climbs": RELEASE_CLIMBS,
            **controller_values(numbers), **turns_values(numbers),
            "response ratios": spread(list(map(over_seen, rows))),
            "run ratios": spread([over_seen(row, "by runs") for row in rows], 2),
            "points ratios": spread([over_seen(row, "points") for row in rows]),
            **refined_values(rows), **steps_values(numbers),
            "disturbed tasks": len(disturbed), "later tasks": len(later),
            "widest set": f"`{widest}`",
            "widest by bounds": utilization(numbers, sets[widest], "bound"),
            "widest by runs": utilization(numbers, sets[widest], "seen"),
            "greatest delay": thousands(dearest["delay"]),
            "most reloads": max(row["most reloads"] for row in rows),
            "dearest task": f"`{dearest['task']}`", "dearest useful": kernel["useful"],
            "dearest at once": kernel["useful at once"]}


def steps_values(numbers: Numbers) -> Values:
    """What each step adds to all responses of the four sets, and of the controller."""
    found: Values = {}
    for words, rows in (("four sets", all_rows(numbers)),
                        ("controller", numbers["responses"]["controller"])):
        whole = sum(row["refined"] - row["seen"] for row in rows)
        found[f"whole, {words}"] = thousands(whole)
        for key in ("executions", "counts", "delays"):
            cycles = sum(row["steps"][key] for row in rows)
            found[f"{key}, {words}"] = f"{percent(cycles, whole):.0f}"
    return found


# What the turns of loops cost at least, in shares of what a bound is beyond a run, if the page is
# to say that they are most of it.
MOST_OF_IT = 0.5


def turned_kernels(numbers: Numbers) -> dict[str, Numbers]:
    """The kernels whose bounds allow more turns than their longest runs make."""
    return {name: row for name, row in numbers["bounds"]["kernels"].items() if row["turns"]["more"]}


def turns_of(name: str, row: Numbers) -> str:
    """What the turns of a kernel's loops cost."""
    return (f"{row['turns']['more']} of the {row['chosen'][BASE] - row['seen'][BASE]} cycles of "
            f"`{name}`")


def turned_tasks(numbers: Numbers) -> list[Numbers]:
    """The tasks of the controller whose bounds allow more turns than the file's data make."""
    return [row for row in numbers["responses"]["controller"] if row["turns"]]


def turns_values(numbers: Numbers) -> Values:
    """What the turns that no run makes cost."""
    kernels, tasks = turned_kernels(numbers), turned_tasks(numbers)
    heads = {name: max(row["turns"]["heads"].values(), key=lambda pair: int(pair[1]) - int(pair[0]))
             for name, row in kernels.items()}
    rest = sum(row["chosen"][BASE] - row["seen"][BASE]
               for name, row in numbers["bounds"]["kernels"].items() if name not in kernels)
    greatest = max(tasks, key=lambda row: int(row["turns"]))
    return {"turned kernels": listed([turns_of(name, row) for name, row in kernels.items()]),
            "turned heads": listed([f"{made} of {most} in `{name}`"
                                    for name, (made, most) in heads.items()]),
            "other kernels": len(numbers["bounds"]["kernels"]) - len(kernels),
            "rest of bounds": rest,
            "turned tasks": listed([f"{thousands(row['turns'])} of "
                                    f"{thousands(row['own bound'] - row['alone'])} in "
                                    f"`{row['task']}`" for row in tasks]),
            "most turned task": f"`{greatest['task']}`",
            "most turned": thousands(greatest["turns"])}


def controller_values(numbers: Numbers) -> Values:
    """The ratios of the controller's responses."""
    rows = numbers["responses"]["controller"]
    return {"controller tasks": len(rows),
            "controller ratios": spread([over_seen(row, "refined") for row in rows]),
            "controller certified ratios": spread(list(map(over_seen, rows)))}


def far_words(row: Numbers) -> str:
    """Why a refined response is far above the longest seen; nothing if it is not."""
    if over_seen(row, "refined") <= NEAR_REFINED:
        return ""
    steps = row["steps"]
    return (f"That of `{row['task']}` is {over_seen(row, 'refined'):.2f} times: of "
            f"{thousands(row['refined'] - row['seen'])} cycles {thousands(steps['executions'])} "
            f"come from bounds, {thousands(steps['counts'])} from more higher jobs, and "
            f"{thousands(steps['delays'])} from delays.")


def refined_values(rows: list[Numbers]) -> Values:
    """The ratios of refined responses, apart from those that are far from the longest seen."""
    near = [over_seen(row, "refined") for row in rows if over_seen(row, "refined") <= NEAR_REFINED]
    far = [f"{over_seen(row, 'refined'):.2f} (`{row['task']}`)" for row in rows
           if over_seen(row, "refined") > NEAR_REFINED]
    return {"near refined": len(near), "near refined ratio": f"{NEAR_REFINED:.2f}",
            "near refined ratios": spread(near, 2),
            "the far refined": f", and {listed(far)} for the others" if far else "",
            "what is far": " ".join(filter(None, map(far_words, rows))),
            "refined ratios": spread([over_seen(row, "refined") for row in rows], 2),
            "persistent windows": sum(row["refined method"].startswith("persistent")
                                      for row in rows)}


def responses_statements(numbers: Numbers) -> dict[str, bool]:
    sets, rows = numbers["responses"]["sets"].values(), all_rows(numbers)
    searched = [*rows, *numbers["responses"]["controller"]]
    return {"ratios grow from task to task":
            all(over_seen(a) <= over_seen(b) for rows in sets for a, b in zip(rows, rows[1:])),
            "no refined response is above the certified one":
            all(row["refined"] <= row["response"] for row in searched)
            and all(row["refined"] <= row["points"] <= row["response"] for row in rows),
            "no refined response is below the longest seen":
            all(row["seen"] <= row["refined"] for row in searched),
            "all but two refined responses of the four sets are near the longest seen":
            sum(over_seen(row, "refined") <= NEAR_REFINED for row in rows) >= len(rows) - 2,
            "most of what the controller's responses are beyond the longest seen is executions":
            2 * sum(row["steps"]["executions"] for row in searched[len(rows):])
            > sum(row["refined"] - row["seen"] for row in searched[len(rows):]),
            "of sort the turns that no run makes are most of what the bound is beyond the run":
            all(row["turns"]["more"] >= MOST_OF_IT * (row["chosen"][BASE] - row["seen"][BASE])
                for name, row in turned_kernels(numbers).items() if name == "sort"),
            "sort and levinson alone have turns that no run makes":
            set(turned_kernels(numbers)) == {"sort", "levinson"},
            "of the controller spectrum has most of the turns that the run does not make":
            max(turned_tasks(numbers), key=lambda row: int(row["turns"]))["task"] == "spectrum"}


# Attacks

def attacks_values(numbers: Numbers) -> Values:
    attacks, found = numbers["attacks"], evidence_of(numbers, "attacks")
    tallies_of = attacks["tallies"].values()
    late = {key: [tally["late"][key] for tally in tallies_of] for key in CONTROLS}
    return {"attack rest": REST,
            "pressed runs": attacks["pressed runs"], "pressed windows": WINDOWS,
            "attack runs": thousands(found["kept"]), "attacked jobs": thousands(found["jobs"]),
            "attack late": found["late_refined"], "attacked lines": len(tallies_of),
            "preempting": attacks["preempting"],
            "kernels with loops": sum(row["loops"] > 0
                                      for row in numbers["bounds"]["kernels"].values()),
            "kernels noticed": len({label.split()[0] for label, tally in attacks["tallies"].items()
                                    if "below" in label and tally["late"]["no delays"]}),
            "every place": "each" if attacks["every"] == 1 else f"each {attacks['every']}th",
            **{f"late by {key}": thousands(sum(counts)) for key, counts in late.items()},
            **{f"lines by {key}": sum(count > 0 for count in counts)
               for key, counts in late.items()},
            "lines noticed": sum(any(tally["late"].values()) for tally in tallies_of),
            "lines not noticed": len(unnoticed(numbers)), "not noticed": "; ".join(unnoticed(numbers))}


def unnoticed(numbers: Numbers) -> list[str]:
    """The lines in which no job is later than by any control."""
    return [label for label, tally in numbers["attacks"]["tallies"].items()
            if not any(tally["late"].values())]


def attacks_statements(numbers: Numbers) -> dict[str, bool]:
    tallies_of = numbers["attacks"]["tallies"].values()
    return {f"the runs notice the control {key}": any(tally["late"][key] for tally in tallies_of)
            for key in CONTROLS} | {
        "the runs notice a missing delay in most sets, but not in all":
            0 < len(unnoticed(numbers)) < len(tallies_of) / 2}


# Acceptance

def families_of(numbers: Numbers) -> dict[str, Numbers]:
    return dict(numbers["acceptance"]["families"])


def acceptance_values(numbers: Numbers) -> Values:
    acceptance, found = numbers["acceptance"], {}
    for name, family in families_of(numbers).items():
        for method in family["accepted"]:
            found[f"{method}, {name}"] = f"{accepted(family, method).value:.1f}"
            found[f"weighted {method}, {name}"] = weight(family, method).text()
        for a, b in PAIRS:
            found[f"{a} over {b}, {name}"] = gain(family, a, b).words()
    kinds = list(tallies(numbers).values())
    every = acceptance["every"]
    one = acceptance["families"]["5 tasks"]
    each = one["each"]
    return found | {"sets of 5 tasks": thousands(each * len(one["utilizations"])),
                    "sets each": thousands(each),
                    "which compared": f"each {ordinal(every)}set",
                    "which swept compared": f"each {ordinal(every * RARER)}one",
                    "classic every": CLASSIC_EVERY, "run every": RUN_EVERY,
                    "sets compared": thousands(sum(one["compared"]["refine"] for one in kinds)),
                    "not agreeing": sum(one["compared"][command] - one["agree"][command]
                                        for one in kinds for command in COMPARED),
                    "out of order": sum(one["out of order"] for one in kinds)}


def ordinal(number: int) -> str:
    """A number as it counts; nothing for the first."""
    return "" if number == 1 else f"{number}th "


def acceptance_statements(numbers: Numbers) -> dict[str, bool]:
    families = families_of(numbers)

    def above(first: str, second: str, *names: str) -> bool:
        """Whether one method is certainly above another, in some families or in all."""
        return all(gain(families[name], first, second).is_above()
                   for name in names or families)

    return {
        "all verdicts agree, and no window is out of order":
            all(one["compared"] == one["agree"] and not one["out of order"]
                for one in tallies(numbers).values()),
        "where the order is open, both happen":
            all(sum(alone(one, *pair) for one in families.values())
                for first, second in OPEN for pair in ((first, second), (second, first))),
        "refine is above analyze, and above what no delays at all would make of its bounds":
            above("refined", "combination") and above("refined", "none"),
        "by bounds both multisets are above the plain unions":
            above("combination", "classic", "5 tasks", "8 tasks"),
        "by runs refine is above a partition with 8 tasks":
            above("refined", "partition", "8 tasks, by runs"),
        "refine and a partition are far above a cache of one line":
            above("refined", "one line") and above("partition", "one line"),
        "with 8 tasks plain ECB-union loses to ECB-only":
            gain(families["8 tasks"], "plain ecb", "ecb only").is_below(),
    }


# Sweeps

def swept(numbers: Numbers, scale: str, key: str) -> list[Numbers]:
    """The rows of a sweep."""
    return [row for one, _, row in sweep_rows(numbers, scale) if one == key]


def swept_weights(numbers: Numbers, scale: str, key: str, method: str) -> list[Estimate]:
    """The weighted schedulability of a method at each value of a sweep."""
    return [weight(row, method) for row in swept(numbers, scale, key)]


def swept_gains(numbers: Numbers, scale: str, key: str, first: str,
                second: str) -> list[Estimate]:
    """By how much a method is above another at each value of a sweep."""
    return [gain(row, first, second) for row in swept(numbers, scale, key)]


def width(found: list[Estimate]) -> float:
    """How far the greatest of some values is from the least."""
    values = [one.value for one in found]
    return max(values) - min(values)


def sweeps_values(numbers: Numbers) -> Values:
    sweeps = numbers["sweeps"]
    found: Values = {"swept each": sweeps["each"], "swept tasks": sweeps["tasks"],
                     "grid factor": f"{FACTOR}"}
    for scale in sweeps["sweeps"]:
        for key, sweep in sweeps["sweeps"][scale].items():
            for method in ("refined", "combination", "partition", "none"):
                values = swept_weights(numbers, scale, key, method)
                words = f"{method} by {key}, {scale}"
                found[f"first {words}"] = values[0].text()
                found[f"last {words}"] = values[-1].text()
                found[f"least {words}"] = f"{min(one.value for one in values):.1f}"
                found[f"most {words}"] = f"{max(one.value for one in values):.1f}"
            for pair in SWEPT_PAIRS:
                gains = swept_gains(numbers, scale, key, *pair)
                for value, one in zip(sweep["values"], gains):
                    found[f"{pair[0]} over {pair[1]} by {key} {value}, {scale}"] = one.words()
    return found


def sweeps_statements(numbers: Numbers) -> dict[str, bool]:
    def weights(key: str, method: str = "refined") -> list[Estimate]:
        return swept_weights(numbers, "by runs", key, method)

    def falls(first: Estimate, last: Estimate) -> bool:
        """Whether the intervals say that the last is below the first."""
        return first.value - first.error > last.value + last.error

    by_sets = [one.value for one in weights("sets")]
    over_partition = {key: swept_gains(numbers, "by runs", key, "refined", "partition")
                      for key in ("tasks", "sets")}
    over_evicted = swept_gains(numbers, "by bounds", "sets", "combination", "ecb only")
    multisets, none = (swept_weights(numbers, "by bounds", "sets", method)[-1]
                       for method in ("combination", "none"))
    return {
        "refine falls with the number of tasks, and a partition falls further":
            falls(weights("tasks")[0], weights("tasks")[-1])
            and over_partition["tasks"][-1].is_above()
            and over_partition["tasks"][0].value < over_partition["tasks"][-1].value,
        "refine is least at a middle number of cache sets":
            0 < by_sets.index(min(by_sets)) < len(by_sets) - 1,
        "refine is above a partition of 8 sets, and below one of 128":
            over_partition["sets"][0].is_above() and over_partition["sets"][4].is_below(),
        "analyze falls with the cost of a miss by a greater share than refine":
            weights("miss", "combination")[-1].value * weights("miss")[0].value
            < weights("miss", "combination")[0].value * weights("miss")[-1].value,
        "refine rises with deadlines": falls(weights("deadline")[-1], weights("deadline")[0]),
        "refine falls with jitter": falls(weights("jitter")[0], weights("jitter")[-1]),
        "of all that is varied the range of periods matters least to refine":
            min(SWEEPS, key=lambda key: width(weights(key))) == "spread",
        "by bounds the gain over ECB-only is greater with 512 sets than with 8":
            falls(over_evicted[-1], over_evicted[0]),
        "by bounds with 512 sets delays nearly vanish": none.value - multisets.value < 2,
    }


# Runs and times

def evidence_values(numbers: Numbers) -> Values:
    found = all_evidence(numbers)
    return {"runs": thousands(found["runs"]), "kept runs": thousands(found["kept"]),
            "jobs": thousands(found["jobs"]), "late jobs": found["late"],
            "late refined": found["late_refined"],
            "explained in all": thousands(found["explained"]), "above": found["above_delay"]}


def evidence_statements(numbers: Numbers) -> dict[str, bool]:
    found = all_evidence(numbers)
    seeds = {numbers[part]["seed"] for part in PARTS}
    return {"all numbers come from one seed": len(seeds) == 1,
            "all runs are legal and kept": found["runs"] == found["kept"],
            "no job is later than certified": found["late"] == 0,
            "no job is later than refined": found["late_refined"] == 0,
            "no reloads are above the certified delay": found["above_delay"] == 0}


def milliseconds(taken: int) -> str:
    return f"{taken / 1000:.1f}"


def times_values(numbers: Numbers) -> Values:
    times = numbers["times"]
    rows: dict[int, Numbers] = {row["tasks"]: row for row in times["rows"]}
    found: Values = {"start": milliseconds(times["start"]), "rounds": times["rounds"]}
    for count in (1, 8, 32):
        for command in ("analyze", "refine"):
            found[f"{command} of {count}"] = milliseconds(rows[count][command])
        found[f"nodes of {count}"] = thousands(rows[count]["nodes"])
    return found | {"check of 32": milliseconds(rows[32]["check"])}


def efforts(numbers: Numbers) -> str:
    """Which parts were made with fewer runs or sets than usual."""
    fewer = [f"`{part}` with `--sets {numbers[part]['effort']}`" for part in PARTS
             if numbers[part]["effort"] != SETS]
    return f"With fewer runs or sets than usual were made {listed(fewer)}." if fewer else ""


def values(numbers: Numbers) -> Values:
    """All values by name."""
    found: Values = {"seed": numbers["bounds"]["seed"], "efforts": efforts(numbers),
                     "calls": thousands(sum(numbers[part]["calls"] for part in PARTS))}
    for make in (bounds_values, responses_values, attacks_values, acceptance_values,
                 sweeps_values, evidence_values, times_values):
        found |= make(numbers)
    return found


def statements(numbers: Numbers) -> dict[str, bool]:
    """What the page says in words, and whether it holds."""
    found: dict[str, bool] = {}
    for make in (bounds_statements, responses_statements, attacks_statements,
                 acceptance_statements, sweeps_statements, evidence_statements):
        found |= make(numbers)
    return found
