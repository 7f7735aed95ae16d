"""The small self-check of the evaluation: within two minutes, and without writing anything."""
import xml.etree.ElementTree as ElementTree
from pathlib import Path

from commonkit.calls import Output

from . import acceptance, attacks, bounds, page, responses, sweeps, synthetic, windows
from .measuring import BASE, Evidence, know, progress
from .program import read_verdict
from .searched import controller_set, judge, kernel_sets, read_sets
from .tables import Numbers
from .workers import Workers

# Random sets for each utilization, the place of the utilization whose sets are all drawn again, and
# each how many of the places of an attack are attacked.
SETS, AGAIN, EVERY = 3, 9, 10


def worked_example() -> list[str]:
    """Two tasks of eight instructions over two lines each, with a miss of 10 and a switch of 5, by
    hand: 5 + 28 + (28 + 10) cycles are 71; each union adds two reloads, the delay by points one."""
    task = windows.Task(28, 3, 3, 1000, 1000, 0, (1, 2))
    tasks = windows.TaskSet([task, task], 5, 10)
    found = windows.windows_by_all(windows.Parts(tasks, tasks))
    wanted = {"none": 71, "combination": 91, "classic": 91, "points": 81, "refined": 81}
    wrong = [f"worked example: {method} gives {found[method][1].length}, not {length}"
             for method, length in wanted.items() if found[method][1].length != length]
    wrong += worked_loop()
    told = "yes\nlow bound 28 window 81 response 81 method point\n"
    if read_verdict(Output(0, told)).windows != [windows.Window(81, "point")]:
        wrong.append("worked example: the text of a yes is not read")
    return wrong


def worked_loop() -> list[str]:
    """A task of eight instructions over two lines above a loop of three turns over two lines, by
    hand: its bound is 96, and 56 with persistent blocks, by which both lines are useful at one
    node. 5 + 56 + 38 + 20 cycles are 119, where 5 + 96 + 38 and a reload are 149 without them."""
    plain = windows.Task(96, 6, 4, 1000, 1000, 0, (4,))
    chosen = windows.Task(56, 6, 6, 1000, 1000, 0, (6,))
    high = windows.Task(28, 6, 6, 1000, 1000, 0, (2, 4))
    found = windows.windows_by_all(windows.Parts(windows.TaskSet([high, plain], 5, 10),
                                                 windows.TaskSet([high, chosen], 5, 10)))
    wanted = {"points": 149, "refined": 119}
    return [f"worked loop: {method} gives {found[method][1]}, not {length}"
            for method, length in wanted.items() if found[method][1].length != length]


def stored_page(folder: Path, numbers: Numbers) -> list[str]:
    """The page and its plots are what the stored numbers give, plots are well formed, and the page
    says what holds."""
    wrong = [f"the page says what the numbers do not: {words}"
             for words in page.false_statements(numbers)]
    for place, text in page.files(numbers).items():
        if place.endswith(".svg"):
            ElementTree.fromstring(text)
        path = folder / place
        if not path.exists() or path.read_text(encoding="utf-8") != text:
            wrong.append(f"{place} is not what the numbers give")
    return wrong


def readme(folder: Path, numbers: Numbers) -> list[str]:
    """A README that names the page says its main figures as they are."""
    path = folder.parent / "README.md"
    text = path.read_text(encoding="utf-8") if path.exists() else ""
    if text != page.readme_text(text, numbers):
        return [f"the README does not say: {page.figures(numbers)}"]
    return []


def stored_bounds(workers: Workers, numbers: Numbers) -> list[str]:
    """The certified bounds come out again, and so does each longest run on the base platform."""
    wrong, evidence, known = [], Evidence(), bounds.know_all(workers)
    system = workers.system()
    for name, row in numbers["kernels"].items():
        found = {platform: one.part.bound for platform, one in known[name].items()}
        chosen = {platform: one.chosen.bound for platform, one in known[name].items()}
        if (found, chosen) != (row["bound"], row["chosen"]):
            wrong.append(f"bounds of {name} are {found} and {chosen}, not {row['bound']} and "
                         f"{row['chosen']}")
        search = bounds.DataSearch(system, system.kernels[name], BASE, found[bounds.BASE_NAME],
                                   chosen[bounds.BASE_NAME], evidence)
        search.look_again([bytes.fromhex(row["values"])])
        if search.longest != row["seen"][bounds.BASE_NAME]:
            wrong.append(f"the longest run of {name} takes {search.longest} cycles")
    if evidence.late or evidence.late_refined:
        wrong.append(f"{evidence.late} jobs alone are late")
    return wrong


def stored_responses(workers: Workers, numbers: Numbers, found: Numbers) -> list[str]:
    """The certified and the refined responses of the searched sets come out again."""
    system, wrong, known = workers.system(), [], workers.map(know, [BASE])[0]
    stored = {**numbers["sets"], "controller": numbers["controller"]}
    for name, one in {**kernel_sets(system, found), "controller": controller_set()}.items():
        judged = judge(system, one)
        rows = [(task.name, part.window + task.jitter, refined.length + task.jitter)
                for task, part, refined in zip(one.given.tasks, judged.parts, judged.refined)]
        if rows != [(row["task"], row["response"], row["refined"]) for row in stored[name]]:
            wrong.append(f"responses of {name} are {rows}")
        tasks = read_sets(system).get(name)
        if tasks and judged.refined != responses.recompute(tasks, known, {}).refined:
            wrong.append(f"the recomputed windows of {name} are not those of refine")
    return wrong


def stored_attack(workers: Workers, numbers: Numbers, found: Numbers) -> list[str]:
    """Jobs that are preempted at some places keep their refined responses, and are later than by
    the known mistake."""
    system, tallies = workers.system(), numbers["tallies"]
    label = max(tallies, key=lambda words: int(tallies[words]["late"]["mistake"]))
    plan = attacks.Plan(workers.map(know, [BASE])[0], bounds.with_longest_data(system.image, found),
                        bounds.longest(found), attacks.Effort(EVERY))
    targets = [one for one in attacks.targets_of(system, plan) if one.label == label]
    tally = attacks.together(workers.map(attacks.attack, targets))
    if tally.evidence.late_refined or not all(tally.late):
        return [f"attacks of {label}: {tally.numbers()}"]
    return []


def stored_sets(workers: Workers, numbers: Numbers, found: Numbers) -> list[str]:
    """The sets of one utilization are accepted by the same methods again."""
    family, stored = acceptance.FAMILIES[0], numbers["families"][acceptance.FAMILIES[0].name]
    bench = acceptance.benches(workers, found, [BASE], stored["each"])[BASE]
    unit = acceptance.Unit(family.name, (family.name,), family.shape, family.by_runs,
                           stored["utilizations"][AGAIN], stored["each"], bench)
    counts, _ = workers.map(acceptance.tally, [unit])[0]
    again = {method: counts.accepted[method] for method in acceptance.METHODS}
    wanted = {method: some[AGAIN] for method, some in stored["accepted"].items()}
    return [] if again == wanted else [f"{family.name}: {again} are accepted, not {wanted}"]


def random_sets(workers: Workers, found: Numbers) -> list[str]:
    """On some random sets all verdicts agree, no window is out of order, and no job is late."""
    families = acceptance.measure(workers, found, SETS, 1)
    swept = sweeps.measure(workers, found, SETS, 1)
    rows = list(families["families"].items()) + [
        (f"{key} {value}, {scale}", row) for scale, kinds in swept["sweeps"].items()
        for key, sweep in kinds.items() for value, row in zip(sweep["values"], sweep["rows"])]
    wrong = [f"{words}: {row['compared']} compared, {row['agree']} agree, "
             f"{row['out of order']} out of order" for words, row in rows
             if row["compared"] != row["agree"] or row["out of order"]]
    for evidence in (families["evidence"], swept["evidence"]):
        if evidence["late"] or evidence["late_refined"] or evidence["runs"] != evidence["kept"]:
            wrong.append(f"runs of random sets: {evidence}")
    return wrong


def look(workers: Workers, folder: Path) -> int:
    """Checks all of this; 0 if all is as it should be, otherwise 1."""
    numbers = page.load_all(folder)
    found = numbers["bounds"]
    wrong = [*worked_example(), *stored_page(folder, numbers), *readme(folder, numbers),
             *stored_bounds(workers, found),
             *stored_responses(workers, numbers["responses"], found),
             *stored_attack(workers, numbers["attacks"], found),
             *stored_sets(workers, numbers["acceptance"], found), *random_sets(workers, found),
             *synthetic.differences(numbers["synthetic"], AGAIN)]
    for words in wrong:
        progress(f"evaluate: {words}")
    print(f"evaluate: {len(wrong)} wrong")
    return 1 if wrong else 0
