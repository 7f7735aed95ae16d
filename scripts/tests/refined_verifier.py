"""A verifier of refined certificates, by their definition alone: what `crpd verify` is to say.

From the producer it takes sets, graphs, regions and the costs of instructions, and nothing of what it verifies.
"""
from __future__ import annotations

import json
from collections.abc import Callable, Iterator
from dataclasses import dataclass, field
from typing import Any

from producekit.pieces import TaskCode
from producekit.producing import Input

Table = dict[str, Any]
MOST_NODES, MOST_SETS, MOST_TASKS, MOST_ENTRIES, TIME = 16384, 512, 32, 4_000_000, 1 << 40
COSTS = dict.fromkeys(("data", "div", "miss", "mul", "switch", "taken"), (0, 65535))
PLATFORM = {**COSTS, "hit": (1, 65535), "line": (4, 64), "sets": (1, MOST_SETS)}


class Refused(Exception):
    """A text that is no refined certificate; the number and the name of the refusal, and the key."""


class Wrong(Exception):
    """A clause that does not hold: the clause and the place."""


# ---- reading


def is_number(value: Any, least: int, most: int) -> bool:
    """Whether a value is a whole number of this range."""
    return isinstance(value, int) and not isinstance(value, bool) and least <= value <= most


def is_rising(value: Any, most: int) -> bool:
    """Whether a value is a list of rising numbers below a limit."""
    return isinstance(value, list) and all(is_number(it, 0, most - 1) for it in value) and value == sorted(set(value))


def is_list(value: Any) -> bool:
    """Whether a value is a list of potentials."""
    return isinstance(value, list) and len(value) <= MOST_NODES and all(is_number(it, 0, TIME) for it in value)


def is_state(value: Any) -> bool:
    """Whether a value says what holds at a node."""
    if not isinstance(value, list) or len(value) != 3 or not is_number(value[0], 0, MOST_NODES - 1):
        return False
    _, pairs, useful = value
    if not isinstance(pairs, list) or len(pairs) % 2 or not is_rising(pairs[::2], MOST_SETS):
        return False
    return all(is_number(block, 0, (1 << 32) - 1) for block in pairs[1::2]) and is_rising(useful, MOST_SETS)


def are_states(value: Any) -> bool:
    """Whether a value lists the states of nodes."""
    if not isinstance(value, list) or len(value) > MOST_NODES or not all(map(is_state, value)):
        return False
    return is_rising([node for node, _, _ in value], MOST_NODES)


def is_name(value: Any) -> bool:
    """Whether a value is the name of a task."""
    return isinstance(value, str) and 1 <= len(value) <= 32 and all(c.isascii() and (c.isalnum() or c in "_.-") for c in value)


PART: dict[str, Callable[[Any], bool]] = {
    "bound": lambda it: is_number(it, 0, 2 * TIME), "evicting": lambda it: is_rising(it, MOST_SETS), "loops": is_list,
    "name": is_name, "potentials": is_list, "states": are_states, "useful": lambda it: is_rising(it, MOST_SETS),
}


def expect(table: Table, path: str, key: str, good: Callable[[Any], bool]) -> Any:
    """The value of a key, which must be there and be good."""
    name = f"{path}{key}"
    if key not in table:
        raise Refused("71 Missing", name)
    if not good(table[key]):
        raise Refused("72 BadValue", name)
    return table[key]


def is_objects(most: int) -> Callable[[Any], bool]:
    """Whether a value is a list of some objects."""
    return lambda it: isinstance(it, list) and 1 <= len(it) <= most and all(isinstance(one, dict) for one in it)


def read_platform(table: Table) -> None:
    """Looks at the platform."""
    for key in sorted([*PLATFORM, "switching"]):
        if key == "switching":
            expect(table, "platform.", key, lambda it: it in ("cycle", "instruction"))
        else:
            least, most = PLATFORM[key]
            expect(table, "platform.", key, lambda it: is_number(it, least, most) and (key != "line" or it & (it - 1) == 0))


def read(text: bytes) -> Table:
    """The refined certificate that a text is."""
    try:
        found = json.loads(text)
    except ValueError as error:
        raise Refused("70 NotJson", "-") from error
    if not isinstance(found, dict):
        raise Refused("72 BadValue", "-")
    if expect(found, "", "refined", lambda it: is_number(it, 0, (1 << 64) - 1)) != 1:
        raise Refused("74 OtherVersion", str(found["refined"]))
    read_platform(expect(found, "", "platform", lambda it: isinstance(it, dict)))
    analyses = expect(found, "", "analyses", is_objects(4))
    for a, analysis in enumerate(analyses):
        for k, part in enumerate(expect(analysis, f"analyses.{a}.", "tasks", is_objects(MOST_TASKS))):
            for key, good in PART.items():
                expect(part, f"analyses.{a}.tasks.{k}.", key, good)
    read_windows(found, len(analyses))
    count = sum(len(pairs) // 2 + len(useful) for analysis in analyses for part in analysis["tasks"]
                for _, pairs, useful in part["states"])
    if count > MOST_ENTRIES:
        raise Refused("73 TooLong", str(count))
    return found


def read_windows(found: Table, analyses: int) -> None:
    """Looks at the windows."""
    for k, window in enumerate(expect(found, "", "windows", is_objects(MOST_TASKS))):
        path = f"windows.{k}."
        expect(window, path, "analysis", lambda it: is_number(it, 0, analyses - 1))
        expect(window, path, "method", lambda it: it in ("ucb", "ecb", "point"))
        expect(window, path, "name", is_name)
        expect(window, path, "response", lambda it: is_number(it, 0, 2 * TIME))
        expect(window, path, "window", lambda it: is_number(it, 0, TIME))


# ---- the clauses of an analysis


@dataclass
class Listed:
    """A part of a task with its code: full states and full useful sets by node."""

    code: TaskCode
    part: Table
    states: dict[int, dict[int, int]] = field(default_factory=dict)
    useful: dict[int, set[int]] = field(default_factory=dict)

    def __post_init__(self) -> None:
        self.graph = self.code.graph
        self.listed = {node: (dict(zip(pairs[::2], pairs[1::2])), set(useful)) for node, pairs, useful in self.part["states"]}

    def own(self, node: int) -> tuple[int, int]:
        """The cache set of a node, and its block."""
        block = self.graph.nodes[node][1] // self.code.platform.line
        return block % self.code.platform.sets, block

    def is_leader(self, node: int) -> bool:
        """Whether a node has to be listed."""
        before = self.graph.before[node]
        return node == self.graph.first or len(before) != 1 or any(len(self.graph.after[u]) == 2 for u in before)

    def state(self, node: int) -> dict[int, int]:
        """The full state of a node."""
        chain = [node]
        while chain[-1] not in self.listed and chain[-1] not in self.states:
            chain.append(self.graph.before[chain[-1]][0])
        for at in reversed(chain):
            if at not in self.states:
                self.states[at] = self.listed[at][0] if at in self.listed else self.after(self.graph.before[at][0])
        return self.states[node]

    def after(self, node: int) -> dict[int, int]:
        """The state after a node."""
        own_set, block = self.own(node)
        return {**self.state(node), own_set: block}

    def is_hit(self, node: int) -> bool:
        """Whether a node counts as a hit."""
        own_set, block = self.own(node)
        return self.state(node).get(own_set) == block

    def pays(self, u: int, v: int) -> set[int]:
        """The sets for which an edge pays."""
        after = self.after(u)
        return {own_set for own_set, block in self.state(v).items() if after.get(own_set) != block}

    def needed(self, node: int) -> set[int]:
        """What the full useful set of a node has at least."""
        own = self.own(node)[0]
        found = {own} if self.is_hit(node) else set[int]()
        for to in self.graph.after[node]:
            found |= self.full(to) - self.pays(node, to) - {own}
        return found

    def full(self, node: int) -> set[int]:
        """The full useful set of a node."""
        chain = [node]
        while chain[-1] not in self.listed and chain[-1] not in self.useful and len(self.graph.after[chain[-1]]) == 1:
            chain.append(self.graph.after[chain[-1]][0])
        for at in reversed(chain):
            if at not in self.useful:
                self.useful[at] = self.listed[at][1] if at in self.listed else self.needed(at)
        return self.useful[node]

    # the clauses

    def clause_2(self) -> None:
        """The numbers of nodes and regions are right."""
        count = len(self.graph.nodes)
        leaders = {node for node in range(count) if self.is_leader(node)}
        if any(node >= count for node in self.listed) or not leaders <= set(self.listed):
            raise Wrong(2, 0)
        if len(self.part["potentials"]) != count:
            raise Wrong(2, 1)
        if len(self.part["loops"]) != len(self.code.regions.heads):
            raise Wrong(2, 2)

    def clause_4(self, node: int) -> bool:
        """The useful sets are those that are needed."""
        return self.needed(node) <= self.full(node)

    def clause_5(self, node: int) -> bool:
        """The task's sets have those of the node."""
        return self.own(node)[0] in self.part["evicting"] and self.full(node) <= set(self.part["useful"])

    def item(self, node: int, beside: int) -> int:
        """The potential of a node's item at the innermost level that holds another node too."""
        regions = [region for region in self.code.regions.around[node] if region not in self.code.regions.around[beside]]
        return int(self.part["loops"][regions[0]] if regions else self.part["potentials"][node])

    def turns(self, region: int) -> int:
        """The cycles of all turns of a region."""
        return int(self.code.regions.bounds[region] * self.part["potentials"][self.code.regions.heads[region]])

    def clause_6(self, node: int) -> bool:
        """The inequalities of the potentials hold at a node."""
        regions, loops, own = self.code.regions, self.part["loops"], self.part["potentials"][node]
        headed = [region for region, head in enumerate(regions.heads) if head == node]
        if any(loops[region] < self.turns(region) for region in headed):
            return False
        if not self.graph.after[node]:
            return bool(own >= self.cost(node, None))
        return all(self.covers(node, to) for to in self.graph.after[node])

    def cost(self, node: int, to: int | None) -> int:
        """The cost of an edge."""
        return self.graph.cost(self.code.platform, node, to) + (0 if self.is_hit(node) else self.code.platform.miss)

    def covers(self, u: int, v: int) -> bool:
        """Whether the potentials cover an edge, and the regions that it leaves."""
        regions, loops, cost = self.code.regions, self.part["loops"], self.cost(u, v)
        back = any(regions.heads[region] == v for region in regions.around[u])
        rest = self.code.platform.miss * len(self.pays(u, v)) + (0 if back else self.item(v, u))
        left = [region for region in regions.around[u] if region not in regions.around[v]]
        if not left:
            return bool(self.part["potentials"][u] >= cost + rest)
        return (self.part["potentials"][u] >= cost and all(loops[region] >= self.turns(region) for region in left)
                and loops[left[0]] >= self.turns(left[0]) + rest)

    def clause_7(self) -> bool:
        """The bound covers the first node and what the start pays for."""
        first = self.graph.first
        regions = self.code.regions.around[first]
        item = self.part["loops"][regions[0]] if regions else self.part["potentials"][first]
        return bool(self.part["bound"] >= item + self.code.platform.miss * len(self.state(first)))

    def decide(self) -> None:
        """All clauses but the first, place by place."""
        self.clause_2()
        for clause, holds in ((4, self.clause_4), (5, self.clause_5), (6, self.clause_6)):
            for node in range(len(self.graph.nodes)):
                if not holds(node):
                    raise Wrong(clause, node)
        if not self.clause_7():
            raise Wrong(7, 0)


# ---- the clauses of a window


class Verifier:
    """A set with a refined certificate."""

    def __init__(self, given: Input, certificate: Table) -> None:
        self.given, self.certificate = given, certificate
        self.tasks, self.platform = given.taskset.tasks, given.taskset.platform
        self.windows: list[Table] = certificate["windows"]
        self.listed: dict[tuple[int, int], Listed] = {}

    def text(self) -> str:
        """What is said of the certificate."""
        for number, task in enumerate(self.tasks):
            for a in range(len(self.certificate["analyses"])):
                try:
                    self.analysis(a, number)
                except Wrong as wrong:
                    return f"no {task.name} analysis {a} clause {wrong.args[0]} place {wrong.args[1]}\n"
            try:
                self.window(number)
            except Wrong as wrong:
                return f"no {task.name} clause {wrong.args[0]} place {wrong.args[1]}\n"
        return "".join(["yes\n", *self.lines()])

    def lines(self) -> Iterator[str]:
        """A line for each task."""
        for number, it in enumerate(self.windows):
            bound = self.parts(it["analysis"])[number]["bound"]
            yield (f"{it['name']} bound {bound} window {it['window']} response {it['response']} analysis {it['analysis']} "
                   f"method {it['method']}\n")

    def parts(self, analysis: int) -> list[Table]:
        """The parts of an analysis."""
        found: list[Table] = self.certificate["analyses"][analysis]["tasks"]
        return found

    def analysis(self, a: int, number: int) -> None:
        """The clauses of an analysis for a task."""
        parts = self.parts(a)
        if any(value != getattr(self.platform, key) for key, value in self.certificate["platform"].items() if key in vars(self.platform)):
            raise Wrong(1, 0)
        if number >= len(parts):
            raise Wrong(1, 1)
        if parts[number]["name"] != self.tasks[number].name:
            raise Wrong(1, 2)
        if number == len(self.tasks) - 1 and len(parts) > len(self.tasks):
            raise Wrong(1, 3)
        self.listed[a, number] = Listed(self.given.codes[number], parts[number])
        self.listed[a, number].decide()

    def window(self, number: int) -> None:
        """The clauses of a task's window."""
        task = self.tasks[number]
        if number >= len(self.windows):
            raise Wrong(1, 1)
        it = self.windows[number]
        if it["name"] != task.name:
            raise Wrong(1, 2)
        if number == len(self.tasks) - 1 and len(self.windows) > len(self.tasks):
            raise Wrong(1, 3)
        if it["window"] < 1 or self.demand(number, it) > it["window"]:
            raise Wrong(8, 0)
        if it["response"] != it["window"] + task.jitter:
            raise Wrong(9, 0)
        if it["response"] > task.deadline:
            raise Wrong(9, 1)

    def jobs(self, number: int, cycles: int) -> int:
        """The most jobs of a task in some cycles."""
        task = self.tasks[number]
        return (cycles + task.jitter + task.period - 1) // task.period

    def demand(self, number: int, it: Table) -> int:
        """What a window has to hold."""
        parts, cycles, platform = self.parts(it["analysis"]), it["window"], self.platform
        blocking = max(self.given.longest[number:]) - 1 if platform.switching == "instruction" else 0
        total = platform.switch + int(parts[number]["bound"]) + blocking
        for high in range(number):
            jobs = self.jobs(high, cycles)
            total += jobs * (parts[high]["bound"] + 2 * platform.switch)
            count = {low: self.jobs(high, self.windows[low]["window"]) * self.jobs(low, cycles) for low in range(high + 1, number)}
            total += platform.miss * self.reloads(it, high, jobs, {**count, number: jobs})
        return int(total)

    def reloads(self, it: Table, high: int, jobs: int, count: dict[int, int]) -> int:
        """The most reloads by the jobs of a higher task."""
        parts = self.parts(it["analysis"])
        if it["method"] == "ucb":
            return sum(min(jobs, sum(count[low] for low in count if own_set in parts[low]["useful"]))
                       for own_set in parts[high]["evicting"])
        evicted = {own_set for part in parts[:high + 1] for own_set in part["evicting"]}
        lost = {low: self.lost(it, low, evicted) for low in count}
        total = 0
        for low in sorted(count, key=lost.__getitem__, reverse=True):
            total += lost[low] * min(count[low], jobs)
            jobs -= min(count[low], jobs)
        return total

    def lost(self, it: Table, low: int, evicted: set[int]) -> int:
        """The most reloads of a task by one preemption."""
        if it["method"] == "ecb":
            return len(evicted & set(self.parts(it["analysis"])[low]["useful"]))
        listed = self.listed[it["analysis"], low]
        return max(len(evicted & listed.full(node)) for node in range(len(listed.graph.nodes)))


def verified(given: Input, text: bytes, name: str) -> str:
    """What `crpd verify` is to write of a certificate in a file of some name."""
    try:
        return Verifier(given, read(text)).text()
    except Refused as refusal:
        number, key = refusal.args
        return f"refused {number} {name} {key}\n"
