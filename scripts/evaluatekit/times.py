"""The processor time of calls against the number of tasks. These numbers alone differ from machine
to machine and from call to call."""
import math
import os
from typing import Any

from .kernels import Timed, set_text
from .measuring import BASE, Known, System, know
from .program import processor_seconds
from .workers import Workers

COUNTS, ROUNDS = [1, 2, 4, 8, 12, 16, 20, 24, 28, 32], 60
# The sets' utilization is one half.
LOAD_DIVISOR = 2
COMMANDS = ["analyze", "refine", "check", "classic"]


def loaded(system: System, known: dict[str, Known], count: int) -> list[Timed]:
    """That many tasks, the kernels one after the other, with equal shares of the utilization."""
    kernels = list(system.kernels.values())
    turn = [kernels[n % len(kernels)] for n in range(count)]
    tasks = [Timed(kernel, known[kernel.name].part.bound * count * LOAD_DIVISOR, 0, f"task{n}")
             for n, kernel in enumerate(turn)]
    return sorted(tasks, key=lambda task: task.period)


def prepare(system: System, known: dict[str, Known], count: int) -> dict[str, Any]:
    """A set of that many tasks with its certificate, in files that begin with the number."""
    crpd = system.crpd
    parts = crpd.certificate(set_text(BASE, loaded(system, known, count)))
    for name in ("set.toml", "cert.json"):
        os.replace(crpd.folder / name, crpd.folder / f"{count}-{name}")
    return {"tasks": count, "nodes": sum(part.nodes for part in parts)}


def words(command: str, count: int) -> list[str]:
    """A call of a command over the files of a set."""
    certificate = [f"{count}-cert.json"] if command == "check" else []
    return [command, f"{count}-set.toml", *certificate]


def measure(workers: Workers) -> dict[str, Any]:
    """The least times of some calls, in microseconds. A round has a call of each kind."""
    return workers.map(timed, [ROUNDS])[0]


def timed(system: System, rounds: int) -> dict[str, Any]:
    """The least times in so many rounds."""
    crpd = system.crpd
    known, start = know(system, BASE), math.inf
    rows = [prepare(system, known, count) for count in COUNTS]
    least = {(count, command): math.inf for count in COUNTS for command in COMMANDS}
    for _ in range(rounds):
        start = min(start, processor_seconds(crpd.program, crpd.folder, []))
        for count, command in least:
            taken = processor_seconds(crpd.program, crpd.folder, words(command, count))
            least[count, command] = min(least[count, command], taken)
    for row in rows:
        row |= {command: round(1e6 * least[row["tasks"], command]) for command in COMMANDS}
    return {"rounds": rounds, "start": round(1e6 * start), "rows": rows}
