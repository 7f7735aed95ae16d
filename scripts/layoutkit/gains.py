"""What scripts/layout gains for two examples, as the table of the guide."""
from __future__ import annotations

import re
import shutil
import subprocess
import sys
from dataclasses import dataclass
from pathlib import Path

from commonkit.calls import Trouble
from loopkit.builds import COMMON, PREFIX

from .calling import call
from .judge import Judge
from .linker import read_command
from .taskset import read_set

TOP = Path(__file__).resolve().parents[2]
EXAMPLES = TOP / "examples"
MACHINE = ("-march=rv32im", "-mabi=ilp32")
LINK = " ".join((f"{PREFIX}gcc", *MACHINE, "-nostdlib -static -Wl,-T,{script} -Wl,--build-id=none -o {out}"))
HEAD = ("| set, its lowest task | as linked | with `-falign-functions` | by `scripts/layout` |", "|---|---|---|---|")


@dataclass(frozen=True)
class Case:
    """An example with so many cache sets: the sources of its program, and the task that is shown."""

    folder: str
    sources: tuple[str, ...]
    sets: int
    task: str

    def text(self) -> str:
        """The set's text with that many cache sets and the file that is linked."""
        text = (EXAMPLES / self.folder / "set.toml").read_text()
        text = re.sub(r"^sets = \d+", f"sets = {self.sets}", text, flags=re.MULTILINE)
        return re.sub(r'^file = ".*"', 'file = "linked.elf"', text, flags=re.MULTILINE)


CONTROLLER = ("controller/tasks.c", "controller/helpers.c")
CASES = (Case("late", ("five/tasks.c",), 16, "median"), *(Case("controller", CONTROLLER, sets, "log") for sets in (16, 32, 64)))


def compile_objects(sources: tuple[str, ...], place: Path, more: tuple[str, ...] = ()) -> list[str]:
    """Compiles sources of the examples, each function into a section of its own; the names of the objects."""
    made = [place / f"{Path(source).stem}{'-'.join(more)}.o" for source in sources]
    options = (*MACHINE, "-O2", *COMMON, "-ffunction-sections", *more)
    for source, out in zip(sources, made):
        done = call([f"{PREFIX}gcc", *options, "-c", "-o", str(out), str(EXAMPLES / source)])
        if done.returncode != 0:
            raise Trouble(done.stderr.decode(errors="replace").strip())
    return [str(out) for out in made]


def row(case: Case, program: str, place: Path, tries: int, jobs: int) -> str:
    """A line of the table: the response of a task by `refine` and the slack of a switch, as linked, with functions at the
    beginnings of lines, and with what a search finds."""
    (place / "set.toml").write_text(case.text())
    shutil.copy(EXAMPLES / "link.ld", place / "link.ld")
    found = read_set(place / "set.toml", None)
    judge = Judge(program, found.document, found.file)
    plain = compile_objects(case.sources, place)
    align = compile_objects(case.sources, place, (f"-falign-functions={found.line}",))
    best = search(plain, program, place, tries, jobs)
    cells = [cell(case, judge, place, words, script) for words, script in ((plain, "link.ld"), (align, "link.ld"), (plain, best))]
    return f"| `{case.folder}`, {case.sets} cache sets, `{case.task}` | {' | '.join(cells)} |"


def search(objects: list[str], program: str, place: Path, tries: int, jobs: int) -> str:
    """Searches, and gives the name of the best linker script."""
    words = [sys.executable, str(TOP / "scripts" / "layout"), "set.toml", "link.ld", "--link", f"{LINK} {' '.join(objects)}",
             "--crpd", program, "--tries", str(tries), "--jobs", str(jobs)]
    done = subprocess.run(words, cwd=place, stdout=subprocess.DEVNULL, check=False)
    if done.returncode not in (0, 1):
        raise Trouble("scripts/layout finds nothing")
    return "link.layout.ld" if done.returncode == 0 else "link.ld"


def cell(case: Case, judge: Judge, place: Path, objects: list[str], script: str) -> str:
    """A cell of the table."""
    linked = read_command(f"{LINK} {' '.join(objects)}").link(place / script, place / "linked.elf")
    response = judge.judged(linked.path).main.responses_by_name().get(case.task)
    return f"{response.cycles if response else 'none'}, {judge.slack(linked.path).switch}"
