"""Runs of the program over inputs that are as large as may be: what each took, and what the page says of it."""
from __future__ import annotations

import shutil
import subprocess
from collections.abc import Iterator, Sequence
from dataclasses import dataclass
from pathlib import Path

from commonkit.pages import paragraph, table
from commonkit.usage import Usage, first_line, measured

from .inputs import ANALYZE, ANY_LINE, INPUTS, Call, Input, most_megabytes

MAKER = Path(__file__).resolve().parent.parent / "hostile-inputs"
MOST_SECONDS = 10
USUAL_MEGABYTES = 1024


@dataclass(frozen=True)
class Tried:
    """A command over an input, what it took, and its first line."""

    name: str
    call: Call
    usage: Usage
    line: str

    def faults(self) -> list[str]:
        """What is not as it must be."""
        usage, call = self.usage, self.call
        found = {
            "WRONG: ended by a signal": usage.status < 0,
            f"WRONG status, wanted {call.status}": call.status != usage.status,
            "WRONG text": call.line not in (ANY_LINE, self.line),
            "SLOW": usage.seconds > MOST_SECONDS,
            "LARGE": usage.megabytes > most_megabytes(self.name),
        }
        return [words for words, is_so in found.items() if is_so]

    def row(self) -> list[str]:
        """A row of the table."""
        usage = self.usage
        cells = [self.name, self.call.command(), f"{usage.seconds:.2f}", str(usage.megabytes), str(usage.status), self.line]
        return [*cells, ", ".join(self.faults())]


def tried(crpd: Path, name: str, place: Path) -> Iterator[Tried]:
    """The runs over an input, in a folder of their own. What `analyze` writes is the certificate of those after it, if there is none.
    Another process makes the files, since the memory of the one that starts a run counts for the run."""
    folder, written = place / "input", place / "written"
    folder.mkdir()
    subprocess.run([MAKER, name, folder], check=True)
    for call in INPUTS[name].calls:
        usage = measured([str(crpd), *call.words.split()], written, folder)
        if call.words == ANALYZE and usage.status == 0 and not (folder / "cert.json").exists():
            shutil.copy(written, folder / "cert.json")
        yield Tried(name, call, usage, first_line(written))
    shutil.rmtree(folder)


def try_sizes(crpd: Path, place: Path, names: Sequence[str]) -> bool:
    """Runs the commands of these inputs, with a row for each; whether all ended as they must."""
    print(table(("input", "command", "seconds", "MB", "status", "first line", "wrong"), ()), flush=True)
    runs = []
    for name in names:
        for run in tried(crpd, name, place):
            print(f"| {' | '.join(run.row())} |", flush=True)
            runs.append(run)
    return not any(run.faults() for run in runs)


def endings(given: Input) -> str:
    """How the commands of an input end: their status, and the first line where one is wanted."""
    told: dict[str, list[str]] = {}
    for call in given.calls:
        ending = str(call.status) if call.line == ANY_LINE else f"{call.status}, `{call.line}`"
        told.setdefault(ending, []).append(f"`{call.command()}`")
    return "; ".join(f"{', '.join(commands)}: {ending}" for ending, commands in told.items())


def page_text() -> str:
    """The table of the page: each input with its commands, how they end, and the most memory."""
    rows = [[f"`{name}`", given.what, endings(given), megabytes(name)] for name, given in INPUTS.items()]
    calls = sum(len(given.calls) for given in INPUTS.values())
    large = sum(most_megabytes(name) > USUAL_MEGABYTES for name in INPUTS)
    told = paragraph(f"{len(INPUTS)} inputs and {calls} runs, each within {MOST_SECONDS} seconds; {large} inputs may take more than "
                     f"{USUAL_MEGABYTES:,} MB (bold, with the causes below).")
    return f"{told}\n\n{table(('input', 'what it is', 'commands, with their status and first line', 'MB at most'), rows)}"


def megabytes(name: str) -> str:
    """The most memory of an input, as the page shows it."""
    most = most_megabytes(name)
    return f"**{most:,}**" if most > USUAL_MEGABYTES else f"{most:,}"
