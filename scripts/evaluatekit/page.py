"""Writes the page and its plots: a function of the numbers and of the page's text."""
import json
import re
import textwrap
from pathlib import Path
from typing import Any

from . import prose
from .ending import stop
from .plots import PLOTS
from .published import (synthetic_plot, synthetic_statements, synthetic_table,
                        synthetic_values)
from .tables import TABLES, accepted

TEXT = Path(__file__).parent / "page.md"
PARTS = ["bounds", "responses", "attacks", "acceptance", "sweeps", "synthetic", "times"]
WIDTH = 100
# The methods in the main figures, and how the README's paragraph with them begins.
FIGURES = ("refined", "combination", "partition", "classic", "ecb only")
FIGURES_HEAD = "**How tight, and how much better** (docs/EVALUATION.md):"
NAMED = re.compile(r"\{\{([^}]+)\}\}")


def load(folder: Path, part: str) -> dict[str, Any]:
    """The stored numbers of a part."""
    path = folder / "evaluation" / f"{part}.json"
    if not path.exists():
        stop(f"{part} is not measured: there is no {path.name}")
    found: dict[str, Any] = json.loads(path.read_text(encoding="ascii"))
    return found


def load_all(folder: Path) -> dict[str, Any]:
    return {part: load(folder, part) for part in PARTS}


def store(folder: Path, part: str, numbers: dict[str, Any]) -> None:
    """Stores the numbers of a part, a line for each list of numbers."""
    (folder / "evaluation").mkdir(parents=True, exist_ok=True)
    text = json.dumps(numbers, indent=1)
    text = re.sub(r"\[[^][{}]*\]", lambda found: " ".join(found[0].split()), text)
    path = folder / "evaluation" / f"{part}.json"
    path.write_text(text + "\n", encoding="ascii")


def page_text(numbers: dict[str, Any]) -> str:
    """The page: its text, with a value or a table for each name in double braces."""
    known: dict[str, object] = prose.values(numbers) | synthetic_values(numbers)
    known |= {name: make(numbers) for name, make in TABLES.items()}
    known["synthetic table"] = synthetic_table(numbers)
    text = TEXT.read_text(encoding="utf-8")
    if unknown := sorted({name for name in NAMED.findall(text) if name not in known}):
        stop(f"the page's text names {', '.join(unknown)}, which is no value")
    told = NAMED.sub(lambda found: str(known[found[1]]), text)
    return "\n\n".join(map(wrapped, told.rstrip("\n").split("\n\n"))) + "\n"


def wrapped(block: str) -> str:
    """A paragraph or list with lines of at most WIDTH; headings, tables and pictures as they
    are."""
    if block.startswith(("#", "|", "!")):
        return block
    if block.startswith("- "):
        items = block.removeprefix("- ").split("\n- ")
        return "\n".join(filled(item, "- ") for item in items)
    return filled(block)


def filled(text: str, first: str = "") -> str:
    return textwrap.fill(" ".join(text.split()), WIDTH, initial_indent=first,
                         subsequent_indent=" " * len(first), break_long_words=False,
                         break_on_hyphens=False)


def files(numbers: dict[str, Any]) -> dict[str, str]:
    """All that is made from the numbers: the page and the plots, by place."""
    made = {f"evaluation/{name}.svg": plot(numbers[part]).svg()
            for name, (part, plot) in PLOTS.items()}
    made["evaluation/synthetic.svg"] = synthetic_plot(numbers["synthetic"]).svg()
    return {"EVALUATION.md": page_text(numbers)} | made


def figures(numbers: dict[str, Any]) -> str:
    """The main figures, as the README says them."""
    known, families = prose.values(numbers), numbers["acceptance"]["families"]
    by_runs, by_bounds = ({method: accepted(families[name], method) for method in FIGURES}
                          for name in ("5 tasks, by runs", "5 tasks"))
    error = max(one.error for some in (by_runs, by_bounds) for one in some.values())
    return (f"Responses of `refine` are {known['near refined ratios']} times the longest that a "
            f"search over releases found for {known['near refined']} of "
            f"{known['searched tasks']} tasks{known['the far refined']}; those of `analyze` are "
            f"{known['response ratios']} times. Of {known['sets of 5 tasks']} random sets of 5 "
            f"kernels whose longest runs take 5 to 100 % of the processor `refine` accepts "
            f"{by_runs['refined'].value:.1f} %, `analyze` {by_runs['combination'].value:.1f} %, "
            f"and a partition of the cache among the tasks {by_runs['partition'].value:.1f} %. If "
            f"certified bounds take so much, `refine` accepts {by_bounds['refined'].value:.1f} %, "
            f"`analyze` {by_bounds['combination'].value:.1f} %, a partition "
            f"{by_bounds['partition'].value:.1f} %, the plain union delays "
            f"{by_bounds['classic'].value:.1f} %, and ECB-only {by_bounds['ecb only'].value:.1f} % "
            f"(all ± {error:.1f} at most).")


def readme_text(text: str, numbers: dict[str, Any]) -> str:
    """The README with the main figures in their paragraph, if it has one."""
    said = filled(f"{FIGURES_HEAD} {figures(numbers)}")
    return "\n\n".join(said if block.startswith(FIGURES_HEAD) else block
                       for block in text.split("\n\n"))


def false_statements(numbers: dict[str, Any]) -> list[str]:
    """The statements of the page that do not hold for the numbers."""
    statements = prose.statements(numbers) | synthetic_statements(numbers)
    return [words for words, holds in statements.items() if not holds]


def write(folder: Path, numbers: dict[str, Any]) -> None:
    """Writes the page and the plots, and the figures of the README beside the folder, if all that
    the page says holds."""
    if wrong := false_statements(numbers):
        stop("the page says what the numbers do not: " + "; ".join(wrong))
    for place, text in files(numbers).items():
        (folder / place).write_text(text, encoding="utf-8")
    readme = folder.parent / "README.md"
    if readme.exists():
        readme.write_text(readme_text(readme.read_text(encoding="utf-8"), numbers),
                          encoding="utf-8")
