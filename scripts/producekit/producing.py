"""From a set's file to a certificate."""
from __future__ import annotations

from pathlib import Path

from .claims import Cache, Claims, evicted, persistent, plain
from .faults import NoWindow, Unfit
from .graph import Walker
from .image import Code, Image, read_image
from .pieces import TaskCode, cut
from .regions import Loop, find_regions
from .search import Score, Work, improved
from .taskset import Task, TaskSet, read_task_set
from .windows import METHODS, UNIONS, Analysis, Part, Window, best_window
from .writing import plain_text, refined_text

MOST_BOUND, NEVER = 1 << 40, 1 << 60


class Input:
    """A set with its code: the pieces of each task, and the most that one of its instructions costs."""

    def __init__(self, path: Path) -> None:
        self.taskset = read_task_set(path)
        images: dict[str, Image] = {}
        for task in self.taskset.tasks:
            if task.file not in images:
                images[task.file] = image_of(task.file)
        code = Code(list(images.values()))
        self.codes = [code_of(self.taskset, task, images[task.file], code) for task in self.taskset.tasks]
        self.longest = [it.graph.longest(self.taskset.platform) for it in self.codes]
        self.caches = [Cache(it) for it in self.codes]

    def analysis(self, claims: list[Claims]) -> Analysis:
        """The analysis by claims for each task."""
        return Analysis(self.taskset, self.longest, [part_of(claim) for claim in claims])


def image_of(name: str) -> Image:
    """The image of a file."""
    try:
        return read_image(Path(name).read_bytes(), name)
    except ValueError as error:
        raise Unfit(f"{name!r} is no name of a file") from error


def code_of(taskset: TaskSet, task: Task, image: Image, code: Code) -> TaskCode:
    """The code of a task."""
    entry = image.address(task.entry, task.name) if task.entry else image.entry
    loops = [Loop(image.address(loop.head, task.name), loop.bound,
                  tuple((image.address(a, task.name), image.address(b, task.name)) for a, b in loop.ranges))
             for loop in task.loops]
    graph = Walker(code, task.name, entry).graph()
    return cut(task.name, taskset.platform, graph, find_regions(graph, loops, task.name))


def part_of(claims: Claims) -> Part:
    """What windows need of a task's claims."""
    return Part(claims.bound, evicted(claims.cache), claims.useful, claims.useful_at_nodes)


def plain_claims(given: Input) -> list[Claims]:
    """The claims of the must analysis."""
    found = [plain(cache) for cache in given.caches]
    for claims in found:
        if claims.bound > MOST_BOUND:
            raise Unfit(f"{claims.cache.code.name}: its bound is {claims.bound}")
    return found


def chosen_claims(plains: list[Claims]) -> list[Claims]:
    """With blocks that stay in loops, where the bound is less by them."""
    return [min(claims, persistent(claims.cache), key=lambda it: it.bound) for claims in plains]


def windows_of(taskset: TaskSet, analyses: list[Analysis], methods: tuple[str, ...]) -> list[Window]:
    """The windows of all tasks."""
    found: list[Window] = []
    for number, task in enumerate(taskset.tasks):
        window = best_window(analyses, methods, number, [it.cycles for it in found])
        if window is None:
            raise NoWindow(task.name)
        found.append(window)
    return found


def plain_certificate(path: Path) -> str:
    """A certificate of version 2 for a set."""
    given = Input(path)
    claims = plain_claims(given)
    return plain_text(given.taskset, claims, windows_of(given.taskset, [given.analysis(claims)], UNIONS))


def persistent_certificate(path: Path) -> str:
    """A refined certificate for a set by the must analysis and, where bounds are less by them, by blocks that stay in loops."""
    given = Input(path)
    plains = plain_claims(given)
    chosen = chosen_claims(plains)
    claims = [plains] if chosen == plains else [plains, chosen]
    analyses = [given.analysis(it) for it in claims]
    return refined_text(given.taskset, claims, windows_of(given.taskset, analyses, METHODS))


def by_bound(claims: Claims) -> Score:
    """A search for the least bound; of equal bounds that with fewer useful sets."""
    return claims.bound, claims.useful.bit_count()


def least_claims(chosen: list[Claims]) -> list[Claims]:
    """Claims by which bounds are as small as the search finds them."""
    return [improved(claims, by_bound, Work()) for claims in chosen]


class ByWindow:
    """A search for the least window of the next task, beside the parts of the tasks above; of equal windows that with the least bound.

    What a window depends on is seen first: claims that are nowhere better than the best ones so far get no window.
    """

    def __init__(self, above: Analysis, windows: list[int]) -> None:
        self.above, self.windows = above, windows
        self.best: tuple[Score, Part, list[int]] | None = None

    def __call__(self, claims: Claims) -> Score:
        task, part = len(self.windows), part_of(claims)
        analysis = self.above.with_part(part)
        lost = [analysis.lost("point", task, high) for high in range(task)]
        if self.best and self.best[1] != part and self.is_no_better(part, lost, *self.best[1:]):
            return NEVER, part.bound
        found = [analysis.window(method, task, self.windows) for method in ("ucb", "point")]
        score = min(NEVER if window is None else window for window in found), part.bound
        if self.best is None or score < self.best[0]:
            self.best = score, part, lost
        return score

    @staticmethod
    def is_no_better(part: Part, lost: list[int], best: Part, least: list[int]) -> bool:
        """Whether a part is nowhere better than another one."""
        return part.bound >= best.bound and not best.useful & ~part.useful and all(a >= b for a, b in zip(lost, least))


def tuned_claims(above: Analysis, starts: list[Claims], windows: list[int]) -> Claims:
    """Claims by which the window of the next task is as small as the search finds it, beside those of the tasks above."""
    score = ByWindow(above, windows)
    start = min(starts, key=score)
    return improved(start, score, Work())


def refined_certificate(path: Path) -> str:
    """A refined certificate for a set, by the analyses of the others and two more by searched claims."""
    given = Input(path)
    plains = plain_claims(given)
    chosen = chosen_claims(plains)
    least = least_claims(chosen)
    analyses = [given.analysis(it) for it in (plains, chosen, least)]
    tuned: list[Claims] = []
    above, windows = given.analysis([]), list[Window]()
    for number, task in enumerate(given.taskset.tasks):
        starts = [least[number], chosen[number], plains[number]]
        tuned.append(tuned_claims(above, starts, [it.cycles for it in windows]))
        above = above.with_part(part_of(tuned[-1]))
        window = best_window([*analyses, above], METHODS, number, [it.cycles for it in windows])
        if window is None:
            raise NoWindow(task.name)
        windows.append(window)
    return used_alone(given, [plains, chosen, least, tuned], windows)


def used_alone(given: Input, claims: list[list[Claims]], windows: list[Window]) -> str:
    """The refined certificate with those analyses that give windows."""
    used = sorted({window.analysis for window in windows})
    renamed = [Window(it.cycles, used.index(it.analysis), it.method) for it in windows]
    return refined_text(given.taskset, [claims[number] for number in used], renamed)
