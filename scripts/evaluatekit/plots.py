"""The plots of the page, made from the numbers alone."""
from collections.abc import Callable
from dataclasses import dataclass
from typing import Any

from . import bounds, confidence
from .acceptance import ABOVE
from .charts import Axis, Box, Drawing, Mark, Panel, Point, Style, legend, marks
from .confidence import Estimate

Numbers = dict[str, Any]

# How each method is named and drawn. The wide ones come last, before the others.
METHODS = {
    "seen": Style("longest seen, no reloads (unsafe)", "ink", dash="2 3", width=1.6),
    "none chosen": Style("no reloads, persistent (unsafe)", "grey", dash="6 3", width=2),
    "refined": Style("crpd refine", "purple", "down", width=2.6),
    "none": Style("no reloads (unsafe)", "grey", dash="1.5 3", width=2),
    "points": Style("refine without persistent blocks", "purple", "down", "9 3", 2.2, "open"),
    "partition": Style("partition of the cache", "green", "diamond", "4 2", 1.8, "open"),
    "one line": Style("a cache of one line", "orange", "circle", "2 2", 1.8, "open"),
    "combination": Style("crpd analyze: both multisets", "blue", "circle", width=2.6),
    "ucb multiset": Style("UCB-union multiset", "orange", "up"),
    "ecb multiset": Style("ECB-union multiset", "green", "square"),
    "classic": Style("crpd classic: both plain unions", "blue", "circle", "5 3", 1.8, "open"),
    "plain ucb": Style("plain UCB-union", "orange", "up", "5 3", 1.8, "open"),
    "plain ecb": Style("plain ECB-union", "green", "square", "5 3", 1.8, "open"),
    "ucb only": Style("UCB-only (all that is useful)", "sky", "square", "7 3 1.5 3", 1.8, "open"),
    "ecb only": Style("ECB-only (all that is evicted)", "red", "diamond", "7 3 1.5 3"),
}
# The curves of the upper panels; the lower ones have the delays of plain bounds, over ECB-only.
MAIN = ["seen", "none chosen", "none", "partition", "one line", "refined", "points", "ecb only",
        "classic", "combination"]
GAINS = ABOVE[::-1]


def percent(part: float, whole: float) -> float:
    return 100 * part / whole


# Bounds

BOUNDS = {
    "free misses": Style("misses cost nothing", "grey", "circle", width=0, filling="open"),
    "32 sets": Style("32 sets, a miss costs 10", "blue", "square", width=0),
    "8 sets": Style("8 sets, a miss costs 10", "red", "tall", width=0, filling="clear"),
}
PERSISTENT = Style("persistent, 32 sets", "purple", "down", width=0)


def ratio(row: Numbers, platform: str, key: str = "bound") -> float:
    """A bound over the longest execution seen."""
    bound, seen = row[key][platform], row["seen"][platform]
    return float(bound) / float(seen)


def bounds_plot(numbers: Numbers) -> Drawing:
    """The ratio of each kernel, the largest on top."""
    rows = sorted(numbers["kernels"].items(), key=lambda row: ratio(row[1], bounds.BASE_NAME))
    drawing = Drawing(760, 118 + 23 * len(rows), "Certified bounds over longest runs",
                      "For each kernel the certified execution bound divided by the longest "
                      "execution seen, with free misses, with 32 and with 8 cache sets; and the "
                      "bound with persistent blocks.")
    top = max(ratio(row, platform) for _, row in rows for platform in BOUNDS)
    steps = [1 + 0.5 * n for n in range(int(2 * top))]
    panel = Panel(drawing, Box(90, 50, 640, 23 * len(rows)),
                  Axis(0.9, max(top + 0.2, 2), [m for m in marks(steps) if m.value <= top + 0.2],
                       "bound / longest execution seen"),
                  Axis(-0.5, len(rows) - 0.5,
                       [m for n, (name, _) in enumerate(rows) for m in marks([n], name)])).frame()
    for n, (name, row) in enumerate(rows):
        for platform, style in BOUNDS.items():
            title = (f"{name}, {style.label}: bound {row['bound'][platform]}, seen "
                     f"{row['seen'][platform]}, ratio {ratio(row, platform):.2f}")
            drawing.marker(panel.x(ratio(row, platform)), panel.y(n), style, title)
        here = ratio(row, bounds.BASE_NAME, "chosen")
        drawing.marker(panel.x(here), panel.y(n), PERSISTENT,
                       f"{name}, {PERSISTENT.label}: bound {row['chosen'][bounds.BASE_NAME]}, "
                       f"ratio {here:.2f}")
    legend(drawing, 60, 28, [0, 155, 340, 530], [*BOUNDS.values(), PERSISTENT])
    return drawing


# Responses

CAUSES = {
    "jitter": Style("jitter", "grey", hatch="dotted"),
    "bound": Style("own bound", "blue"),
    "higher": Style("bounds of higher jobs", "sky", hatch="rising"),
    "switches": Style("switches", "green", hatch="upright"),
    "delay": Style("reload delays", "red", hatch="crossed"),
}
SEEN = Style("longest response seen", "ink", "diamond", width=0)
RUNS = Style("analyze by longest runs (unsafe)", "ink", "bar", width=0)
REFINED = Style("by refine", "purple", "down", width=0)


def response_bar(panel: Panel, y: float, row: Numbers) -> None:
    """A task's certified response by causes, with the marks of other responses."""
    drawing, at, whole = panel.drawing, 0, row["response"]
    for key, style in CAUSES.items():
        left, right = panel.x(percent(at, whole)), panel.x(percent(at + row[key], whole))
        if row[key]:
            drawing.bar(Box(left, y, right - left, 15), style,
                        f"{row['task']}, {style.label}: {row[key]} of {whole} cycles")
        at += row[key]
    for key, style in (("refined", REFINED), ("by runs", RUNS), ("seen", SEEN)):
        drawing.marker(panel.x(percent(row[key], whole)), y + 7.5, style,
                       f"{row['task']}, {style.label}: {row[key]} cycles")
    drawing.text(89, y + 12, row["task"], "end")
    drawing.text(746, y + 12, f"{whole} cycles, {whole / row['seen']:.2f} times seen", look="faint")


def responses_plot(numbers: Numbers) -> Drawing:
    """The responses of all sets as shares of the certified ones."""
    count = sum(len(rows) for rows in numbers["sets"].values())
    height = 21 * count + 26 * len(numbers["sets"])
    drawing = Drawing(940, height + 128, "Certified responses by cause, with the longest seen",
                      "For each task the certified response, divided into jitter, bounds, switches "
                      "and delays, and in it the longest response seen.")
    panel = Panel(drawing, Box(96, 70, 640, height),
                  Axis(0, 100, marks([0, 20, 40, 60, 80, 100], "{:g} %"),
                       "share of the certified response"), Axis(0, 1, [])).frame()
    y = 70.0
    for name, rows in numbers["sets"].items():
        y += 26
        drawing.text(20, y - 7, name, look="bold")
        for row in rows:
            response_bar(panel, y, row)
            y += 21
    legend(drawing, 96, 28, [0, 105, 230, 420, 525], list(CAUSES.values()))
    legend(drawing, 96, 50, [-10, 180, 420], [SEEN, RUNS, REFINED])
    return drawing


# Acceptance

def weight(row: Numbers, method: str) -> Estimate:
    """The weighted schedulability of a method."""
    return confidence.weighted(row["utilizations"], row["accepted"][method], row["each"])


def gain(row: Numbers, first: str, second: str) -> Estimate:
    """By how much the weighted schedulability of one method is above that of another, if the row
    has their counts."""
    only = row["only"]
    return confidence.difference(row["utilizations"], only[f"{first} > {second}"],
                                 only[f"{second} > {first}"], row["each"])


def share_at(row: Numbers, method: str, n: int) -> Estimate:
    """The share of sets that a method accepts at one utilization, by its place."""
    return confidence.share([row["accepted"][method][n]], row["each"])


@dataclass(frozen=True)
class Curves:
    """The values of each method in percent, at some places across, which the titles of markers
    name."""

    title: str
    across: Axis
    xs: list[float]
    places: list[str]
    values: dict[str, list[Estimate]]

    def points(self, method: str) -> list[Point]:
        """The curve of a method."""
        return [Point(x, one.value, f"{METHODS[method].label}, {place}: {one.text()} %", one.error)
                for x, one, place in zip(self.xs, self.values[method], self.places)]


@dataclass(frozen=True)
class Gains:
    """How much methods are above ECB-only."""

    xs: list[float]
    places: list[str]
    values: dict[str, list[Estimate]]

    def points(self, method: str) -> list[Point]:
        """The curve of a method."""
        return [Point(x, one.value, f"{METHODS[method].label}, {place}: {one.signed()} points "
                                    "above ECB-only", one.error)
                for x, one, place in zip(self.xs, self.values[method], self.places)]


def gains_axis(columns: list[Gains], label: str) -> Axis:
    """An axis for all gains."""
    gains = [point.y for one in columns for method in GAINS for point in one.points(method)]
    least, most = 5 * int(min(gains) // 5), 5 * int(-(-max(gains) // 5))
    step = 5 if most - least <= 40 else 10
    return Axis(least, most, [Mark(gain, f"{gain:+}" if gain else "0")
                              for gain in range(least, most + 1, step)], label)


def two_by_two(drawing: Drawing, columns: list[tuple[Curves, Gains]], what: str) -> None:
    """A column of two panels for each of the curves: the values, and the gains over ECB-only."""
    for n, (curves, gains) in enumerate(columns):
        left, first = 80 + 430 * n, n == 0
        upper = Panel(drawing, Box(left, 156, 366, 230), curves.across,
                      Axis(0, 100, marks(list(range(0, 101, 20)), "{:g} %"),
                           what if first else "")).frame(curves.title)
        up = gains_axis([one for _, one in columns], "above ECB-only, in points" if first else "")
        lower = Panel(drawing, Box(left, 460, 366, 190), curves.across, up).frame()
        drawing.line((left, lower.y(0)), (left + 366, lower.y(0)), "red", 1.8,
                     METHODS["ecb only"].dash)
        for method in MAIN:
            upper.curve(curves.points(method), METHODS[method])
        for method in GAINS:
            lower.curve(gains.points(method), METHODS[method])
    legend(drawing, 80, 26, [0, 270, 540], list(METHODS.values()))


@dataclass(frozen=True)
class Scale:
    """What a utilization counts: the families, the first utilization that is drawn, in percent, and
    the words below the axis."""

    families: tuple[str, str]
    first: int
    label: str


BY_RUNS = Scale(("5 tasks, by runs", "8 tasks, by runs"), 10,
                "utilization, sum of longest run seen / period")
BY_BOUNDS = Scale(("5 tasks", "8 tasks"), 40, "utilization, sum of certified bound / period")


def runs_plot(numbers: Numbers) -> Drawing:
    """Accepted sets against utilization by the longest runs."""
    return acceptance_plot(numbers, BY_RUNS)


def bounds_scale_plot(numbers: Numbers) -> Drawing:
    """Accepted sets against utilization by certified bounds."""
    return acceptance_plot(numbers, BY_BOUNDS)


def above_at(row: Numbers, method: str, n: int) -> Estimate:
    """By how much a method accepts more than ECB-only at one utilization, by its place."""
    only = row["only"]
    return confidence.difference([1], [only[f"{method} > ecb only"][n]],
                                 [only[f"ecb only > {method}"][n]], row["each"])


def acceptance_plot(numbers: Numbers, scale: Scale) -> Drawing:
    """Accepted sets against utilization, from the first at which not all are accepted."""
    utilizations = numbers["families"][scale.families[0]]["utilizations"]
    places = [n for n, percents in enumerate(utilizations) if percents >= scale.first]
    drawing = Drawing(900, 704, "Accepted sets against utilization",
                      "The share of random sets that each method accepts, for 5 and for 8 tasks; "
                      "below, how much it is above that of ECB-only.")
    xs = [utilizations[n] / 100 for n in places]
    tenths = [n / 10 for n in range(scale.first // 10, 11)]
    across = Axis(tenths[0], 1.0, marks(tenths, "{:.1f}"), scale.label)
    columns = []
    for name in scale.families:
        family = numbers["families"][name]
        words = [f"{name}, utilization {x:.2f}" for x in xs]
        columns.append((
            Curves(name, across, xs, words, {method: [share_at(family, method, n) for n in places]
                                             for method in METHODS}),
            Gains(xs, words, {method: [above_at(family, method, n) for n in places]
                              for method in GAINS})))
    two_by_two(drawing, columns, "accepted sets")
    return drawing


# Sweeps

@dataclass(frozen=True)
class Swept:
    """How a sweep is named and drawn: its title, the words below its axis, and by what its values
    are divided where they are written."""

    title: str
    label: str
    divisor: int = 1

    def mark(self, value: int) -> str:
        """A value as it is written."""
        return f"{value / self.divisor:g}"


SWEEPS = {"tasks": Swept("number of tasks", "tasks"),
          "sets": Swept("cache sets", "cache sets (lines of 16 bytes)"),
          "miss": Swept("cost of a miss", "cycles of a miss"),
          "deadline": Swept("deadline over period", "deadline / period", 1000),
          "spread": Swept("range of periods", "longest / shortest period, at most"),
          "jitter": Swept("jitter over period", "largest jitter / period", 1000)}
SWEPT = ["seen", "none chosen", "none", "partition", "one line", "ucb only", "ecb only", "classic",
         "points", "combination", "refined"]


def sweep_curves(key: str, sweep: Numbers) -> Curves:
    """The weighted schedulability of each method at each value of a sweep."""
    look = SWEEPS[key]
    xs = [float(n) for n in range(len(sweep["values"]))]
    ticks = [Mark(x, look.mark(value)) for x, value in zip(xs, sweep["values"])]
    values = {method: [weight(row, method) for row in sweep["rows"]] for method in SWEPT}
    return Curves(look.title, Axis(-0.3, xs[-1] + 0.3, ticks, look.label), xs,
                  [f"{look.title} {tick.text}" for tick in ticks], values)


def sweeps_plot(numbers: Numbers, scale: str) -> Drawing:
    """Weighted schedulability against each parameter."""
    drawing = Drawing(900, 1010, f"Weighted schedulability {scale}",
                      "Accepted sets weighted with their utilizations, against the number of tasks "
                      "and other parameters.")
    for n, (key, sweep) in enumerate(numbers["sweeps"][scale].items()):
        row, column = divmod(n, 2)
        curves = sweep_curves(key, sweep)
        panel = Panel(drawing, Box(80 + 430 * column, 136 + 296 * row, 366, 220), curves.across,
                      Axis(0, 100, marks(list(range(0, 101, 20)), "{:g} %"),
                           "" if column else f"weighted, {scale}")).frame(curves.title)
        for method in SWEPT:
            panel.curve(curves.points(method), METHODS[method])
    legend(drawing, 80, 26, [0, 270, 540], [METHODS[method] for method in METHODS
                                            if method in SWEPT])
    return drawing


def sweeps_by_runs(numbers: Numbers) -> Drawing:
    """The sweeps by the longest runs."""
    return sweeps_plot(numbers, "by runs")


def sweeps_by_bounds(numbers: Numbers) -> Drawing:
    """The sweeps by certified bounds."""
    return sweeps_plot(numbers, "by bounds")


# Times

TIMES = {"analyze": Style("analyze", "blue", "circle"),
         "refine": Style("refine", "purple", "down", "9 3", 1.8, "open"),
         "check": Style("check", "red", "diamond", "7 3 1.5 3"),
         "classic": Style("classic", "orange", "up", "5 3", 1.8, "open")}


def times_plot(numbers: Numbers) -> Drawing:
    """The processor time of each command against the number of tasks."""
    drawing = Drawing(560, 330, "Processor time against the number of tasks",
                      "Milliseconds of analyze, refine, check and classic for 1 to 32 tasks.")
    rows = numbers["rows"]
    top = max(row[command] for row in rows for command in TIMES) // 1000 + 1
    step = max(1, top // 6)
    panel = Panel(drawing, Box(70, 50, 460, 220),
                  Axis(0, 33, marks([1, 4, 8, 12, 16, 20, 24, 28, 32]), "tasks"),
                  Axis(0, top, marks(list(range(0, top + 1, step))),
                       "milliseconds of processor time")).frame()
    for command, style in TIMES.items():
        panel.curve([Point(row["tasks"], row[command] / 1000,
                           f"{command}, {row['tasks']} tasks: {row[command] / 1000:.1f} ms")
                     for row in rows], style)
    legend(drawing, 70, 30, [0, 120, 240, 360], list(TIMES.values()))
    return drawing


# The plots by name, each with the part whose numbers it shows.
PLOTS: dict[str, tuple[str, Callable[[Numbers], Drawing]]] = {
    "bounds": ("bounds", bounds_plot), "responses": ("responses", responses_plot),
    "acceptance": ("acceptance", runs_plot),
    "acceptance-bounds": ("acceptance", bounds_scale_plot),
    "sweeps": ("sweeps", sweeps_by_runs), "sweeps-bounds": ("sweeps", sweeps_by_bounds),
    "times": ("times", times_plot)}
