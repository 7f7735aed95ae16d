"""Draws plots as SVG: panels with axes, curves, markers and bars.

A plot follows the reader's light or dark scheme, distinguishes its kinds by shape, dash or hatching
as well as by colour, and says the value of each shape in the shape's title. The colours are after
those of Okabe and Ito, lighter in the dark scheme.
"""
from dataclasses import dataclass, field
from html import escape

# Each colour in the light and the dark scheme.
COLORS = {
    "ink": ("#1f2328", "#e6edf3"), "faint": ("#59636e", "#9ba5b1"), "grid": ("#dfe3e8", "#30363d"),
    "paper": ("#ffffff", "#0d1117"), "blue": ("#0072b2", "#58b1ef"), "sky": ("#56b4e9", "#2f7fae"),
    "orange": ("#b97a00", "#f0b429"), "green": ("#00805d", "#2fc99b"),
    "red": ("#c24e00", "#ff8b4a"), "purple": ("#a0527d", "#e39cc4"), "grey": ("#7a7a7a", "#a8a8a8"),
}

SHAPES = {
    "circle": "M-4,0a4,4 0 1,0 8,0a4,4 0 1,0 -8,0z",
    "square": "M-3.6,-3.6h7.2v7.2h-7.2z",
    "up": "M0,-4.8l4.6,8h-9.2z",
    "tall": "M0,-8l7.4,12.8h-14.8z",
    "down": "M0,4.8l4.6,-8h-9.2z",
    "diamond": "M0,-5.2l5.2,5.2l-5.2,5.2l-5.2,-5.2z",
    "bar": "M-1.4,-8h2.8v16h-2.8z",
    "cross": "M-4,-4l8,8M4,-4l-8,8",
}

# Hatchings of bars: lines and dots in a tile of eight by eight.
HATCHES = {
    "rising": "M-2,10L10,-2M-2,2L2,-2M6,10L10,6",
    "falling": "M-2,-2L10,10M-2,6L2,10M6,-2L10,2",
    "upright": "M2,0V8M6,0V8",
    "crossed": "M0,4H8M4,0V8",
    "dotted": "M1,2h2M5,6h2",
}


@dataclass(frozen=True)
class Style:
    """How a curve, its markers or a bar look. An open marker shows the paper, a clear one what is
    behind it."""

    label: str
    color: str
    shape: str = ""
    dash: str = ""
    width: float = 1.8
    filling: str = "full"
    hatch: str = ""


@dataclass(frozen=True)
class Mark:
    """A value of an axis that is marked."""

    value: float
    text: str


@dataclass(frozen=True)
class Axis:
    """A straight scale."""

    low: float
    high: float
    marks: list[Mark]
    label: str = ""


@dataclass(frozen=True)
class Box:
    """A rectangle."""

    x: float
    y: float
    width: float
    height: float


@dataclass(frozen=True)
class Point:
    """A point in the values of a panel's axes, with the title of its marker, and by how much its
    value may be off."""

    x: float
    y: float
    title: str = ""
    error: float = 0


def titled(shape: str, title: str) -> str:
    """A shape with its value, if it has one."""
    if not title:
        return f"<{shape}/>"
    return f"<{shape}><title>{escape(title)}</title></{shape.split()[0]}>"


def stylesheet() -> str:
    """The colours of both schemes, as classes."""
    def rules(scheme: int) -> str:
        return "".join(f".{name}{{color:{both[scheme]}}}" for name, both in COLORS.items())

    return (f"<style>{rules(0)}.f{{fill:currentColor}}.s{{stroke:currentColor;fill:none}}"
            f"@media(prefers-color-scheme:dark){{{rules(1)}}}</style>")


def hatching(color: str, hatch: str) -> str:
    """A hatching of a colour, over the paper."""
    return (f'<pattern id="{color}-{hatch}" width="8" height="8" patternUnits="userSpaceOnUse">'
            f'<rect class="paper f" width="8" height="8"/><rect class="{color} f" width="8" '
            f'height="8" opacity="0.35"/><path class="{color} s" stroke-width="2" '
            f'd="{HATCHES[hatch]}"/></pattern>')


@dataclass
class Drawing:
    """An SVG that grows."""

    width: int
    height: int
    title: str
    description: str
    lines: list[str] = field(default_factory=list)
    hatches: set[tuple[str, str]] = field(default_factory=set)

    def add(self, shape: str, title: str = "") -> None:
        self.lines.append(titled(shape, title))

    def line(self, start: tuple[float, float], end: tuple[float, float], color: str,
             width: float = 1, dash: str = "") -> None:
        more = f' stroke-dasharray="{dash}"' if dash else ""
        self.add(f'path class="{color} s" stroke-width="{width}"{more} '
                 f'd="M{start[0]:.1f},{start[1]:.1f}L{end[0]:.1f},{end[1]:.1f}"')

    def text(self, x: float, y: float, words: str, anchor: str = "start",
             look: str = "ink") -> None:
        """Words in `ink`, `bold` ink, or small and `faint`."""
        color = "faint" if look == "faint" else "ink"
        more = ' font-weight="bold"' if look == "bold" else ""
        more += ' font-size="11"' if look == "faint" else ""
        self.lines.append(f'<text class="{color} f" x="{x:.1f}" y="{y:.1f}" '
                          f'text-anchor="{anchor}"{more}>{escape(words)}</text>')

    def upright(self, x: float, y: float, words: str) -> None:
        """Words that read from below to above, centred at a point."""
        self.lines.append(f'<text class="ink f" transform="translate({x:.1f},{y:.1f}) rotate(-90)" '
                          f'text-anchor="middle">{escape(words)}</text>')

    def bar(self, box: Box, style: Style, title: str = "") -> None:
        fill = f'class="{style.color} f"'
        if style.hatch:
            self.hatches.add((style.color, style.hatch))
            fill = f'fill="url(#{style.color}-{style.hatch})"'
        self.add(f'rect x="{box.x:.1f}" y="{box.y:.1f}" width="{box.width:.1f}" '
                 f'height="{box.height:.1f}" {fill}', title)

    def marker(self, x: float, y: float, style: Style, title: str = "") -> None:
        """A marker. Full ones have an edge of paper, which separates them from what is behind."""
        if not style.shape:
            return
        place = f'transform="translate({x:.1f},{y:.1f})" d="{SHAPES[style.shape]}"'
        if style.filling == "full" and style.shape != "cross":
            self.add(f'path class="paper s" stroke-width="1.6" {place}')
            self.add(f'path class="{style.color} f" {place}', title)
            return
        if style.filling == "open":
            self.add(f'path class="paper f" {place}')
        self.add(f'path class="{style.color} s" stroke-width="1.7" {place}', title)

    def curve(self, points: list[tuple[float, float]], style: Style) -> None:
        dash = f' stroke-dasharray="{style.dash}"' if style.dash else ""
        path = " ".join(f"{x:.1f},{y:.1f}" for x, y in points)
        self.add(f'polyline class="{style.color} s" points="{path}" stroke-width="{style.width}" '
                 f'stroke-linejoin="round"{dash}', style.label)

    def sample(self, x: float, y: float, style: Style) -> None:
        """An entry of a legend, from its sample's left end on."""
        if style.hatch or not (style.dash or style.shape):
            self.bar(Box(x, y - 10, 22, 12), style)
        elif style.width:
            self.line((x, y - 4), (x + 30, y - 4), style.color, style.width, style.dash)
        self.marker(x + 15, y - 4, style)
        self.text(x + 36, y, style.label)

    def svg(self) -> str:
        head = (f'<svg xmlns="http://www.w3.org/2000/svg" viewBox="0 0 {self.width} {self.height}" '
                f'width="{self.width}" height="{self.height}" role="img" font-size="12" '
                'font-family="system-ui, Helvetica, Arial, sans-serif">')
        patterns = "".join(hatching(*one) for one in sorted(self.hatches))
        return "\n".join([
            head, f"<title>{escape(self.title)}</title>",
            f"<desc>{escape(self.description)}</desc>",
            stylesheet(), f"<defs>{patterns}</defs>",
            f'<rect class="paper f" width="{self.width}" height="{self.height}"/>',
            *self.lines, "</svg>\n"])


@dataclass
class Panel:
    """A box with two axes."""

    drawing: Drawing
    box: Box
    across: Axis
    up: Axis

    def x(self, value: float) -> float:
        share = (value - self.across.low) / (self.across.high - self.across.low)
        return self.box.x + share * self.box.width

    def y(self, value: float) -> float:
        share = (value - self.up.low) / (self.up.high - self.up.low)
        return self.box.y + self.box.height - share * self.box.height

    def frame(self, title: str = "") -> "Panel":
        """Draws the grid, the axes with their marks and labels, and the title."""
        draw, box = self.drawing, self.box
        left, right, bottom = box.x, box.x + box.width, box.y + box.height
        for mark in self.across.marks:
            x = self.x(mark.value)
            draw.line((x, box.y), (x, bottom), "grid")
            draw.text(x, bottom + 17, mark.text, "middle", "faint")
        for mark in self.up.marks:
            y = self.y(mark.value)
            draw.line((left, y), (right, y), "grid")
            draw.text(left - 7, y + 4, mark.text, "end", "faint")
        draw.line((left, bottom), (right, bottom), "faint")
        draw.line((left, box.y), (left, bottom), "faint")
        draw.text(left + box.width / 2, bottom + 36, self.across.label, "middle")
        if self.up.label:
            draw.upright(left - 48, box.y + box.height / 2, self.up.label)
        if title:
            draw.text(left, box.y - 10, title, look="bold")
        return self

    def interval(self, point: Point, style: Style) -> None:
        """An upright line from the least to the greatest value that a point may have."""
        low, high = (min(max(point.y + off, self.up.low), self.up.high)
                     for off in (-point.error, point.error))
        self.drawing.line((self.x(point.x), self.y(low)), (self.x(point.x), self.y(high)),
                          style.color, 1.2)

    def curve(self, points: list[Point], style: Style) -> None:
        """A curve, with a marker at each point, and its interval if there is one."""
        places = [(self.x(point.x), self.y(point.y)) for point in points]
        self.drawing.curve(places, style)
        for point in points:
            if point.error:
                self.interval(point, style)
        for (x, y), point in zip(places, points):
            self.drawing.marker(x, y, style, point.title)


def marks(values: list[float], pattern: str = "{:g}") -> list[Mark]:
    """Marks at these values."""
    return [Mark(value, pattern.format(value)) for value in values]


def legend(drawing: Drawing, x: float, y: float, columns: list[float], styles: list[Style]) -> None:
    """Entries in rows, each row with an entry at each of the columns."""
    for n, style in enumerate(styles):
        row, column = divmod(n, len(columns))
        drawing.sample(x + columns[column], y + 20 * row, style)
