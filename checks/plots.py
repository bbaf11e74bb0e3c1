"""Line plots as SVG, with axes, units, ticks and a legend. They read on light and on dark pages, and where a viewer knows no style sheets."""
import dataclasses
import math

HEIGHT = 420
# Where the axes end on each side; the legend stands to the right of them.
LEFT, RIGHT, TOP, BOTTOM = 84, 524, 48, 60
LIGHT = {"text": "#1f2328", "axis": "#57606a", "grid": "#d8dee4", "page": "#ffffff", "faint": "#b3bac2"}
DARK = {"text": "#e6edf3", "axis": "#8b949e", "grid": "#30363d", "page": "#0d1117", "faint": "#555d66"}
COLOURS = [("#0969da", "#58a6ff"), ("#bc4c00", "#f0883e"), ("#1a7f37", "#3fb950"), ("#8250df", "#bc8cff"), ("#a40e5c", "#f778ba"), ("#7d5c00", "#d4a72c")]


@dataclasses.dataclass
class Line:
    """A named line: its points (x, y), the number of its colour (faint without one), whether it is dashed, and whether its last point is only a lower bound."""
    name: str
    points: list
    colour: int = None
    dashed: bool = False
    stopped: bool = False


@dataclasses.dataclass
class Scale:
    """What an axis says, and where its ticks are; places go by powers where values span decades."""
    says: str
    ticks: list
    powers: bool = False

    def part(self, value):
        """How far along the axis a value is, from 0 to 1."""
        of = math.log10 if self.powers else float
        return (of(value) - of(self.ticks[0])) / (of(self.ticks[-1]) - of(self.ticks[0]))


def powers(values):
    """The powers of ten around some values; with their doubles and fivefolds where these are few decades."""
    low, high = math.floor(math.log10(min(values))), math.ceil(math.log10(max(values)))
    steps = (1, 2, 5) if high - low <= 2 else (1,)
    found = [step * 10.0 ** n for n in range(low, max(high, low + 1) + 1) for step in steps]
    while len(found) > 2 and found[-2] >= max(values):
        found.pop()
    while len(found) > 2 and found[1] <= min(values):
        found.pop(0)
    return found


def evenly(values):
    """Round numbers from 0 on up to the first that isn't below all values."""
    most = max(values) or 1
    unit = 10.0 ** math.floor(math.log10(most / 4))
    step = next(unit * n for n in (1, 2, 2.5, 5, 10) if most / (unit * n) <= 6)
    return [step * n for n in range(math.ceil(most / step - 1e-9) + 1)]


def styles():
    """The colours by class, for both kinds of page."""
    def rules(which, own):
        named = "".join(f".c{n}{{stroke:{it[own]}}}.f{n}{{fill:{it[own]}}}" for n, it in enumerate(COLOURS))
        return (f"text{{fill:{which['text']}}}.axis{{stroke:{which['axis']}}}.grid{{stroke:{which['grid']}}}.page{{fill:{which['page']}}}"
                f".faint{{stroke:{which['faint']}}}.ffaint{{fill:{which['faint']}}}.open{{fill:{which['page']}}}{named}")
    return f"<style>\n{rules(LIGHT, 0)}\n@media (prefers-color-scheme: dark) {{ {rules(DARK, 1)} }}\n</style>"


def text(x, y, says, anchor="start", size=12, more=""):
    return f'<text x="{x:.1f}" y="{y:.1f}" font-family="sans-serif" font-size="{size}" fill="{LIGHT["text"]}" text-anchor="{anchor}"{more}>{says}</text>'


def drawn(kind, number, stroke=True):
    """The class of a line or a mark, with its colour for viewers without style sheets."""
    plain = LIGHT["faint"] if number is None else COLOURS[number][0]
    name = "faint" if number is None else number
    return f'class="c{name}" stroke="{plain}"'.replace("cfaint", "faint") if stroke else f'class="f{name}" fill="{plain}"'


def mark(number, x, y, is_open=False):
    """A point of a line; its form tells lines apart where colours don't. An open one is a lower bound."""
    paint = f'{drawn("mark", number)} fill="none" stroke-width="2"' if is_open else drawn("mark", number, stroke=False)
    if is_open:
        return f'<path {paint} d="M{x - 5:.1f} {y + 2:.1f}l5 -7l5 7"/>'
    if number is None:
        return f'<circle {paint} cx="{x:.1f}" cy="{y:.1f}" r="1.8"/>'
    if number % 3 == 0:
        return f'<circle {paint} cx="{x:.1f}" cy="{y:.1f}" r="4"/>'
    if number % 3 == 1:
        return f'<rect {paint} x="{x - 3.7:.1f}" y="{y - 3.7:.1f}" width="7.4" height="7.4"/>'
    return f'<path {paint} d="M{x:.1f} {y - 5:.1f}l5 9h-10z"/>'


def plain(value):
    """A number as people write it."""
    return f"{value:,.10g}"


def frame(across, up, x_of, y_of):
    """The axes with their ticks and what they say."""
    bottom, right = HEIGHT - BOTTOM, RIGHT
    grid, axis = f'class="grid" stroke="{LIGHT["grid"]}"', f'class="axis" stroke="{LIGHT["axis"]}"'
    for value in across.ticks:
        yield f'<path {grid} d="M{x_of(value):.1f} {TOP}V{bottom}"/>' + text(x_of(value), bottom + 18, plain(value), "middle")
    for value in up.ticks:
        yield f'<path {grid} d="M{LEFT} {y_of(value):.1f}H{right}"/>' + text(LEFT - 8, y_of(value) + 4, plain(value), "end")
    yield f'<path {axis} fill="none" d="M{LEFT} {TOP}V{bottom}H{right}"/>'
    yield text((LEFT + right) / 2, HEIGHT - 16, across.says, "middle")
    yield text(0, 0, up.says, "middle", more=f' transform="translate(18 {(TOP + bottom) / 2}) rotate(-90)"')


def drawing(line, x_of, y_of):
    """A line and its marks."""
    places = [(x_of(x), y_of(y)) for x, y in line.points]
    dash, wide = (' stroke-dasharray="6 4"' if line.dashed else ""), (1 if line.colour is None else 2)
    yield f'<polyline {drawn("line", line.colour)} fill="none" stroke-width="{wide}"{dash} points="{" ".join(f"{x:.1f},{y:.1f}" for x, y in places)}"/>'
    for n, (x, y) in enumerate(places):
        yield mark(line.colour, x, y, line.stopped and n == len(places) - 1)


def legend(lines):
    """The names of all lines that have a colour, with their marks."""
    for n, line in enumerate(it for it in lines if it.name):
        x, y = RIGHT + 16, TOP + 10 + 22 * n
        dash = ' stroke-dasharray="6 4"' if line.dashed else ""
        yield f'<path {drawn("line", line.colour)} stroke-width="2"{dash} d="M{x} {y}h26"/>' + mark(line.colour, x + 13, y) + text(x + 34, y + 4, line.name)


def plot(title, across, up, lines):
    """The text of a plot. Lines without a name aren't in the legend."""
    def x_of(value):
        return LEFT + across.part(value) * (RIGHT - LEFT)

    def y_of(value):
        return HEIGHT - BOTTOM - up.part(value) * (HEIGHT - BOTTOM - TOP)

    width = RIGHT + max(236, 58 + 7 * max(len(line.name) for line in lines))
    parts = [f'<svg xmlns="http://www.w3.org/2000/svg" width="{width}" height="{HEIGHT}" viewBox="0 0 {width} {HEIGHT}" role="img">', f"<title>{title}</title>", styles(),
             f'<rect class="page" fill="{LIGHT["page"]}" width="{width}" height="{HEIGHT}"/>', text(LEFT, 26, title, size=15, more=' font-weight="bold"'), *frame(across, up, x_of, y_of)]
    for line in lines:
        parts += drawing(line, x_of, y_of)
    return "\n".join([*parts, *legend(lines), "</svg>"]) + "\n"
