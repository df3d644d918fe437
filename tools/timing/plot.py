"""A picture of each row's median times: the number of keys to the right, the ns of a call upwards, both on
logarithmic scales. Its colours are for light paper, and its style has colours for dark paper."""

import math
from html import escape

ACROSS = 4  # this many panels beside each other
WIDTH, HEIGHT = 200, 120  # of the drawing in a panel, and the space around it
LEFT, RIGHT, ABOVE, BELOW = 40, 20, 40, 40
HEAD = 60
LIGHT = {"port": "#0b62c4", "hashlink": "#c2570c", "lru": "#4d7c0f"}
DARK = {"port": "#6cb2ff", "hashlink": "#ff9f5a", "lru": "#a3d977"}
#: the path of a point, with a different shape for each program
MARKS = {
    "port": lambda x, y: f"M{x - 3:.1f} {y:.1f}a3 3 0 1 0 6 0a3 3 0 1 0 -6 0",
    "hashlink": lambda x, y: f"M{x - 3:.1f} {y - 3:.1f}h6v6h-6z",
    "lru": lambda x, y: f"M{x - 3:.1f} {y - 3:.1f}l6 6m0 -6l-6 6",
}


def picture(times, notes):
    """The picture as SVG."""
    width = ACROSS * (LEFT + WIDTH + RIGHT)
    height = HEAD + math.ceil(len(times.rows) / ACROSS) * (ABOVE + HEIGHT + BELOW)
    lines = head(times, notes, width, height)
    for place, row in enumerate(times.rows):
        x = LEFT + place % ACROSS * (LEFT + WIDTH + RIGHT)
        y = HEAD + ABOVE + place // ACROSS * (ABOVE + HEIGHT + BELOW)
        lines += [f'<g transform="translate({x} {y})">', *Panel(times, row).lines(), "</g>"]
    return "\n".join([*lines, "</svg>\n"])


def head(times, notes, width, height):
    lines = [
        f'<svg xmlns="http://www.w3.org/2000/svg" viewBox="0 0 {width} {height}"'
        ' font-family="sans-serif" font-size="11" fill="#222">',
        "<style>@media (prefers-color-scheme: dark) {",
        ".paper { fill: #15181c } text { fill: #ddd } .grid { stroke: #3a3f46 }",
        *(f".{program} {{ stroke: {colour} }}" for program, colour in DARK.items()),
        "}</style>",
        '<rect class="paper" width="100%" height="100%" fill="#fff"/>',
    ]
    for place, program in enumerate(times.programs):
        x = LEFT + place * 120
        lines.append(line(program, f"M{x} 20h36{MARKS[program](x + 18, 20)}"))
        lines.append(text(x + 44, 24, "start", program))
    told = "; ".join([f"ns a call, by the number of keys: medians of {times.turns} turns", *notes])
    return [*lines, text(LEFT, 46, "start", told)]


def text(x, y, anchor, words):
    return f'<text x="{x:.1f}" y="{y:.1f}" text-anchor="{anchor}">{escape(words)}</text>'


def line(program, path):
    stroke = f'stroke="{LIGHT[program]}" fill="none" stroke-width="1.8"'
    return f'<path class="{program}" {stroke} d="{path}"/>'


def grid(path):
    return f'<path class="grid" stroke="#ddd" d="{path}"/>'


class Panel:
    """The panel of a row."""

    def __init__(self, times, row):
        self.row, self.sizes = row, times.sizes
        self.medians = {
            program: {size: it for size in times.sizes if (it := times.median(program, row, size))}
            for program in times.programs
        }
        every = [it for medians in self.medians.values() for it in medians.values()]
        self.steps = steps_around(min(every), max(every))

    def lines(self):
        title = f'<text y="-14" font-size="13" font-weight="bold">{self.row}</text>'
        points = ((program, medians) for program, medians in self.medians.items() if medians)
        return [title, *self.axes(), *(self.line_of(*it) for it in points)]

    def axes(self):
        for step in self.steps:
            yield grid(f"M0 {self.y_of(step):.1f}h{WIDTH}")
            yield text(-5, self.y_of(step) + 4, "end", f"{step:g}")
        for size in self.sizes:
            if size in (min(self.sizes), max(self.sizes)) or str(size).strip("0") == "1":
                yield grid(f"M{self.x_of(size):.1f} 0v{HEIGHT}")
                yield text(self.x_of(size), HEIGHT + 15, "middle", short(size))
        yield text(-5, -14, "end", "ns")
        yield text(WIDTH / 2, HEIGHT + 30, "middle", "keys")

    def line_of(self, program, medians):
        points = [(self.x_of(size), self.y_of(ns)) for size, ns in medians.items()]
        path = "L".join(f"{x:.1f} {y:.1f}" for x, y in points)
        return line(program, f"M{path}{''.join(MARKS[program](x, y) for x, y in points)}")

    def x_of(self, size):
        first, last = min(self.sizes), max(self.sizes)
        return WIDTH * math.log(size / first) / math.log(last / first) if first < last else WIDTH / 2

    def y_of(self, ns):
        low, high = self.steps[0], self.steps[-1]
        return HEIGHT * (1 - math.log(ns / low) / math.log(high / low))


def steps_around(low, high):
    """The numbers of the sequence .., 1, 2, 5, 10, 20, .. from the last that is not above the least number to
    the first that is not below the greatest, and at least two of them."""
    powers = range(math.floor(math.log10(low)) - 1, math.ceil(math.log10(high)) + 2)
    steps = [digit * 10.0**power for power in powers for digit in (1, 2, 5)]
    first = max(place for place, step in enumerate(steps) if step <= low)
    last = min(place for place, step in enumerate(steps) if step >= high)
    return steps[first : max(last, first + 1) + 1]


def short(size):
    return f"{size / 1000000:g}M" if size >= 1000000 else f"{size / 1000:g}k" if size >= 1000 else str(size)
