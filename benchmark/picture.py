"""A picture of one setting as SVG text: two panels over the number of clients, each with a line
for each program. Nothing but Python's own library is needed."""

import html
import math

WIDTH, HEIGHT = 920, 460
TOP, BOTTOM = 64, 136
PANELS = ((70, 380), (560, 310))  # the left edge and the width of each
# Colours that people who see few colours tell apart (Okabe and Ito 2008), and marks besides.
COLOURS = ("#000000", "#d55e00", "#0072b2", "#009e73", "#cc79a7", "#e69f00", "#56b4e9")
MARKS = ("circle", "square", "diamond", "triangle", "cross", "ring", "bar")


def text(x, y, words, size=12, anchor="middle", more=""):
    return (f'<text x="{x:.1f}" y="{y:.1f}" font-size="{size}" text-anchor="{anchor}"{more}>'
            f"{html.escape(words)}</text>")


def line(x1, y1, x2, y2, colour, width=1.0):
    return (f'<line x1="{x1:.1f}" y1="{y1:.1f}" x2="{x2:.1f}" y2="{y2:.1f}" '
            f'stroke="{colour}" stroke-width="{width}"/>')


def mark(shape, x, y, colour):
    r = 4.5
    corners = {
        "square": ((-r, -r), (r, -r), (r, r), (-r, r)),
        "diamond": ((0, -r - 1), (r + 1, 0), (0, r + 1), (-r - 1, 0)),
        "triangle": ((0, -r - 1), (r + 1, r), (-r - 1, r)),
        "bar": ((-r - 1, -2), (r + 1, -2), (r + 1, 2), (-r - 1, 2)),
    }
    if shape in corners:
        points = " ".join(f"{x + dx:.1f},{y + dy:.1f}" for dx, dy in corners[shape])
        return f'<polygon points="{points}" fill="{colour}"/>'
    if shape == "cross":
        return (line(x - r, y - r, x + r, y + r, colour, 2)
                + line(x - r, y + r, x + r, y - r, colour, 2))
    fill = "#ffffff" if shape == "ring" else colour
    return (f'<circle cx="{x:.1f}" cy="{y:.1f}" r="{r}" fill="{fill}" stroke="{colour}" '
            'stroke-width="2"/>')


def step_of(span):
    """A round distance between grid lines, of which about five fit."""
    rough = span / 5
    power = 10 ** math.floor(math.log10(rough))
    return next(power * n for n in (1, 2, 2.5, 5, 10) if power * n >= rough)


def look_of(number):
    """The colour and the mark of a program: each pair comes once, for more programs than colours."""
    again = number // len(COLOURS)
    return COLOURS[number % len(COLOURS)], MARKS[(number + 3 * again) % len(MARKS)]


class Panel:
    """The place of numbers in one panel: clients side by side, values upwards from `low`."""

    def __init__(self, place, clients, low, values):
        self.left, self.width = PANELS[place]
        self.clients, self.low = clients, low
        self.step = step_of(max(max(values, default=low) - low, 1e-9))
        steps = max(1, math.ceil((max(values, default=low) - low) / self.step))
        self.high = low + steps * self.step

    def x(self, clients):
        share = (self.clients.index(clients) + 0.5) / len(self.clients)
        return self.left + share * self.width

    def y(self, value):
        height = HEIGHT - TOP - BOTTOM
        return HEIGHT - BOTTOM - (value - self.low) / (self.high - self.low) * height

    def frame(self, heading):
        parts = [text(self.left, TOP - 14, heading, 13, "start")]
        for i in range(round((self.high - self.low) / self.step) + 1):
            value = self.low + i * self.step
            parts.append(line(self.left, self.y(value), self.left + self.width, self.y(value),
                              "#888888" if i == 0 else "#dddddd"))
            parts.append(text(self.left - 8, self.y(value) + 4, f"{value:g}", 12, "end"))
        for clients in self.clients:
            name = "1 client" if clients == 1 else f"{clients} clients"
            parts.append(text(self.x(clients), HEIGHT - BOTTOM + 20, name))
        return parts

    def curve(self, points, number):
        """A program's line: of each number of clients the value, and the least and the most."""
        colour, shape = look_of(number)
        path = " ".join(f"{self.x(c):.1f},{self.y(v):.1f}" for c, (v, _, _) in points.items())
        parts = [f'<polyline points="{path}" fill="none" stroke="{colour}" stroke-width="2"/>']
        for clients, (value, least, most) in points.items():
            at = self.x(clients)
            parts.append(line(at, self.y(least), at, self.y(most), colour, 1.5))
            parts.append(mark(shape, at, self.y(value), colour))
        return parts


def legend(names):
    """Marks and names, in as many rows as these need."""
    parts, at, y = [], PANELS[0][0], HEIGHT - BOTTOM + 56
    for number, name in enumerate(names):
        width = 36 + 7 * len(name)
        if at + width > WIDTH:
            at, y = PANELS[0][0], y + 26
        colour, shape = look_of(number)
        parts.append(mark(shape, at, y - 4, colour))
        parts.append(text(at + 12, y, name, 13, "start"))
        at += width
    return parts


def picture(title, clients, rates, attempts):
    """`rates` and `attempts` have for each program, by number of clients, the median, the least
    and the most; rates in thousands a second. A program that tells no attempts has none."""
    parts = [f'<svg xmlns="http://www.w3.org/2000/svg" viewBox="0 0 {WIDTH} {HEIGHT}" '
             f'width="{WIDTH}" height="{HEIGHT}" font-family="sans-serif" fill="#222222">',
             f'<rect width="{WIDTH}" height="{HEIGHT}" fill="#ffffff"/>',
             text(PANELS[0][0], 24, title, 16, "start", ' font-weight="bold"')]
    headings = ("answered tasks a second, thousands", "attempts a task")
    for place, (series, low) in enumerate(((rates, 0), (attempts, 1))):
        most = [high for points in series.values() for _, _, high in points.values()]
        panel = Panel(place, clients, low, most)
        parts += panel.frame(headings[place])
        for number, name in enumerate(rates):
            if series.get(name):
                parts += panel.curve(series[name], number)
    return "\n".join(parts + legend(rates) + ["</svg>", ""])
