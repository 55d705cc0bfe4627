"""Charts of curves, as SVG on no ground of their own: grey letters and colours that can be read on light and dark pages."""
import html
import math

STYLE = """
text { font: 12px sans-serif; fill: #5f6973 } .name { font-weight: bold; font-size: 13px }
@media (prefers-color-scheme: dark) { text { fill: #8f99a3 } }
.grid { stroke: #8a97a5; stroke-opacity: 0.35 } .frame { fill: none; stroke: #8a97a5 }
.curve { fill: none; stroke-width: 2 } .a { stroke: #3a7fc1 } .b { stroke: #c9702a; stroke-dasharray: 7 3 }
.c { stroke: #3f9a5f; stroke-dasharray: 2 3 } .dot { stroke-width: 1.5; stroke-dasharray: none }
.dot.a, .bar.a { fill: #3a7fc1 } .dot.b, .bar.b { fill: #c9702a } .dot.c, .bar.c { fill: #3f9a5f } .bar { stroke: none }
"""
WIDTH, LEFT, RIGHT = 440, 56, 12


class Scale:
    """A range of values along a side of a panel, in equal steps or in equal factors, with its ticks and what it counts."""

    def __init__(self, least, greatest, ticks, words, by_factors=False):
        self.by_factors, self.ticks, self.words = by_factors, ticks, words
        self.least, self.greatest = self.of(least), self.of(greatest)

    def of(self, value):
        return math.log(value) if self.by_factors else value

    def place(self, value):
        """Where a value stands, from 0 to 1."""
        return (self.of(value) - self.least) / (self.greatest - self.least)


class Panel:
    """One pair of axes, at a height of the chart."""

    def __init__(self, chart, top, height, across, up):
        self.chart, self.top, self.height, self.across, self.up = chart, top, height, across, up
        self.axes()

    def x(self, value):
        return round(LEFT + self.across.place(value) * (WIDTH - LEFT - RIGHT), 1)

    def y(self, value):
        return round(self.top + self.height * (1 - self.up.place(value)), 1)

    def axes(self):
        put, bottom, right = self.chart.parts.append, self.top + self.height, WIDTH - RIGHT
        for tick in self.up.ticks:
            put(f'<path class="grid" d="M{LEFT},{self.y(tick)} H{right}"/>')
            self.chart.words(LEFT - 6, self.y(tick) + 4, f"{tick:,}", "end")
        for tick in self.across.ticks:
            put(f'<path class="grid" d="M{self.x(tick)},{self.top} V{bottom}"/>')
            number = f"{tick:,}"
            self.chart.words(min(self.x(tick), WIDTH - 4 * len(number)), bottom + 16, number, "middle")
        put(f'<rect class="frame" x="{LEFT}" y="{self.top}" width="{right - LEFT}" height="{self.height}"/>')
        self.chart.words(LEFT, self.top - 7, self.up.words)
        self.chart.words(right, bottom + 33, self.across.words, "end")

    def curve(self, kind, points):
        way = " ".join(f"{'L' if number else 'M'}{self.x(x)},{self.y(y)}" for number, (x, y) in enumerate(points))
        self.chart.parts.append(f'<path class="curve {kind}" d="{way}"/>')

    def bar(self, kind, place, value, words):
        """A bar from the left side to a value, a number of lines of 17 below the top, with words behind it."""
        left, end, top = self.x(self.across.ticks[0]), self.x(value), self.top + 17 * place + 4
        self.chart.parts.append(f'<rect class="bar {kind}" x="{left}" y="{top}" width="{round(end - left, 1)}" height="11"/>')
        self.chart.words(end + 5, top + 10, words)

    def dot(self, kind, x, y):
        self.chart.parts.append(f'<circle class="dot {kind}" cx="{self.x(x)}" cy="{self.y(y)}" r="3"/>')


class Chart:
    """A chart in the making: its title, a key of its curves, and panels below one another."""

    def __init__(self, title, height, key):
        self.height = height
        self.parts = [f"<title>{html.escape(title)}</title>", f"<style>{STYLE}</style>"]
        self.words(8, 18, title, kind="name")
        for number, (kind, words) in enumerate(key):
            line = 36 + 17 * number
            self.parts.append(f'<path class="curve {kind}" d="M8,{line} h32"/>')
            self.words(48, line + 4, words)

    def words(self, x, y, line, anchor="start", kind=""):
        self.parts.append(f'<text class="{kind}" x="{x}" y="{y}" text-anchor="{anchor}">{html.escape(line)}</text>')

    def text(self):
        """The whole chart, as the text of its file."""
        head = f'<svg xmlns="http://www.w3.org/2000/svg" width="{WIDTH}" height="{self.height}" ' \
               f'viewBox="0 0 {WIDTH} {self.height}" role="img">'
        return "\n".join([head, *self.parts, "</svg>\n"])
