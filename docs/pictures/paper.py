"""What the pictures of this folder are drawn with: their colours and letters, and boxes, arrows and words at places."""
import os

STYLE = """
.paper { fill: #ffffff } .box { fill: #f2f5f9; stroke: #33475b; stroke-width: 1.5 }
.strong { fill: #dbe9f6; stroke: #1f5a8c; stroke-width: 1.5 } .group { fill: none; stroke: #8a97a5; stroke-dasharray: 5 4 }
.line { fill: none; stroke: #33475b; stroke-width: 1.5 } .tip { fill: #33475b }
text { font: 14px sans-serif; fill: #1b2733 } .name { font-weight: bold } .small { font-size: 12px }
@media (prefers-color-scheme: dark) {
.paper { fill: #10161d } .box { fill: #1c2630; stroke: #a9b8c6 } .strong { fill: #17344d; stroke: #7db8e8 }
.group { stroke: #6d7c8a } .line { stroke: #a9b8c6 } .tip { fill: #a9b8c6 } text { fill: #e4ebf2 } }
"""


class Picture:
    """A picture in the making: boxes, lines and words at places that the caller gives."""

    def __init__(self, name, title, width, height, style=STYLE):
        self.name, self.width, self.height = name, width, height
        self.parts = [f"<title>{title}</title>", f"<style>{style}</style>"]
        self.parts.append('<defs><marker id="tip" markerWidth="9" markerHeight="8" refX="8" refY="4" orient="auto">'
                          '<path class="tip" d="M0,0 L9,4 L0,8 Z"/></marker></defs>')
        self.parts.append(f'<rect class="paper" width="{width}" height="{height}"/>')

    def box(self, x, y, width, height, lines, kind="box"):
        """A box with lines of words; the first is its name."""
        self.parts.append(f'<rect class="{kind}" x="{x}" y="{y}" width="{width}" height="{height}" rx="7"/>')
        top = y + height / 2 - 9 * (len(lines) - 1) + 5
        for number, line in enumerate(lines):
            look = "name" if number == 0 else "small"
            self.parts.append(f'<text class="{look}" x="{x + width / 2}" y="{top + 18 * number}" text-anchor="middle">{line}</text>')

    def group(self, x, y, width, height, label):
        """A dashed frame with its label above the upper edge."""
        self.parts.append(f'<rect class="group" x="{x}" y="{y}" width="{width}" height="{height}" rx="9"/>')
        self.parts.append(f'<text class="small" x="{x + 10}" y="{y - 6}">{label}</text>')

    def arrow(self, points, lines=(), at=None, anchor="middle"):
        """An arrow along points, with lines of words of which the first stands at the place given."""
        way = " ".join(f"{'M' if number == 0 else 'L'}{x},{y}" for number, (x, y) in enumerate(points))
        self.parts.append(f'<path class="line" d="{way}" marker-end="url(#tip)"/>')
        for number, line in enumerate(lines):
            self.parts.append(f'<text class="small" x="{at[0]}" y="{at[1] + 15 * number}" text-anchor="{anchor}">{line}</text>')

    def line(self, points):
        """A line without a tip."""
        way = " ".join(f"{'M' if number == 0 else 'L'}{x},{y}" for number, (x, y) in enumerate(points))
        self.parts.append(f'<path class="line" d="{way}"/>')

    def words(self, x, y, line, kind="small", anchor="start"):
        self.parts.append(f'<text class="{kind}" x="{x}" y="{y}" text-anchor="{anchor}">{line}</text>')

    def text(self):
        """The whole picture, as the text of its file."""
        whole = "\n".join(self.parts)
        size = f'width="{self.width}" height="{self.height}" viewBox="0 0 {self.width} {self.height}"'
        head = f'<svg xmlns="http://www.w3.org/2000/svg" {size} role="img">'
        return f"{head}\n{whole}\n</svg>\n"

    def write(self):
        path = os.path.join(os.path.dirname(os.path.abspath(__file__)), f"{self.name}.svg")
        with open(path, "w", encoding="utf-8") as file:
            file.write(self.text())
