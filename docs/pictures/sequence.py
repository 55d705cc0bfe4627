"""Draws a story as a sequence picture: the client, both queues of a context and its worker, with time going down.

Nothing of this is proved. What belongs to a row is found by follow.py, and its words by in_short.py.
"""
import html
import textwrap

from follow import Context
from in_short import KINDS, call, reply
from paper import STYLE, Picture
from script_steps import Remark

WIDTH, CLIENT, EDGE, OUTPUT, CAPTURE, FAR_EDGE, WORKER = 880, 84, 318, 386, 572, 684, 826
SIDES = {"out": OUTPUT, "cap": CAPTURE}
QUEUE_VERBS = ("q", "dq", "dqw", "on", "off", "req", "create", "query", "gfmt", "sfmt", "tryfmt", "enum")
SET_UP = ("open", "enum", "gfmt", "tryfmt", "sfmt", "req", "create", "query", "sub", "unsub", "gctl", "sctl")

MORE_STYLE = STYLE + """
.life { stroke: #8a97a5; stroke-width: 1 } .dot { fill: #33475b } .back { stroke-dasharray: 5 3 } .quiet { fill: #5a6875 }
.over { paint-order: stroke; stroke: #ffffff; stroke-width: 4px; stroke-linejoin: round }
.no { fill: #a3261d; font-weight: bold } .noline { fill: none; stroke: #a3261d; stroke-width: 1.5 }
.band { fill: #f2f5f9 } .chip { fill: #fdf1d8; stroke: #a87a1a }
@media (prefers-color-scheme: dark) {
.life { stroke: #6d7c8a } .dot { fill: #a9b8c6 } .quiet { fill: #a3b0bd } .over { stroke: #10161d }
.no { fill: #ff9c8f } .noline { stroke: #ff9c8f } .band { fill: #1c2630 } .chip { fill: #3a2e12; stroke: #d9b25a } }
"""


class Sequence:
    """The rows of a picture, each with its height and what draws it at a place."""

    def __init__(self):
        self.rows = []

    def row(self, height, draw):
        self.rows.append((height, draw))

    def remark(self, text):
        """Words of the script itself, in a band over the whole width."""
        lines = textwrap.wrap(text, 136)

        def draw(p, y):
            p.parts.append(f'<rect class="band" x="0" y="{y + 6}" width="{WIDTH}" height="{17 * len(lines) + 9}"/>')
            for number, line in enumerate(lines):
                p.words(20, y + 23 + 17 * number, html.escape(line, False))
        self.row(17 * len(lines) + 21, draw)

    def set_up(self, steps):
        """Several calls that prepare a context, in one box, each with what it was answered."""
        def draw(p, y):
            p.parts.append(f'<rect class="box" x="{CLIENT - 10}" y="{y + 8}" width="{CAPTURE - CLIENT + 20}" '
                           f'height="{18 * len(steps) + 10}" rx="7"/>')
            for number, step in enumerate(steps):
                line = y + 26 + 18 * number
                p.words(CLIENT + 4, line, html.escape(call(step.words)))
                told = reply(step)
                p.words(EDGE + 20, line, " ".join(step.answer[:1]) + (f": {told}" if told else ""))
        self.row(18 * len(steps) + 26, draw)

    def call(self, steps):
        """A call, or some alike, as one arrow to its queue, or to the context's edge; what it gives as an arrow back."""
        step = steps[0]
        side = step.words[2] if step.verb in QUEUE_VERBS else ""
        end, answer, told = SIDES.get(side, EDGE), " ".join(step.answer[:1]), reply(step)
        words = ", ".join(call(each.words) for each in steps)

        def draw(p, y):
            way = f"M{CLIENT},{y + 24} L{end - 1 if step.done else end - 6},{y + 24}"
            tip = ' marker-end="url(#tip)"' if step.done else ""
            p.parts.append(f'<path class="{"line" if step.done else "noline"}" d="{way}"{tip}/>')
            if not step.done:
                p.parts.append(f'<path class="noline" d="M{end - 11},{y + 19} l10,10 m0,-10 l-10,10"/>')
            p.words(CLIENT + 8, y + 18, html.escape(words), "small over")
            p.words(CLIENT - 10, y + 28, answer, "small quiet" if step.done else "small no", "end")
            if told:
                self.back(p, y + 24, end, told)
        self.row(52 if told else 28, draw)

    @staticmethod
    def back(p, y, start, words):
        p.parts.append(f'<path class="line back" d="M{start},{y + 23} L{CLIENT + 1},{y + 23}" marker-end="url(#tip)"/>')
        p.words(CLIENT + 18, y + 17, html.escape(words), "small over")

    def given_back(self, side, indices):
        words = ("buffer " if len(indices) == 1 else "buffers ") + ", ".join(map(str, indices)) + " back to the client"
        self.row(24, lambda p, y: self.back(p, y - 4, SIDES[side], words))

    def claim(self, indices):
        """A worker takes the front buffers, and a probe that of OUTPUT alone."""
        def draw(p, y):
            p.arrow([(OUTPUT, y + 24), (WORKER - 1, y + 24)])
            for x, index in zip((OUTPUT, CAPTURE), indices):
                if index is not None:
                    p.parts.append(f'<circle class="dot" cx="{x}" cy="{y + 24}" r="4"/>')
                    p.words(x + 9, y + 18, f"buffer {index}", "small over")
            p.words(WORKER - 20, y + 18, "claim", "small over", "end")
        self.row(30, draw)

    def finish(self, told):
        """A job is given back, with the word that is printed; where its buffers go."""
        word, indices, emptied, filled, last = told
        places = ["done" if done else "ready again" for done in (emptied, filled)]

        def draw(p, y):
            stops = [WORKER, OUTPUT + 1] if indices[1] is None else [WORKER, CAPTURE + 1, OUTPUT + 1]
            for start, end in zip(stops, stops[1:]):
                p.arrow([(start, y + 24), (end, y + 24)])
            for x, index, place in zip((OUTPUT, CAPTURE), indices, places):
                if index is not None:
                    with_last = ", LAST" if last and x == CAPTURE else ""
                    p.words(x + 17, y + 18, f"{index} {place}{with_last}", "small over")
            p.words(WORKER - 20, y + 18, f"finish: {word}", "small over name", "end")
        self.row(30, draw)

    def no_job(self, words):
        """A worker that asked for a job and got none."""
        def draw(p, y):
            p.parts.append(f'<path class="line back" d="M{FAR_EDGE},{y + 24} L{WORKER - 1},{y + 24}" marker-end="url(#tip)"/>')
            p.words(WORKER - 20, y + 18, f"claim: {words}", "small over", "end")
        self.row(30, draw)

    def chip(self, words):
        """What comes of a step by the rules alone: an empty LAST buffer, an event."""
        width = 7 * len(words) + 16
        x = (EDGE + FAR_EDGE - width) / 2

        def draw(p, y):
            p.parts.append(f'<rect class="chip" x="{x}" y="{y + 6}" width="{width}" height="20" rx="10"/>')
            p.words(x + width / 2, y + 20, html.escape(words), "small", "middle")
        self.row(28, draw)

    def picture(self, name, title, kind):
        """The whole picture, with its heads and the lines of life behind the rows."""
        top = 74
        height = top + sum(row[0] for row in self.rows) + 24
        p = Picture(name, html.escape(title, False), WIDTH, height, MORE_STYLE)
        p.group(EDGE, 24, FAR_EDGE - EDGE, height - 36, f"the context: {kind}")
        for x, head in ((CLIENT, "client"), (OUTPUT, "OUTPUT"), (CAPTURE, "CAPTURE"), (WORKER, "worker")):
            p.parts.append(f'<path class="life" d="M{x},66 L{x},{height - 16}"/>')
            p.box(x - 48, 34, 96, 32, [head], "strong")
        y = top
        for row_height, draw in self.rows:
            draw(p, y)
            y += row_height
        return p


def alike(steps, start):
    """How many steps from one on stand in one box or at one arrow."""
    def same(step):
        if isinstance(step, Remark) or not step.done:
            return False
        if first.verb in SET_UP:
            return step.verb in SET_UP
        return step.words[1:3] == ["q", "cap"] == first.words[1:3]

    first, end = steps[start], start
    while end < len(steps) and same(steps[end]):
        end += 1
    return max(end - start, 1)


def add_step(rows, context, steps):
    """A call, some calls that stand together, or a claim and a finish, with what comes of them."""
    if steps[0].words[0].isdigit():
        if len(steps) > 1 and steps[0].verb in SET_UP:
            rows.set_up(steps)
        else:
            rows.call(steps)
    elif steps[0].printed[0][0] == "-":
        rows.no_job(" ".join(steps[0].answer))
    for step in steps:
        for kind, told in context.apply(step):
            if kind == "claim":
                rows.claim(told)
            elif kind == "finish":
                rows.finish(told)
            elif kind == "back":
                rows.given_back(step.words[2], told)
            else:
                rows.chip(told)


def draw(name, steps):
    """The picture of a story. Its first remark is its title, which docs/STORIES.md has too."""
    rows, context, place = Sequence(), Context(), 1
    while place < len(steps):
        if isinstance(steps[place], Remark):
            rows.remark(steps[place].text)
            place += 1
            continue
        count = alike(steps, place)
        add_step(rows, context, steps[place:place + count])
        place += count
    return rows.picture(name, steps[0].text, KINDS[context.kind])
