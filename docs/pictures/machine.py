#!/usr/bin/env python3
"""Draws the pictures of docs/DEVICE.md beside itself: phases.svg, places.svg and slots.svg.

Run it without arguments. It needs Python 3 alone. Nothing of these pictures is proved.
"""
import sys

sys.dont_write_bytecode = True

from paper import Picture, STYLE


GAP = ".gap { fill: none; stroke: #ffffff; stroke-width: 9 } @media (prefers-color-scheme: dark) { .gap { stroke: #10161d } }\n"


def over(p, points, lines=(), at=None, anchor="middle"):
    """An arrow that crosses others, which have a gap there."""
    way = " ".join(f"{'M' if number == 0 else 'L'}{x},{y}" for number, (x, y) in enumerate(points))
    p.parts.append(f'<path class="gap" d="{way}"/>')
    p.arrow(points, lines, at, anchor)


def drain(p):
    """The upper half of the phases: a drain, and the stop by it."""
    p.group(190, 36, 730, 150, "a drain, from STOP on, and the stop by it")
    p.box(210, 80, 116, 56, ["Run", "with a mark"], "strong")
    p.box(420, 80, 100, 56, ["Owe", "by a drain"])
    p.box(640, 80, 100, 56, ["Last", "by a drain"])
    p.box(810, 80, 100, 56, ["Stopped", "by a drain"])
    p.arrow([(110, 205), (110, 108), (208, 108)], ["STOP, while both", "queues stream"], (104, 84))
    p.arrow([(326, 108), (418, 108)], ["no OUTPUT", "buffer is left", "before it"], (372, 70))
    p.arrow([(520, 108), (638, 108)], ["a CAPTURE buffer", "is ready: empty,", "with LAST; EOS"], (579, 70))
    p.arrow([(740, 108), (808, 108)], ["DqBuf", "of LAST"], (774, 86))
    p.arrow([(290, 136), (290, 168), (690, 168), (690, 138)],
            ["the last one before it is done: LAST on its result; EOS"], (298, 161), "start")
    p.arrow([(860, 136), (860, 215), (152, 215)], ["START"], (820, 209))
    over(p, [(570, 186), (570, 236), (152, 236)], ["StreamOff of either queue: without a mark"], (285, 230), "start")


def phases():
    """The phases of a context, and what leads from one to the next."""
    p = Picture("phases", "The phases of a context", 940, 502, STYLE + GAP)
    p.box(20, 205, 130, 56, ["Run", "without a mark"], "strong")
    drain(p)
    p.group(380, 290, 540, 130, "a stop by a change of resolution, of a decoder")
    p.box(420, 330, 100, 56, ["Owe", "by a change"])
    p.box(640, 330, 100, 56, ["Last", "by a change"])
    p.box(810, 330, 100, 56, ["Stopped", "by a change"])
    p.arrow([(85, 261), (85, 372), (418, 372)], ["finish: changed,", "while CAPTURE streams;", "SOURCE_CHANGE"], (94, 333), "start")
    p.arrow([(520, 358), (638, 358)], ["a CAPTURE buffer", "is ready: empty,", "with LAST"], (579, 320))
    p.arrow([(740, 358), (808, 358)], ["DqBuf", "of LAST"], (774, 336))
    p.arrow([(860, 330), (860, 258), (152, 258)], ["START, where CAPTURE's buffers are long enough"], (850, 252), "end")
    over(p, [(260, 138), (260, 344), (418, 344)], ["the same:", "the mark stays"], (269, 323), "start")
    p.arrow([(540, 420), (540, 440), (50, 440), (50, 263)], ["StreamOff of CAPTURE"], (300, 434))
    p.words(20, 462, "Where a mark stayed over a stop by a change, START and StreamOff of CAPTURE lead back to Run with a mark.")
    p.words(20, 478, "Not drawn: a change while CAPTURE does not stream leaves the phase; a STOP in a stop by a change sets a mark, and StreamOff of")
    p.words(20, 494, "OUTPUT there removes it, and the stop stays. Open begins in Run without a mark, and Close ends it all.")
    p.write()


def places():
    """The places of a buffer, and the calls that move it."""
    p = Picture("places", "The places of a buffer", 860, 330, STYLE + GAP)
    p.box(40, 120, 120, 60, ["held", "by the client"], "strong")
    p.box(260, 120, 120, 60, ["ready", "QUEUED"])
    p.box(480, 120, 120, 60, ["job", "running, QUEUED"])
    p.box(700, 120, 120, 60, ["done", "DONE"])
    p.arrow([(160, 150), (258, 150)], ["QBuf"], (209, 142))
    p.arrow([(380, 150), (478, 150)], ["claim"], (429, 142))
    p.arrow([(600, 150), (698, 150)], ["finish"], (649, 142))
    p.arrow([(540, 120), (540, 84), (320, 84), (320, 118)],
            ["finish, to the front: OUTPUT's with bytes left or at a change, CAPTURE's with nothing put in"], (430, 76))
    p.arrow([(320, 180), (320, 214), (740, 214), (740, 182)], ["settling: an empty LAST buffer, on CAPTURE"], (530, 208))
    p.arrow([(760, 120), (760, 40), (80, 40), (80, 118)], ["DqBuf"], (420, 33))
    p.arrow([(780, 180), (780, 268), (80, 268), (80, 182)], ["StreamOff: what is ready, and what is done"], (530, 262))
    p.line([(300, 180), (300, 268)])
    over(p, [(120, 310), (120, 182)], ["ReqBufs, CreateBufs: new buffers"], (132, 306), "start")
    p.words(480, 306, "ReqBufs drops all buffers of its queue, Close those of both.")
    p.write()


def slots():
    """Slots, the list of those that wait, and the workers."""
    p = Picture("slots", "Slots, those that wait, and workers", 860, 400, STYLE + GAP)
    p.group(20, 40, 300, 330, "slots, 1 to 1,024")
    kinds = ["an encoder: OUTPUT and CAPTURE", "a decoder: OUTPUT and CAPTURE", "closed", "a copier: OUTPUT and CAPTURE"]
    for number, kind in enumerate(kinds):
        p.box(36, 56 + 78 * number, 268, 62, [f"slot {number}", kind], "box" if kind == "closed" else "strong")
    p.group(400, 40, 150, 330, "slots that wait")
    for number, slot in enumerate([0, 3]):
        p.box(416, 60 + 62 * number, 118, 44, [f"slot {slot}"])
    listed = ["Slots that are ready", "and have no running", "job, the longest", "waiting first, each", "once. Which slot is", "claimed next depends", "on nothing else."]
    for number, line in enumerate(listed):
        p.words(412, 200 + 16 * number, line)
    p.group(620, 40, 220, 330, "workers, 1 to 64")
    p.box(636, 60, 188, 62, ["worker 0", "the job of slot 1 runs"], "strong")
    p.box(636, 146, 188, 62, ["worker 1", "no job"])
    for number, line in enumerate(["A job has its buffers (a probe", "OUTPUT's alone) and the codec's", "state with it. The worker's", "engine runs under no lock."]):
        p.words(636, 238 + 16 * number, line)
    p.arrow([(304, 324), (344, 324), (344, 144), (414, 144)], ["ready,", "no job:", "to the", "tail"], (349, 220), "start")
    p.arrow([(534, 82), (585, 82), (585, 177), (634, 177)], ["claim"], (555, 76), "start")
    over(p, [(730, 124), (730, 134), (604, 134), (604, 390), (10, 390), (10, 165), (34, 165)],
         ["finish: buffers and state go back"], (360, 385))
    p.write()


phases()
places()
slots()
