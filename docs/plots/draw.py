#!/usr/bin/env python3
"""Draws the charts of docs/SPEED.md beside itself, from quality.csv, and prints the page's table. It needs Python 3 alone."""
import csv
import os
import sys

sys.dont_write_bytecode = True

from chart import Chart, Panel, Scale

HERE = os.path.dirname(os.path.abspath(__file__))
CONTENTS = {"testsrc2": "testsrc2 of ffmpeg", "mandelbrot": "mandelbrot of ffmpeg", "make": "the generator, make"}
CODERS = {"intra": ("a", "all I frames (--gop 1)"), "gop10": ("b", "an I frame in ten (--gop 10)"), "mjpeg": ("c", "mjpeg of ffmpeg")}
KEY = list(CODERS.values())
SAID, HEIGHT = (1, 5, 10, 20, 31), 164
BYTES, PSNR = (1000, 3000, 10000, 30000, 100000), (20, 30, 40, 50)


def measured():
    """For each content and coder its points, by their quantisers: bytes a picture, and PSNR."""
    points = {}
    with open(os.path.join(HERE, "quality.csv"), encoding="ascii") as file:
        for line in csv.DictReader(file):
            curve = points.setdefault((line["content"], line["coder"]), {})
            curve[int(line["quantiser"])] = int(line["bytes_a_picture"]), float(line["psnr_db"])
    return points


def scales(points):
    """The scales of bytes and of PSNR, the same in all charts."""
    every = [point for curve in points.values() for point in curve.values()]
    least, greatest = min(size for size, _ in every), max(size for size, _ in every)
    sizes = Scale(least * 0.85, greatest * 1.15, [tick for tick in BYTES if least * 0.85 < tick < greatest * 1.15], "bytes a picture", True)
    least, greatest = min(quality for _, quality in every), max(quality for _, quality in every)
    return sizes, Scale(least - 2, greatest + 2, [tick for tick in PSNR if least - 2 < tick < greatest + 2], "PSNR, dB")


def over_quantisers(points, content):
    """Bytes a picture and PSNR, each over the quantisers."""
    chart = Chart(f"Over the quantisers: {CONTENTS[content]}", 544, KEY)
    quantisers = Scale(1, 31, SAID, "quantiser")
    for top, part, scale in ((112, 0, scales(points)[0]), (336, 1, scales(points)[1])):
        panel = Panel(chart, top, HEIGHT, quantisers, scale)
        for name, (kind, _) in CODERS.items():
            panel.curve(kind, [(quantiser, point[part]) for quantiser, point in sorted(points[content, name].items())])
    return chart


def over_bytes(points, content):
    """PSNR over bytes a picture, with dots at some quantisers."""
    chart = Chart(f"What quality costs: {CONTENTS[content]}", 320, KEY)
    panel = Panel(chart, 112, HEIGHT, *scales(points))
    for name, (kind, _) in CODERS.items():
        panel.curve(kind, [points[content, name][quantiser] for quantiser in sorted(points[content, name])])
        for quantiser in SAID:
            panel.dot(kind, *points[content, name][quantiser])
    return chart


def table(points):
    """The lines of a table: for each content and coder, bytes a picture and PSNR at some quantisers."""
    yield "| Content | Coder | " + " | ".join(f"quantiser {quantiser}" for quantiser in SAID) + " |"
    yield "|---|---" + "|---" * len(SAID) + "|"
    for (content, name), curve in points.items():
        cells = [f"{curve[quantiser][0]:,}, {curve[quantiser][1]:.1f}" for quantiser in SAID]
        yield f"| {CONTENTS[content]} | {CODERS[name][1]} | " + " | ".join(cells) + " |"


def main():
    points = measured()
    for content in CONTENTS:
        for name, chart in (("quantisers", over_quantisers(points, content)), ("cost", over_bytes(points, content))):
            with open(os.path.join(HERE, f"{name}_{content}.svg"), "w", encoding="utf-8") as file:
                file.write(chart.text())
    print("\n".join(table(points)))


main()
