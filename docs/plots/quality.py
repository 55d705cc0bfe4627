#!/usr/bin/env python3
"""Measures what quality costs, and writes quality.csv beside itself: bytes a picture and PSNR over the quantisers 1 to 31.

    docs/plots/quality.py [PROGRAM]

PROGRAM is the one that `rt ci` and `rt run` leave in crates/vicodec_run/out, if none is named. ffmpeg makes two of the
contents, codes mjpeg and compares pictures. No figure depends on how fast the machine is. Nothing of this is proved.
"""
import csv
import os
import re
import subprocess
import sys
import tempfile

HERE = os.path.dirname(os.path.abspath(__file__))
PROGRAM = os.path.join(HERE, "..", "..", "crates", "vicodec_run", "out", "vicodec_run")
PICTURES, SIZE, QUANTISERS = 30, "352x288", range(1, 32)
CONTENTS = ["testsrc2", "mandelbrot", "make"]
FFMPEG = ["ffmpeg", "-v", "error", "-y"]
# To mjpeg every sample has the full range, so that nothing but its coding changes one.
SAMPLES = ["-f", "rawvideo", "-pix_fmt", "yuvj420p", "-s", SIZE, "-r", "25"]


def ran(command, given=None):
    """What a command writes; it has to end well."""
    with open(given or "/dev/null", "rb") as source:
        return subprocess.run(command, stdin=source, capture_output=True, check=True).stdout


def put(path, written):
    with open(path, "wb") as file:
        file.write(written)


def pictures(program, content, path):
    """Raw pictures of a content: those of the program's generator, or of a source of ffmpeg."""
    if content == "make":
        put(path, ran([program, "make", "--pictures", str(PICTURES)]))
    else:
        ran([*FFMPEG, "-f", "lavfi", "-i", f"{content}=size={SIZE}:rate=25", "-frames:v", str(PICTURES),
             "-pix_fmt", "yuv420p", "-f", "rawvideo", path])


def own(gop):
    """Codes and decodes by the program, with one quantiser for I and P frames."""
    def coded(program, quantiser, raw, stream, back):
        rates = ["--gop", str(gop), "--iqp", str(quantiser), "--pqp", str(quantiser)]
        put(stream, ran([program, "encode", *rates], raw))
        put(back, ran([program, "decode"], stream))
    return coded


def mjpeg(_, quantiser, raw, stream, back):
    """Codes and decodes by ffmpeg's mjpeg, with one quantiser for all pictures."""
    ran([*FFMPEG, *SAMPLES, "-i", raw, "-c:v", "mjpeg", "-qmin", "1", "-q:v", str(quantiser), "-f", "mjpeg", stream])
    ran([*FFMPEG, "-f", "mjpeg", "-i", stream, "-f", "rawvideo", "-pix_fmt", "yuvj420p", back])


def psnr(raw, back):
    """PSNR over all samples of all planes and pictures, in dB, as ffmpeg tells it."""
    both = [*SAMPLES, "-i", back, *SAMPLES, "-i", raw]
    told = subprocess.run(["ffmpeg", *both, "-lavfi", "psnr", "-f", "null", "-"], capture_output=True, text=True, check=True)
    return re.search(r"PSNR .*average:(\S+)", told.stderr).group(1)


def lines(program, folder):
    """A line for each content, coder and quantiser."""
    coders = {"intra": own(1), "gop10": own(10), "mjpeg": mjpeg}
    raw, stream, back = (os.path.join(folder, name) for name in ("raw", "stream", "back"))
    for content in CONTENTS:
        pictures(program, content, raw)
        for name, coder in coders.items():
            for quantiser in QUANTISERS:
                coder(program, quantiser, raw, stream, back)
                if os.path.getsize(back) != os.path.getsize(raw):
                    raise SystemExit(f"{name}: not all pictures came back")
                yield content, name, quantiser, round(os.path.getsize(stream) / PICTURES), psnr(raw, back)


def main():
    program = os.path.abspath(sys.argv[1] if len(sys.argv) > 1 else PROGRAM)
    with tempfile.TemporaryDirectory() as folder, open(os.path.join(HERE, "quality.csv"), "w", newline="", encoding="ascii") as file:
        table = csv.writer(file, lineterminator="\n")
        table.writerow(["content", "coder", "quantiser", "bytes_a_picture", "psnr_db"])
        table.writerows(lines(program, folder))


main()
