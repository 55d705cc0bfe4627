#!/usr/bin/env python3
"""Makes the pictures of docs/STORIES.md, and its tables, from the example scripts and what they print.

    docs/pictures/stories.py            writes docs/pictures/stories/NAME.svg, and the tables in docs/STORIES.md
    docs/pictures/stories.py --check    compares what it would write with what is there; the last line counts both

It needs Python 3 alone. Nothing of this is proved; that a script prints what stands beside it is seen by examples/check.
"""
import os
import sys

sys.dont_write_bytecode = True

from script_steps import read
from sequence import draw
from table import put_table

STORIES = ["first", "seek", "drain", "change_new_buffers", "drain_over_a_change"]
HERE = os.path.dirname(os.path.abspath(__file__))
DOCS = os.path.dirname(HERE)
EXAMPLES = os.path.join(os.path.dirname(DOCS), "examples")
PAGE = os.path.join(DOCS, "STORIES.md")


def text_of(*path):
    """The text of a file, and none where there is no such file."""
    try:
        with open(os.path.join(*path), encoding="utf-8") as file:
            return file.read()
    except FileNotFoundError:
        return ""


def made():
    """Each file with the text that it should have."""
    files, page = {}, text_of(PAGE)
    for name in STORIES:
        steps = read(text_of(EXAMPLES, name + ".script"), text_of(EXAMPLES, name + ".out"))
        files[os.path.join(HERE, "stories", name + ".svg")] = draw(name, steps).text()
        page = put_table(page, name, steps)
    files[PAGE] = page
    return files


def check(files):
    """Tells each file that is not as it would be made; whether there is none."""
    wrong = [path for path, text in files.items() if text_of(path) != text]
    for path in wrong:
        print(f"FAILED: {os.path.relpath(path, os.path.dirname(DOCS))} is not what docs/pictures/stories.py makes")
    print(f"{len(files) - len(wrong)} passed, {len(wrong)} failed")
    return not wrong


def write(files):
    os.makedirs(os.path.join(HERE, "stories"), exist_ok=True)
    for path, text in files.items():
        with open(path, "w", encoding="utf-8") as file:
            file.write(text)


if __name__ == "__main__":
    if sys.argv[1:] == ["--check"]:
        sys.exit(0 if check(made()) else 1)
    if sys.argv[1:]:
        sys.exit("usage: docs/pictures/stories.py [--check]")
    write(made())
