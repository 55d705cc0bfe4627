"""Runs the program with allocations refused, by the library of failmalloc.c. Nothing of this is proved."""
import os
import subprocess
import tempfile
from collections import namedtuple

SECONDS = 60
Ending = namedtuple("Ending", "status printed told")


class Refuser:
    """A program, and the built library that refuses it memory. A run that does not end in time has no status."""

    def __init__(self, program, folder):
        self.program, self.folder = os.path.abspath(program), folder
        self.library = os.path.join(folder, "failmalloc.so")

    def build(self, compiler):
        """Builds the library; whether that could be done."""
        source = os.path.join(os.path.dirname(os.path.abspath(__file__)), "failmalloc.c")
        flags = ["-Wall", "-Wextra", "-Werror", "-O2", "-fPIC", "-shared"]
        return subprocess.run([compiler, *flags, "-o", self.library, source], check=False).returncode == 0

    def run(self, words, given=b"", **settings):
        """How a run ends, with the settings that failmalloc.c reads."""
        surroundings = {**os.environ, "LD_PRELOAD": self.library, **settings} if settings else None
        try:
            ended = subprocess.run([self.program, *words], input=given, capture_output=True, env=surroundings,
                                   timeout=SECONDS, check=False)
        except subprocess.TimeoutExpired:
            return Ending(None, b"", b"")
        return Ending(ended.returncode, ended.stdout, ended.stderr)

    def refused(self, words, given, number, all_behind):
        """A run in which one allocation is refused, counted from 1, and those behind it too if it is said so."""
        settings = {"FAIL_ALLOC": str(number)}
        if all_behind:
            settings["FAIL_FROM"] = "1"
        return self.run(words, given, **settings)

    def allocations(self, words, given):
        """How many allocations a run makes. Where threads race, another run may make a few more or less."""
        with tempfile.NamedTemporaryFile(dir=self.folder) as file:
            self.run(words, given, FAIL_COUNT=file.name)
            return int(file.read() or 0)
