"""Reads an example script and what it prints: which printed lines belong to which line of the script.

Nothing of this is proved. An output that is too short or too long for its script is refused, and a script of many slots.
"""


class Remark:
    """Comment lines that stand together, as one text."""

    def __init__(self, text):
        self.text = text


class Step:
    """A line of the script, as words, and the lines that it printed, as words too."""

    def __init__(self, words, printed):
        self.words, self.printed = words, printed

    @property
    def verb(self):
        """The word that tells what is asked: that of a call stands behind its slot."""
        return self.words[1] if self.words[0].isdigit() else self.words[0]

    @property
    def answer(self):
        """What stands in the first printed line behind the slot and the verb: `ok` and fields, an errno, or `blocked`."""
        return self.printed[0][2:]

    @property
    def done(self):
        return self.answer[:1] == ["ok"]


def lines_of(words, output):
    """The lines of the output that a line of the script printed: two for a `run` that found a job, else one."""
    printed = [next(output)]
    if words[0] == "run" and printed[0][0] != "-":
        printed.append(next(output))
    return printed


def read(script, output):
    """The steps and remarks of a script in order, from its text and the text that it prints."""
    left = (line.split() for line in output.splitlines())
    steps, together = [], False
    for line in script.splitlines():
        words = line.split()
        if words and words[0].startswith("#"):
            text = line.strip().lstrip("#").strip()
            if together:
                steps[-1].text += " " + text
            else:
                steps.append(Remark(text))
            together = True
            continue
        together = False
        if words:
            try:
                steps.append(Step(words, lines_of(words, left)))
            except StopIteration:
                raise SystemExit(f"the output has no line for: {line}") from None
    if next(left, None) is not None:
        raise SystemExit("the output has more lines than the script asks for")
    if len({step.words[0] for step in steps if isinstance(step, Step) and step.words[0].isdigit()}) != 1:
        raise SystemExit("a story is of one slot")
    return steps
