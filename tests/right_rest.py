"""What a script has to print where some of its calls are refused memory. Nothing of this is proved.

A refused call changes nothing. So the rest of the script is answered as if the refused lines were not there: the right text
is that of a run of the script without them, with their lines of ENOMEM put back in their places.
"""
MAY_LACK_MEMORY = (b"open", b"req", b"create")


def lines_with_answers(script, printed):
    """Each line of a script that was answered, by its number from 0, with the lines that were printed for it."""
    left = printed.split(b"\n")[:-1]
    answered = []
    for number, line in enumerate(script.split(b"\n")):
        words = line.split()
        if not words or words[0].startswith(b"#"):
            continue
        lines = left[:1]
        if words[0] == b"run" and lines and lines[0].split()[0] != b"-":
            lines = left[:2]
        left = left[len(lines):]
        if lines:
            answered.append((number, lines))
    return answered


def refused_lines(script, printed):
    """The numbers of the lines that were answered by ENOMEM."""
    answered = lines_with_answers(script, printed)
    return frozenset(number for number, lines in answered if lines[0].split()[2:] == [b"ENOMEM"])


class RightRest:
    """What a script prints by the program, whichever of its lines are refused memory."""

    def __init__(self, refuser, script):
        self.refuser, self.script, self.texts, self.verdicts = refuser, script, {}, {}
        self.audits = refuser.run(["audit"], b"====\n").status != 2

    def text(self, refused):
        """The right text where the lines with these numbers are refused memory."""
        if refused not in self.texts:
            lines = self.script.split(b"\n")
            kept = b"\n".join(b"" if number in refused else line for number, line in enumerate(lines))
            run = self.refuser.run(["script"], kept)
            answers = dict(lines_with_answers(kept, run.printed))
            for number in refused:
                slot, verb = lines[number].split()[:2]
                answers[number] = [slot + b" " + verb + b" ENOMEM"]
            self.texts[refused] = b"".join(line + b"\n" for number in sorted(answers) for line in answers[number])
        return self.texts[refused]

    def fault(self, ending):
        """What is wrong with how a refused run ended, and None where nothing is."""
        refused = refused_lines(self.script, ending.printed)
        lines = self.script.split(b"\n")
        if any(lines[number].split()[1] not in MAY_LACK_MEMORY for number in refused):
            return "ENOMEM of a call that takes no memory"
        right = self.text(refused)
        if ending.status == 0 and ending.printed != right:
            return "status 0, and the text is not that of the script without the refused lines"
        if ending.status == 12 and not right.startswith(ending.printed):
            return "status 12, and what was printed does not begin the right text"
        return self.audited(ending) if self.audits else None

    def audited(self, ending):
        """What the program's own audit, where it is built, has against how a refused run ended, and None where nothing.

        Of a text that was cut off it has to say that its whole lines are right, and that the line behind them is missing.
        """
        whole = ending.printed[:ending.printed.rfind(b"\n") + 1]
        if whole not in self.verdicts:
            script = self.script if self.script.endswith(b"\n") else self.script + b"\n"
            self.verdicts[whole] = self.refuser.run(["audit"], script + b"====\n" + whole).printed
        said = self.verdicts[whole]
        if said == b"yes\n" or (ending.status == 12 and said == b"no %d\n" % (whole.count(b"\n") + 1)):
            return None
        return f"the audit says {said.decode(errors='replace').strip()}"
