"""Puts a table into a page: each line of a script beside what it prints. Nothing of this is proved."""
from in_short import bytes_in_short, payload
from script_steps import Remark

LONG = 28


def cut(words):
    """A line as code, with a long payload cut short, and then what the payload is, in words."""
    longest = max(words, key=len)
    if len(longest) <= LONG:
        return f"`{' '.join(words)}`"
    line = " ".join(word[:10] + "…" if word is longest else word for word in words)
    return f"`{line}` ({bytes_in_short(payload(longest))})"


def table(steps):
    rows = ["| Line of the script | Printed |", "|---|---|"]
    for step in steps:
        if isinstance(step, Remark):
            rows.append(f"| *{step.text}* | |")
        else:
            rows.append(f"| {cut(step.words)} | {'<br>'.join(cut(line) for line in step.printed)} |")
    return "\n".join(rows)


def put_table(page, name, steps):
    """The page with the table of a story between its two marks."""
    begin, end = f"<!-- {name}: made by pictures/stories.py -->", f"<!-- {name}: end -->"
    before, found, rest = page.partition(begin)
    _, closed, behind = rest.partition(end)
    if not found or not closed:
        raise SystemExit(f"docs/STORIES.md has no place for the table of {name}")
    return f"{before}{begin}\n\n{table(steps[1:])}\n\n{end}{behind}"
