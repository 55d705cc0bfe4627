"""Scripts to be timed. Nothing of this is proved."""
STEPS = 11_264
COPIES = 12_000
OPEN = ["req out 1", "req cap 1", "on out", "on cap"]
COPY = ["q out 0 0 00*16", "q cap 0"]
TAKEN = ["dq cap", "dq out"]
# The kinds of contexts: what opens one, and what queues a job in it.
KINDS = {"copies, buffers of 64 bytes": (["open copy", "sfmt out DATA 0 0 64", *OPEN], COPY),
         "copies, buffers of 4,096 bytes": (["open copy", *OPEN], COPY),
         "pictures of 16 by 16": (["open enc", "sfmt out GREY 16 16 0", *OPEN], ["q out 0 0 80*256", "q cap 0"])}


def opened(kind, contexts):
    """The lines that make contexts, and run a job in each, so that all their pages have been touched."""
    begun, _ = KINDS[kind]
    return [f"{slot} {line}" for slot in range(contexts) for line in begun] + jobs(kind, contexts, contexts)


def jobs(kind, contexts, number):
    """The lines of so many jobs: every context queues, then as many runs, then every context takes what is done."""
    _, job = KINDS[kind]
    lines = []
    for _ in range(number // contexts):
        lines += [f"{slot} {line}" for slot in range(contexts) for line in job]
        lines += ["run 0"] * contexts
        lines += [f"{slot} {line}" for slot in range(contexts) for line in TAKEN]
    return lines


def copier():
    """The lines that make a context for copies."""
    return [f"0 {line}" for line in ("open copy", *OPEN)]


def copies():
    """The lines of jobs that each copy 16 bytes, about as many as a script may have."""
    return ["0 q out 0 0 00*16", "0 q cap 0", "claim 0", "finish 0", "0 dq cap", "0 dq out"] * COPIES


def written(lines, path):
    with open(path, "w", encoding="ascii") as file:
        file.writelines(line + "\n" for line in lines)
    return path
