"""Calls, replies and bytes of a script in a few words, as they stand at the arrows of a picture.

Nothing of this is proved. The language of scripts and of printed replies is that of docs/FORMAT.md.
"""

EVENTS = {"2": "EOS", "5": "SOURCE_CHANGE"}
COMMANDS = {"0": "START", "1": "STOP"}
KINDS = {"copy": "a copier", "enc": "an encoder", "dec": "a decoder"}
FLAGS = [(0x2, "QUEUED"), (0x4, "DONE"), (0x8, "KEYFRAME"), (0x10, "PFRAME"), (0x40, "ERROR"), (0x100000, "LAST")]
MAGIC = bytes.fromhex("4f4f4f4fffffffff")
HEADER = 44


def payload(text):
    """The bytes of a payload of a script, or of a printed one."""
    data = b""
    for piece in text.split("+") if text != "-" else []:
        digits, _, times = piece.partition("*")
        data += bytes.fromhex(digits) * int(times or "1")
    return data


def field(data, place):
    return int.from_bytes(data[place:place + 4], "big")


def is_one_frame(data):
    """Whether bytes are a header and as long a body as it says, and nothing else."""
    return data.startswith(MAGIC) and len(data) >= HEADER and len(data) == HEADER + field(data, 40)


def bytes_in_short(data):
    if not data:
        return "no bytes"
    if is_one_frame(data):
        kind = "I frame" if field(data, 20) & 0x400 else "P frame"
        return f"{kind} {field(data, 12)} by {field(data, 16)}, {len(data)} bytes"
    if len(data) <= 8:
        return data.hex()
    if data == data[:1] * len(data):
        return f"{len(data)} bytes of {data[:1].hex()}"
    return f"{len(data)} bytes"


def flags(text):
    """The names of flags that are printed as a hexadecimal number."""
    return [name for bit, name in FLAGS if int(text, 16) & bit]


def call(words):
    """A line of the script without its slot; behind a number that stands for a name comes the name."""
    verb = words[1]
    if verb == "q" and words[2] == "out":
        return f"q out {words[3]}, stamp {words[4]}: {bytes_in_short(payload(words[5]))}"
    names = {"sub": EVENTS, "unsub": EVENTS, "dcmd": COMMANDS, "ecmd": COMMANDS}.get(verb, {})
    name = names.get(words[2]) if len(words) > 2 else None
    return " ".join(words[1:]) + (f": {name}" if name else "")


def taken_buffer(side, fields):
    index, used, marks, sequence, stamp, data = fields
    what = bytes_in_short(payload(data)) if side == "cap" else f"{used} bytes"
    return ", ".join([f"buffer {index}: {what}"] + flags(marks) + [f"sequence {sequence}, stamp {stamp}"])


def reply(step):
    """What a reply tells beside `ok`, and nothing for a refusal or for a reply that tells no more."""
    fields = step.answer[1:]
    if not step.done or not fields:
        return ""
    verb = step.verb
    if verb in ("dq", "dqw"):
        return taken_buffer(step.words[2], fields)
    if verb in ("ev", "evw"):
        left = f", {fields[3]} left" if fields[3] != "0" else ""
        return f"{EVENTS.get(fields[0], 'event ' + fields[0])}, number {fields[1]}{left}"
    if verb in ("gfmt", "tryfmt", "sfmt"):
        return f"{fields[0]} {fields[1]} by {fields[2]}, size {fields[3]}"
    if verb == "req":
        return f"{fields[0]} buffer" + ("s" if fields[0] != "1" else "")
    if verb == "create":
        return f"from {fields[0]} on, {fields[1]} added"
    if verb == "query":
        return ", ".join([f"buffer {fields[0]}: length {fields[1]}"] + flags(fields[2]))
    if verb == "poll":
        return "read {}, write {}, urgent {}".format(*fields)
    return " ".join(fields)
