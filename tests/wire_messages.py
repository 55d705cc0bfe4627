"""Script lines as messages of the wire, and replies of the wire as the lines that a script prints.

Written from docs/FORMAT.md alone, as a client of the wire would be. This is a test's part; it isn't proved.
"""

import errno
import struct

SIDES = {"out": 0, "cap": 1}
KINDS = {"copy": 0, "enc": 1, "dec": 2}
ENDS = ["copied", "encoded", "picture", "damaged", "changed", "spent", "fault"]

CLAIM, FINISH = 0x20, 0x21

# Verbs with a fixed operation, and what their words are: s a side, n a number of 32 bits, f a fourcc, k a kind.
PLAIN = {
    "open": (0x01, "k"), "close": (0x02, ""), "enum": (0x03, "sn"), "gfmt": (0x04, "s"),
    "tryfmt": (0x05, "sfnnn"), "sfmt": (0x06, "sfnnn"), "req": (0x07, "sn"), "query": (0x08, "sn"),
    "dq": (0x0B, "s"), "dqw": (0x0C, "s"), "on": (0x0D, "s"), "off": (0x0E, "s"), "sub": (0x0F, "n"),
    "unsub": (0x10, "n"), "ev": (0x11, ""), "evw": (0x12, ""), "dcmd": (0x13, "n"), "ecmd": (0x14, "n"),
    "gctl": (0x15, "n"), "sctl": (0x16, "nn"), "poll": (0x17, ""), "create": (0x18, "snn"),
}


def payload(text: str) -> bytes:
    """The bytes of a payload's word."""
    if text == "-":
        return b""
    pieces = (piece.partition("*") for piece in text.split("+"))
    return b"".join(bytes.fromhex(digits) * int(times or 1) for digits, _, times in pieces)


def field(shape: str, word: str) -> bytes:
    """A word of a script line as bytes of a body."""
    if shape == "f":
        return word.encode()
    number = {"s": SIDES, "k": KINDS}.get(shape, {}).get(word)
    return struct.pack(">I", int(word) if number is None else number)


def framed(body: bytes) -> bytes:
    """A body with its length before it."""
    return struct.pack(">I", len(body)) + body


def message(operation: int, place: int, fields: bytes = b"") -> bytes:
    """A message whole; its place is a slot, or a worker for a claim and a finish."""
    return framed(struct.pack(">BI", operation, place) + fields)


def queue(slot: int, words: list[str]) -> bytes:
    """The message of a line `S q ..`."""
    if words[0] == "cap":
        return message(0x0A, slot, field("n", words[1]))
    index, stamp, text = words[1:]
    return message(0x09, slot, struct.pack(">IQ", int(index), int(stamp)) + payload(text))


def call(line: str) -> bytes:
    """The message of a line that begins with a slot."""
    slot, verb, *words = line.split()
    if verb == "q":
        return queue(int(slot), words)
    operation, shapes = PLAIN[verb]
    return message(operation, int(slot), b"".join(field(s, w) for s, w in zip(shapes, words, strict=True)))


def handed(bytes_: bytes) -> str:
    """Used bytes as a script prints them."""
    return bytes_.hex() or "-"


def taken(verb_words: list[str], rest: bytes) -> str:
    """The words of a buffer that was taken."""
    index, used, flags, seq, stamp = struct.unpack(">IIIQQ", rest[:28])
    bytes_ = handed(rest[28:]) if verb_words[2] == "cap" else "-"
    return f"ok {index} {used} {flags:x} {seq} {stamp} {bytes_}"


def told(line: str, body: bytes) -> str:
    """What a reply to a call says, as a script prints it behind the verb."""
    code, rest = body[0], body[1:]
    if code == 0x00:
        return "ok"
    if code == 0x01:
        return f"ok {rest.decode()}"
    if code == 0x02:
        return f"ok {rest[:4].decode()} " + " ".join(map(str, struct.unpack(">III", rest[4:])))
    if code in (0x03, 0x07):
        return f"ok {struct.unpack('>I', rest)[0]}"
    if code == 0x04:
        index, length, flags = struct.unpack(">III", rest)
        return f"ok {index} {length} {flags:x}"
    if code == 0x05:
        return taken(line.split(), rest)
    if code == 0x06:
        event, number, changes, left = struct.unpack(">IQII", rest)
        return f"ok {event} {number} {changes} {left}"
    if code == 0x08:
        return "ok " + " ".join(map(str, rest))
    if code == 0x09:
        return "ok {} {}".format(*struct.unpack(">II", rest))
    if code == 0x40:
        return errno.errorcode[struct.unpack(">I", rest)[0]]
    if code == 0x41 and not rest:
        return "blocked"
    raise ValueError(f"no reply to a call: {body.hex()}")


def job_line(body: bytes) -> str:
    """What a reply to a claim or a finish says, as a script prints it."""
    code, rest = body[0], body[1:]
    if code == 0x50:
        return f"{struct.unpack('>I', rest)[0]} claim"
    if code == 0x53:
        slot, end = struct.unpack(">IB", rest)
        return f"{slot} finish {ENDS[end]}"
    return {0x51: "- claim none", 0x52: "- claim busy", 0x54: "- finish idle"}[code]


def call_line(line: str, body: bytes) -> str:
    """The line that a script prints for a call, from the reply to it."""
    slot, verb = line.split()[:2]
    return f"{int(slot)} {verb} {told(line, body)}"


def apart(script: str) -> list[str]:
    """The lines of a script that ask for something, each a message: `run` as a claim and a finish."""
    asking = []
    for line in script.splitlines():
        words = line.split()
        if words and words[0] == "run":
            asking += [f"claim {words[1]}", f"finish {words[1]}"]
        elif words and not words[0].startswith("#"):
            asking.append(line)
    return asking


def asked(line: str) -> bytes:
    """The message of a line that is one."""
    jobs = {"claim": CLAIM, "finish": FINISH}
    words = line.split()
    return message(jobs[words[0]], int(words[1])) if words[0] in jobs else call(line)


def answered(line: str, body: bytes) -> str:
    """The line that a script prints for such a line, from the reply to its message."""
    return job_line(body) if line.split()[0] in ("claim", "finish") else call_line(line, body)


def bodies(replies: bytes) -> list[bytes]:
    """The replies of an output that are there whole."""
    whole = []
    while len(replies) >= 4 and len(replies) >= 4 + int.from_bytes(replies[:4], "big"):
        end = 4 + int.from_bytes(replies[:4], "big")
        whole.append(replies[4:end])
        replies = replies[end:]
    return whole
