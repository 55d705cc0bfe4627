"""Inputs of the wire to be timed, and round trips. Nothing of this is proved."""
import os
import struct
import subprocess

HERE = os.path.dirname(os.path.abspath(__file__))
OUT, CAP = 0, 1
ROUNDS = 100_000
PICTURE = 352 * 288 * 3 // 2


def message(operation, fields=b"", place=0):
    """A message: the place is a slot, or a worker."""
    return struct.pack(">IBI", 5 + len(fields), operation, place) + fields


def numbers(*fields):
    return struct.pack(f">{len(fields)}I", *fields)


def opened(kind):
    """Opens slot 0, with one buffer on either side, and both stream."""
    yield message(0x01, numbers(kind))
    yield from (message(0x07, numbers(side, 1)) for side in (OUT, CAP))
    yield from (message(0x0D, numbers(side)) for side in (OUT, CAP))


def job(payload):
    """The six messages of a job: QBuf, QBuf, claim, finish, DqBuf, DqBuf."""
    yield message(0x09, numbers(0) + struct.pack(">Q", 0) + payload)
    yield message(0x0A, numbers(0))
    yield message(0x20)
    yield message(0x21)
    yield from (message(0x0B, numbers(side)) for side in (CAP, OUT))


def written(messages, path):
    with open(path, "wb") as file:
        file.writelines(messages)
    return path


def copies(path):
    """A file of jobs that each copy 16 bytes."""
    one = b"".join(job(bytes(16)))
    return written([*opened(0), *[one] * ROUNDS], path)


def pictures(raw, path):
    """A file of jobs that each encode a picture of the raw file."""
    with open(raw, "rb") as file, open(path, "wb") as out:
        out.writelines(opened(1))
        while picture := file.read(PICTURE):
            out.writelines(job(picture))
    return path


def client(folder):
    """The path of the client that times round trips, or none without a C compiler."""
    path = os.path.join(folder, "round_trips")
    flags = ["-O2", "-Wall", "-Wextra", "-Werror"]
    try:
        subprocess.run(["cc", *flags, "-o", path, os.path.join(HERE, "round_trips.c")], check=True)
    except FileNotFoundError:
        return None
    return path


def round_trip(path, trips, command):
    """The microseconds of a round trip."""
    return float(subprocess.run([path, str(trips), *command], check=True, capture_output=True).stdout)
