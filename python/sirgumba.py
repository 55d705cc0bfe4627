"""Sirgumba in Python: a memory-to-memory video codec device in this process, over libsirgumba.so.

A device has slots. A slot is what an open file is in a V4L2 driver: it is opened as a copier, an encoder or a decoder, and is
then called. Each call is a method of `Slot`; docs/DEVICE.md says what it does. A call that the device refuses raises an
OSError with the errno; one that would wait in a driver raises `Blocked`, and is to be made again after a job.

    from sirgumba import Device

    with Device() as device:
        slot = device.open(0, "copy")
        slot.request_buffers("out", 1)
        slot.request_buffers("cap", 1)
        slot.queue_output(0, b"\\x00\\xff", stamp=7)
        slot.queue_capture(0)
        slot.stream_on("out")
        slot.stream_on("cap")
        device.run()
        print(slot.take("cap").payload)

`Device.run` claims a job, runs it and brings it back. `Device.claim` gives a `Job`, which is run and then brought back by
`Device.finish`. As yet a job stays in its device and runs inside of `finish` (c/jobs.c); a program that runs each job once,
before it finishes it, can stay as it is when that changes. Calls on one device are made by one thread at a time: threads that
share a device take a lock round every call but `Job.run`.
"""

import ctypes
import ctypes.util
import errno
import mmap
import os
import pathlib
import struct
import typing

__all__ = [
    "Added", "Blocked", "Device", "Event", "Format", "Info", "Job", "LibraryError", "Ready", "Slot", "Taken",
    "SOURCE_CHANGE", "END_OF_STREAM", "STOP", "START",
]

SIDES = {"out": 0, "cap": 1}
KINDS = {"copy": 0, "enc": 1, "dec": 2}
ENDS = ("copied", "encoded", "picture", "damaged", "changed", "spent", "fault")

#: Numbers of events, and of the commands of encoders and decoders.
END_OF_STREAM, SOURCE_CHANGE = 2, 5
START, STOP = 0, 1

#: The names of statuses, by their numbers in sirgumba.h.
STATUSES = (
    "done", "not made", "in use", "number out of range", "length out of range", "more room is wanted", "out of memory",
    "no slot waits for a worker", "the worker has a job already", "the worker's job was given out", "2^62 steps were made",
)
NOT_MADE, BAD_NUMBER, BAD_LENGTH, NO_MEMORY, NO_JOB = 1, 3, 4, 6, 7

#: Room for any reply.
ROOM = 17_694_793


class Blocked(Exception):
    """The call waits in a driver, and is to be made again after a job."""


class LibraryError(Exception):
    """The library refused a call of it that does not reach the device. `status` is its number in sirgumba.h."""

    def __init__(self, status: int):
        super().__init__(STATUSES[status] if status < len(STATUSES) else f"status {status}")
        self.status = status


class Format(typing.NamedTuple):
    """A format of a side: the name, 4 characters, the size of a picture in samples, and of a buffer in bytes."""

    name: str
    width: int
    height: int
    size: int


class Added(typing.NamedTuple):
    """Buffers that were added: the index of the first, and how many there are."""

    index: int
    count: int


class Info(typing.NamedTuple):
    """The state of a buffer: its index, its length in bytes, and its flags."""

    index: int
    length: int
    flags: int


class Taken(typing.NamedTuple):
    """A buffer that was taken: the index, the bytes in use, flags, sequence number and stamp. Only CAPTURE hands bytes out."""

    index: int
    used: int
    flags: int
    sequence: int
    stamp: int
    payload: bytes


class Event(typing.NamedTuple):
    """An event: its type, its number, what changed, and how many events are left."""

    type: int
    sequence: int
    changes: int
    pending: int


class Ready(typing.NamedTuple):
    """What a poll tells: whether a buffer of CAPTURE, one of OUTPUT and an event can be taken."""

    read: bool
    write: bool
    urgent: bool


class _Handle(ctypes.Structure):
    """A device or a job of the library. Its fields are the library's."""

    _fields_ = [("at", ctypes.c_void_p), ("is_made", ctypes.c_bool)]


def _library_path() -> str:
    """Where the library is: what SIRGUMBA_LIBRARY names, or what is built beside this file, or what is installed."""
    named = os.environ.get("SIRGUMBA_LIBRARY")
    built = pathlib.Path(__file__).resolve().parent.parent / "c/out/libsirgumba.so"
    found = named or (str(built) if built.exists() else ctypes.util.find_library("sirgumba"))
    if not found:
        raise FileNotFoundError(errno.ENOENT, "make libsirgumba.so first (make -C c)", "libsirgumba.so")
    return found


def _load(path: str) -> ctypes.CDLL:
    """The library, with the types of its calls."""
    library = ctypes.CDLL(path)
    handle, number, size = ctypes.POINTER(_Handle), ctypes.c_uint32, ctypes.c_size_t
    library.sirgumba_make.argtypes = [handle, number]
    library.sirgumba_free.argtypes = [handle]
    library.sirgumba_answer.argtypes = [handle, ctypes.c_char_p, size, ctypes.c_void_p, size, ctypes.POINTER(size)]
    library.sirgumba_claim.argtypes = [handle, number, handle, ctypes.POINTER(number)]
    library.sirgumba_run.argtypes = [handle]
    library.sirgumba_finish.argtypes = [handle, handle, ctypes.POINTER(ctypes.c_uint8)]
    for call in ("make", "free", "answer", "claim", "run", "finish"):
        getattr(library, f"sirgumba_{call}").restype = number
    return library


_loaded: dict[str, ctypes.CDLL] = {}


def _library() -> ctypes.CDLL:
    """The library, which is loaded once."""
    path = _library_path()
    if path not in _loaded:
        _loaded[path] = _load(path)
    return _loaded[path]


def _check(status: int) -> None:
    """Raises where the status is not that of a call that was done."""
    if status == NO_MEMORY:
        raise MemoryError
    if status == BAD_NUMBER:
        raise ValueError(STATUSES[status])
    if status:
        raise LibraryError(status)


class Job:
    """A job that a worker claimed. It is run by any thread, and then brought back by `finish` of its device.

    `slot` is the slot whose job it is."""

    def __init__(self, library: ctypes.CDLL):
        self._library = library
        self._handle = _Handle()
        self.slot = 0

    def run(self) -> None:
        """Runs the job, before it is finished. It needs no lock of the device."""
        _check(self._library.sirgumba_run(ctypes.byref(self._handle)))


class Device:
    """A device of `slots` closed slots, 1 to 1,024. As a context manager it is freed at the end."""

    def __init__(self, slots: int = 16):
        self._library = _library()
        self._handle = _Handle()
        self._size = ctypes.c_size_t()
        # Pages that no reply reaches take no memory.
        self._room = mmap.mmap(-1, ROOM)
        self._room_at = ctypes.addressof(ctypes.c_char.from_buffer(self._room))
        self._jobs = 0
        if not 0 <= slots < 2**32:
            raise ValueError("slots out of range")
        _check(self._library.sirgumba_make(ctypes.byref(self._handle), slots))

    def __enter__(self) -> "Device":
        return self

    def __exit__(self, *error: object) -> None:
        self.free()

    def free(self) -> None:
        """Frees the device. Jobs that were claimed have to be finished before."""
        if self._jobs:
            raise RuntimeError(f"{self._jobs} jobs are not finished")
        if self._handle.is_made:
            _check(self._library.sirgumba_free(ctypes.byref(self._handle)))

    def answer(self, body: bytes) -> bytes:
        """Answers one message of the wire (docs/FORMAT.md): the body of the message in, the body of the reply out."""
        _check(
            self._library.sirgumba_answer(
                ctypes.byref(self._handle), body, len(body), self._room_at, ROOM, ctypes.byref(self._size)
            )
        )
        return self._room[: self._size.value]

    def slot(self, number: int) -> "Slot":
        """A slot of the device by its number, whether it is open or not."""
        return Slot(self, number)

    def open(self, number: int, kind: str) -> "Slot":
        """Opens a slot as a copier (`copy`), an encoder (`enc`) or a decoder (`dec`)."""
        slot = Slot(self, number)
        slot.open(kind)
        return slot

    def claim(self, worker: int = 0) -> Job | None:
        """Lets a worker, 0 to 15, claim the job of the slot that waits longest; None where no slot waits.

        A worker that has a job already raises LibraryError."""
        job, slot = Job(self._library), ctypes.c_uint32()
        status = self._library.sirgumba_claim(
            ctypes.byref(self._handle), worker, ctypes.byref(job._handle), ctypes.byref(slot)
        )
        if status == NO_JOB:
            return None
        _check(status)
        self._jobs += 1
        job.slot = slot.value
        return job

    def finish(self, job: Job) -> str:
        """Brings a job back, and tells how it ended: one of `ENDS`."""
        end = ctypes.c_uint8()
        _check(self._library.sirgumba_finish(ctypes.byref(self._handle), ctypes.byref(job._handle), ctypes.byref(end)))
        self._jobs -= 1
        return ENDS[end.value]

    def run(self, worker: int = 0) -> tuple[int, str] | None:
        """Claims a job, runs it and brings it back. Tells its slot and how it ended; None where no slot waits."""
        job = self.claim(worker)
        if job is None:
            return None
        job.run()
        return job.slot, self.finish(job)


class Slot:
    """A slot of a device. Sides are `out` (what is fed in) and `cap` (what comes out)."""

    def __init__(self, device: Device, number: int):
        self.device = device
        self.number = number

    def __enter__(self) -> "Slot":
        return self

    def __exit__(self, *error: object) -> None:
        self.close()

    def _call(self, operation: int, *numbers: int, rest: bytes = b"") -> bytes:
        """Makes a call, and gives the fields of its reply."""
        body = struct.pack(f">B{1 + len(numbers)}I", operation, self.number, *numbers) + rest
        reply = self.device.answer(body)
        if reply[0] == 0x40:
            (number,) = struct.unpack(">I", reply[1:])
            raise OSError(number, os.strerror(number))
        if reply[0] == 0x41:
            raise Blocked
        if reply[0] == 0x7F:
            raise ValueError("a slot, a side or a name is out of range")
        return reply[1:]

    @staticmethod
    def _format(side: str, name: str, width: int, height: int, size: int) -> bytes:
        """The fields of a format."""
        return struct.pack(">I4s3I", SIDES[side], name.encode("ascii"), width, height, size)

    @staticmethod
    def _as_format(fields: bytes) -> Format:
        name, width, height, size = struct.unpack(">4s3I", fields)
        return Format(name.decode("ascii"), width, height, size)

    def open(self, kind: str) -> None:
        """Open: makes the slot a copier (`copy`), an encoder (`enc`) or a decoder (`dec`)."""
        self._call(0x01, KINDS[kind])

    def close(self) -> None:
        """Close: ends what the slot is, with its buffers."""
        self._call(0x02)

    def format_name(self, side: str, index: int) -> str:
        """VIDIOC_ENUM_FMT: the name of a side's format, by its place in the list."""
        return self._call(0x03, SIDES[side], index).decode("ascii")

    def format(self, side: str) -> Format:
        """VIDIOC_G_FMT: the format of a side."""
        return self._as_format(self._call(0x04, SIDES[side]))

    def try_format(self, side: str, name: str, width: int, height: int, size: int = 0) -> Format:
        """VIDIOC_TRY_FMT: the format that a side would get, with nothing changed."""
        return self._as_format(self._call(0x05, rest=self._format(side, name, width, height, size)))

    def set_format(self, side: str, name: str, width: int, height: int, size: int = 0) -> Format:
        """VIDIOC_S_FMT: sets the format of a side, and gives the one that it has then."""
        return self._as_format(self._call(0x06, rest=self._format(side, name, width, height, size)))

    def request_buffers(self, side: str, count: int) -> int:
        """VIDIOC_REQBUFS: gives a side so many new buffers, 0 for none. Tells how many it got."""
        return struct.unpack(">I", self._call(0x07, SIDES[side], count))[0]

    def create_buffers(self, side: str, count: int, length: int) -> Added:
        """VIDIOC_CREATE_BUFS: adds buffers of a length to a side."""
        return Added(*struct.unpack(">II", self._call(0x18, SIDES[side], count, length)))

    def query_buffer(self, side: str, index: int) -> Info:
        """VIDIOC_QUERYBUF: the state of a buffer."""
        return Info(*struct.unpack(">III", self._call(0x08, SIDES[side], index)))

    def queue_output(self, index: int, payload: bytes, stamp: int = 0) -> None:
        """VIDIOC_QBUF on OUTPUT: puts bytes into a buffer, and queues it with a stamp."""
        self._call(0x09, index, rest=struct.pack(">Q", stamp) + payload)

    def queue_capture(self, index: int) -> None:
        """VIDIOC_QBUF on CAPTURE: queues a buffer to be filled."""
        self._call(0x0A, index)

    def take(self, side: str, wait: bool = False) -> Taken:
        """VIDIOC_DQBUF: takes a buffer that is done. With `wait` a call that finds none is `Blocked` where a driver waits."""
        fields = self._call(0x0C if wait else 0x0B, SIDES[side])
        return Taken(*struct.unpack(">IIIQQ", fields[:28]), fields[28:])

    def stream_on(self, side: str) -> None:
        """VIDIOC_STREAMON: starts a side."""
        self._call(0x0D, SIDES[side])

    def stream_off(self, side: str) -> None:
        """VIDIOC_STREAMOFF: stops a side, and takes its queued buffers back."""
        self._call(0x0E, SIDES[side])

    def subscribe(self, event: int) -> None:
        """VIDIOC_SUBSCRIBE_EVENT: asks for events of a type."""
        self._call(0x0F, event)

    def unsubscribe(self, event: int) -> None:
        """VIDIOC_UNSUBSCRIBE_EVENT: asks for them no longer; 0 is all types."""
        self._call(0x10, event)

    def take_event(self, wait: bool = False) -> Event:
        """VIDIOC_DQEVENT: takes the next event. With `wait` a call that finds none is `Blocked`."""
        return Event(*struct.unpack(">IQII", self._call(0x12 if wait else 0x11)))

    def decoder_command(self, command: int) -> None:
        """VIDIOC_DECODER_CMD: `START` or `STOP`, which drains the decoder."""
        self._call(0x13, command)

    def encoder_command(self, command: int) -> None:
        """VIDIOC_ENCODER_CMD: `START` or `STOP`, which drains the encoder."""
        self._call(0x14, command)

    def control(self, control: int) -> int:
        """VIDIOC_G_CTRL: the value of a control."""
        return struct.unpack(">I", self._call(0x15, control))[0]

    def set_control(self, control: int, value: int) -> None:
        """VIDIOC_S_CTRL: sets a control."""
        self._call(0x16, control, value)

    def poll(self) -> Ready:
        """poll(): what can be taken at once."""
        return Ready(*map(bool, self._call(0x17)))
