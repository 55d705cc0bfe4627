"""Tests of sirgumba.py: `python3 -m unittest discover python`, where c/out/libsirgumba.so is built.

The worked scripts of examples/ are run call by call through the module, and what is told is compared with the outputs beside
them, which were worked out from the device's rules."""

import errno
import pathlib
import threading
import unittest

import sirgumba

EXAMPLES = pathlib.Path(__file__).resolve().parent.parent / "examples"
VERBS = {"req": "request_buffers", "create": "create_buffers", "query": "query_buffer", "gfmt": "format",
         "tryfmt": "try_format", "sfmt": "set_format", "enum": "format_name", "on": "stream_on", "off": "stream_off",
         "sub": "subscribe", "unsub": "unsubscribe", "dcmd": "decoder_command", "ecmd": "encoder_command",
         "gctl": "control", "sctl": "set_control", "poll": "poll", "open": "open", "close": "close"}


def payload(word: str) -> bytes:
    """The bytes of a payload's word."""
    pieces = (piece.partition("*") for piece in word.split("+") if word != "-")
    return b"".join(bytes.fromhex(digits) * int(times or 1) for digits, _, times in pieces)


def call(slot: sirgumba.Slot, verb: str, words: list[str]) -> object:
    """Makes the call of a script's line."""
    if verb == "q" and words[0] == "out":
        return slot.queue_output(int(words[1]), payload(words[3]), stamp=int(words[2]))
    if verb == "q":
        return slot.queue_capture(int(words[1]))
    if verb in ("dq", "dqw"):
        return slot.take(words[0], wait=verb == "dqw")
    if verb in ("ev", "evw"):
        return slot.take_event(wait=verb == "evw")
    return getattr(slot, VERBS[verb])(*(int(word) if word.isdigit() else word for word in words))


def told(result: object) -> list[str]:
    """The words of a result, as a script prints them."""
    if result is None:
        return []
    if isinstance(result, sirgumba.Taken):
        index, used, flags, sequence, stamp, bytes_ = result
        return [str(index), str(used), f"{flags:x}", str(sequence), str(stamp), bytes_.hex() or "-"]
    if isinstance(result, sirgumba.Info):
        return [str(result.index), str(result.length), f"{result.flags:x}"]
    if isinstance(result, sirgumba.Ready):
        return [str(int(value)) for value in result]
    return [str(value) for value in (result if isinstance(result, tuple) else (result,))]


class Script:
    """A script's lines, carried out on a device."""

    def __init__(self, device: sirgumba.Device):
        self.device = device
        self.jobs: dict[int, sirgumba.Job] = {}

    def claim(self, worker: int) -> str:
        if worker in self.jobs:
            return "- claim busy"
        job = self.device.claim(worker)
        if job is None:
            return "- claim none"
        self.jobs[worker] = job
        return f"{job.slot} claim"

    def finish(self, worker: int) -> str:
        if worker not in self.jobs:
            return "- finish idle"
        job = self.jobs.pop(worker)
        job.run()
        return f"{job.slot} finish {self.device.finish(job)}"

    def call(self, words: list[str]) -> str:
        number, verb, rest = int(words[0]), words[1], words[2:]
        try:
            answer = ["ok", *told(call(self.device.slot(number), verb, rest))]
        except OSError as error:
            answer = [errno.errorcode[error.errno]]
        except sirgumba.Blocked:
            answer = ["blocked"]
        return " ".join([str(number), verb, *answer])

    def line(self, line: str) -> list[str]:
        """What a line prints."""
        words = line.split()
        if not words or words[0].startswith("#"):
            return []
        if words[0] == "claim":
            return [self.claim(int(words[1]))]
        if words[0] == "finish":
            return [self.finish(int(words[1]))]
        if words[0] == "run":
            claimed = self.claim(int(words[1]))
            return [claimed] if claimed.startswith("-") else [claimed, self.finish(int(words[1]))]
        return [self.call(words)]

    def end(self) -> None:
        """Brings back the jobs that the script left."""
        for worker in list(self.jobs):
            self.finish(worker)


class WorkedScripts(unittest.TestCase):
    """Each script of examples/ tells what its output says."""

    def test_each_script(self):
        scripts = sorted(EXAMPLES.glob("*.script"))
        self.assertTrue(scripts)
        for path in scripts:
            with self.subTest(path.name), sirgumba.Device() as device:
                script = Script(device)
                printed = [text for line in path.read_text().splitlines() for text in script.line(line)]
                script.end()
                self.assertEqual(printed, path.with_suffix(".out").read_text().splitlines())


class Refusals(unittest.TestCase):
    """What the device and the library refuse is raised, each by its kind."""

    def test_an_errno_is_that_of_the_os_error(self):
        with sirgumba.Device(1) as device:
            with self.assertRaises(OSError) as raised:
                device.slot(0).poll()
            self.assertEqual(raised.exception.errno, errno.ENOTTY)

    def test_numbers_out_of_range(self):
        for slots in (0, 1025, -1, 2**32):
            with self.subTest(slots), self.assertRaises(ValueError):
                sirgumba.Device(slots)
        with sirgumba.Device(1) as device:
            with self.assertRaises(ValueError):
                device.slot(1).open("enc")
            with self.assertRaises(ValueError):
                device.claim(16)

    def test_a_freed_device(self):
        device = sirgumba.Device(1)
        device.free()
        device.free()
        with self.assertRaises(sirgumba.LibraryError):
            device.answer(b"\x17\0\0\0\0")

    def test_a_body_of_no_bytes(self):
        with sirgumba.Device(1) as device, self.assertRaises(sirgumba.LibraryError):
            device.answer(b"")


class Jobs(unittest.TestCase):
    """Jobs that are given out, by the copier."""

    def copier(self, device: sirgumba.Device, number: int) -> sirgumba.Slot:
        slot = device.open(number, "copy")
        for side in ("out", "cap"):
            slot.request_buffers(side, 1)
        slot.queue_output(0, b"\x01\x02", stamp=3)
        slot.queue_capture(0)
        for side in ("out", "cap"):
            slot.stream_on(side)
        return slot

    def test_calls_are_answered_while_a_job_is_out(self):
        with sirgumba.Device(2) as device:
            slot = self.copier(device, 0)
            job = device.claim()
            with self.assertRaises(sirgumba.Blocked):
                slot.take("cap", wait=True)
            other = self.copier(device, 1)
            self.assertEqual(device.run(1), (1, "copied"))
            self.assertEqual(other.take("cap").payload, b"\x01\x02")
            with self.assertRaises(sirgumba.LibraryError):
                device.claim(0)
            job.run()
            self.assertEqual(device.finish(job), "copied")
            self.assertEqual(slot.take("cap").payload, b"\x01\x02")

    def test_a_device_with_a_job_out_is_not_freed(self):
        device = sirgumba.Device(1)
        self.copier(device, 0)
        job = device.claim()
        with self.assertRaises(RuntimeError):
            device.free()
        device.finish(job)
        device.free()

    def test_jobs_run_beside_each_other(self):
        with sirgumba.Device(16) as device:
            slots = [self.copier(device, number) for number in range(16)]
            jobs = [device.claim(worker) for worker in range(16)]
            threads = [threading.Thread(target=job.run) for job in jobs]
            for thread in threads:
                thread.start()
            for thread in threads:
                thread.join()
            self.assertEqual([device.finish(job) for job in jobs], ["copied"] * 16)
            self.assertEqual({slot.take("cap").payload for slot in slots}, {b"\x01\x02"})


if __name__ == "__main__":
    unittest.main()
