"""Follows one context through a story: which buffer is where, and when LAST and events come.

A script's output does not say which buffers a job has, nor when an event is raised. This follows the rules of docs/DEVICE.md
as far as the stories need them, and compares itself with every buffer and event that is told: a story that goes otherwise is
refused. It is no definition of the device, and nothing of it is proved.
"""
from in_short import EVENTS, flags, is_one_frame, payload

FILLED = ("copied", "encoded", "picture", "damaged", "fault")


class Queue:
    """The buffers of one queue that are not with the user: those ready and those done, each with what it carries."""

    def __init__(self):
        self.ready, self.done, self.streams = [], [], False

    def give_back(self):
        """The buffers that a StreamOff gives back to the user."""
        back = [index for index, _ in self.done + self.ready]
        self.ready, self.done, self.streams = [], [], False
        return back


class Context:
    """What the stories need to know of a context. `apply` takes a step and tells what came of it, as pairs of words."""

    def __init__(self):
        self.kind, self.geometry, self.phase, self.cause = "", False, "Run", ""
        self.queues = {"out": Queue(), "cap": Queue()}
        self.mark, self.ordinal = None, 0
        self.subscribed, self.pending, self.raised = set(), [], 0
        self.job, self.told = None, []

    def apply(self, step):
        self.told = []
        for line in step.printed:
            if line[1] == "finish" and line[0] != "-":
                self.finish(line[2])
            elif line[1] == "claim" and line[0] != "-":
                self.claim()
        if step.done and step.words[0].isdigit():
            side = step.words[2] if len(step.words) > 2 else ""
            getattr(self, "after_" + step.verb, lambda *_: None)(side, step)
        self.settle()
        return self.told

    def tell(self, event):
        if event in self.subscribed:
            self.pending.append([event, str(self.raised)])
            self.raised += 1
            self.told.append(("event", f"the event {EVENTS[event]} is raised"))

    def sources(self):
        """The OUTPUT buffers that are ready, before the mark if there is one."""
        return [one for one in self.queues["out"].ready if self.mark is None or one[1][0] < self.mark]

    def settle(self):
        cap = self.queues["cap"]
        if self.phase == "Run" and self.mark is not None and cap.streams and not self.job and not self.sources():
            self.phase, self.cause = "Owe", "drain"
        if self.phase == "Owe" and cap.ready:
            index, _ = cap.ready.pop(0)
            cap.done.append((index, True))
            self.told.append(("last", f"on CAPTURE buffer {index} is done, empty, with LAST"))
            self.last_is_there()

    def last_is_there(self):
        self.phase = "Last"
        if self.cause == "drain":
            self.tell("2")

    # Jobs

    def claim(self):
        out, cap = self.queues["out"], self.queues["cap"]
        probe = self.kind == "dec" and not self.geometry
        self.job = out.ready.pop(0), None if probe else cap.ready.pop(0)
        self.told.append(("claim", self.indices()))

    def indices(self):
        """The buffers of the job: that of OUTPUT, and that of CAPTURE if it has one."""
        source, target = self.job
        return source[0], None if target is None else target[0]

    def finish(self, word):
        (source, (ordinal, data)), target = self.job
        out, cap = self.queues["out"], self.queues["cap"]
        indices, self.job = self.indices(), None
        if word in ("picture", "damaged") and not is_one_frame(data):
            raise SystemExit("a story has one frame in each OUTPUT buffer of a decoder")
        emptied, filled = word != "changed", word in FILLED
        if emptied:
            out.done.append((source, False))
        else:
            out.ready.insert(0, (source, (ordinal, data)))
        last = emptied and filled and self.mark is not None and not self.sources()
        if filled:
            cap.done.append((target[0], last))
        elif target:
            cap.ready.insert(0, target)
        self.told.append(("finish", (word, indices, emptied, filled, last)))
        if last:
            self.phase, self.cause = "Last", "drain"
            self.last_is_there()
        if word == "changed":
            self.geometry = True
            self.tell("5")
            if cap.streams:
                self.phase, self.cause = "Owe", "change"

    # Calls that were done

    def after_open(self, kind, _):
        self.kind = kind

    def after_sfmt(self, side, _):
        self.geometry = self.geometry and side != "out"

    def after_req(self, side, _):
        streams = self.queues[side].streams
        self.queues[side] = Queue()
        self.queues[side].streams = streams
        self.geometry = self.geometry and side != "out"

    def after_q(self, side, step):
        data = payload(step.words[5]) if side == "out" else b""
        self.queues[side].ready.append((int(step.words[3]), (self.ordinal, data)))
        self.ordinal += side == "out"

    def after_dq(self, side, step):
        index, last = self.queues[side].done.pop(0)
        if index != int(step.answer[1]) or last != ("LAST" in flags(step.answer[3])):
            raise SystemExit(f"by the rules buffer {index} comes here, and not: {' '.join(step.printed[0][:6])}")
        if side == "cap" and self.phase == "Last" and not self.queues["cap"].done:
            self.phase = "Stopped"
            self.mark = self.mark if self.cause == "change" else None

    def after_on(self, side, _):
        self.queues[side].streams = True

    def after_off(self, side, _):
        streamed = self.queues[side].streams
        back = self.queues[side].give_back()
        if back:
            self.told.append(("back", back))
        by_change = self.phase != "Run" and self.cause == "change"
        if side == "out" or (streamed and not by_change):
            self.mark = None
        if (side == "out" and not by_change) or (side == "cap" and streamed):
            self.phase, self.cause = "Run", ""

    def after_sub(self, event, _):
        self.subscribed.add(event)

    def after_unsub(self, event, _):
        self.subscribed.discard(event)
        self.pending = [one for one in self.pending if one[0] != event]

    def after_ev(self, _, step):
        if not self.pending or self.pending.pop(0) != step.answer[1:3]:
            raise SystemExit(f"by the rules another event comes here than: {' '.join(step.printed[0])}")

    def command(self, command):
        if not all(queue.streams for queue in self.queues.values()):
            return
        stopped = self.phase == "Stopped"
        if command == "1" and not (stopped and self.cause == "drain"):
            self.mark = self.ordinal
        elif command == "0" and stopped:
            self.phase, self.cause = "Run", ""

    def after_dcmd(self, command, _):
        self.command(command)

    def after_ecmd(self, command, _):
        self.command(command)
