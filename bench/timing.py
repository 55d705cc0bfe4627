"""Times commands in rounds, each round every command once, so that what else the machine does meets all alike. Nothing is proved."""
import os
import statistics
import time
from collections import namedtuple

# A command with the file that it reads, and what it gets through: so many pictures, or lines. Where another row stands in
# `before`, that one is timed with it in each round, and what it takes is taken away.
Row = namedtuple("Row", "name command given count before", defaults=(None, None, None))
Spent = namedtuple("Spent", "clock processor")
Times = namedtuple("Times", "least median")


def ran(command, given):
    """The seconds that a command takes from its start to its end, and those of processors, its output going nowhere."""
    source, nowhere = os.open(given or os.devnull, os.O_RDONLY), os.open(os.devnull, os.O_WRONLY)
    ends = [(os.POSIX_SPAWN_DUP2, source, 0), (os.POSIX_SPAWN_DUP2, nowhere, 1)]
    begun = time.perf_counter()
    child = os.posix_spawnp(command[0], command, os.environ, file_actions=ends)
    _, status, used = os.wait4(child, 0)
    spent = Spent(time.perf_counter() - begun, used.ru_utime + used.ru_stime)
    os.close(source)
    os.close(nowhere)
    if status != 0:
        raise SystemExit(f"bench: status {os.waitstatus_to_exitcode(status)} of {' '.join(command)}")
    return spent


def once(row):
    spent = ran(row.command, row.given)
    if row.before is None:
        return spent
    less = ran(row.before.command, row.before.given)
    return Spent(spent.clock - less.clock, spent.processor - less.processor)


def times(seconds):
    return Times(min(seconds), statistics.median(seconds))


def in_rounds(rows, rounds, told=lambda number: None):
    """For each row, in their order, its times by the clock and those of processors."""
    taken = [[] for _ in rows]
    for number in range(rounds):
        for spent, row in zip(taken, rows):
            spent.append(once(row))
        told(number + 1)
    return [Spent(times([one.clock for one in spent]), times([one.processor for one in spent])) for spent in taken]
