#!/usr/bin/env python3
"""A model of the paper that stands apart from the kernel: what the runner prints for a stream of records.

  tools/model.py < STREAM        the runner's whole output, on standard output

It has no lists, links or maps. The unfinished jobs are one Python list, by deadline and of equals by release call: the first runs, the
others wait. Levels are counted from the table, and the moves of a call are the waiting jobs whose level fell.
"""
import bisect
import struct
import sys
from typing import NamedTuple, Optional

LONGEST = 65536       # bytes of input
MOST = 64             # tasks
LARGEST = 2 ** 30     # C, D and T
LAST_TICK = 2 ** 40   # of the clock
SIZES = {b"TK": 14, b"RL": 7, b"DN": 7, b"TM": 6}


class Refused(Exception):
    """A number of the paper's table, and the task or offset that is given with it."""

    def __init__(self, number, given=0):
        super().__init__(number, given)
        self.number, self.given = number, given


class Task(NamedTuple):
    c: int
    d: int
    t: int


class Event(NamedTuple):
    mark: bytes
    reading: int
    task: Optional[int]   # a clock call has none


class Job(NamedTuple):
    """An unfinished job. Jobs compare in the order of demand 2: deadline, then the number of the release call."""
    deadline: int
    call: int
    task: int


# ---- the stream

def event(record):
    task = record[6] if len(record) == 7 else None
    return Event(record[:2], int.from_bytes(record[2:6], "little"), task)


def records(stream):
    """The tasks and the events; or 14, then at each record 12 before 13."""
    if len(stream) > LONGEST:
        raise Refused(14, LONGEST)
    tasks, events, at = [], [], 0
    while at < len(stream):
        mark = stream[at:at + 2]
        if mark not in SIZES or at + SIZES[mark] > len(stream):
            raise Refused(12, at)
        record = stream[at:at + SIZES[mark]]
        if mark != b"TK":
            events.append(event(record))
        elif events:
            raise Refused(13, at)
        else:
            tasks.append(Task(*struct.unpack("<III", record[2:])))
        at += len(record)
    return tasks, events


# ---- the table

def load(table):
    return sum(1000 * task.c // task.t for task in table)


def test_table(table):
    """The count, then each task in turn (range, then C <= D <= T), then the load."""
    if not 1 <= len(table) <= MOST:
        raise Refused(1, 0)
    for number, task in enumerate(table, 1):
        if not all(1 <= value <= LARGEST for value in task):
            raise Refused(2, number)
        if not task.c <= task.d <= task.t:
            raise Refused(3, number)
    if load(table) > 1000:
        raise Refused(4, 0)


def level(table, remaining):
    return 1 + sum(1 for task in table if task.d < remaining)


def plan(table, deadline):
    """Point and level for each distinct smaller deadline, from the largest down."""
    smaller = sorted({task.d for task in table if task.d < deadline}, reverse=True)
    return [(deadline - e, level(table, e)) for e in smaller]


# ---- the calls

class Kernel:
    def __init__(self, table, reading):
        self.table = table
        self.clock = 0
        self.reading = reading
        self.calls = 0          # refused ones counted
        self.released = {}      # the time of each task's last accepted release
        self.unfinished = []    # in the order of Job

    def running(self):
        """The task that runs, 0 if nobody does."""
        return self.unfinished[0].task if self.unfinished else 0

    def waiting(self):
        return self.unfinished[1:]

    def listing(self):
        """Level and task of each waiting job."""
        return [(level(self.table, job.deadline - self.clock), job.task) for job in self.waiting()]

    def time_of(self, reading):
        """The clock at a reading; or 5, then 6."""
        elapsed = (reading - self.reading) % 2 ** 32
        if elapsed >= 2 ** 31:
            raise Refused(5)
        if self.clock + elapsed > LAST_TICK:
            raise Refused(6)
        return self.clock + elapsed

    def test_task(self, call, time):
        """7, then 8 and 9 for a release, 10 for a done."""
        if not 1 <= call.task <= len(self.table):
            raise Refused(7)
        if call.mark == b"DN":
            if call.task != self.running():
                raise Refused(10)
            return
        if any(job.task == call.task for job in self.unfinished):
            raise Refused(8)
        last = self.released.get(call.task)
        if last is not None and time - last < self.table[call.task - 1].t:
            raise Refused(9)

    def moves_to(self, time):
        """How many of the waiting jobs have a lower level then than now."""
        return sum(1 for job in self.waiting() if level(self.table, job.deadline - time) < level(self.table, job.deadline - self.clock))

    def call(self, call):
        """The moves and the margin (None where there is none) of an accepted call. A refused one changes nothing."""
        self.calls += 1
        time = self.time_of(call.reading)
        if call.mark != b"TM":
            self.test_task(call, time)
        moves, margin = self.moves_to(time), None
        self.clock, self.reading = time, call.reading
        if call.mark == b"RL":
            self.released[call.task] = time
            bisect.insort(self.unfinished, Job(time + self.table[call.task - 1].d, self.calls, call.task))
        elif call.mark == b"DN":
            margin = self.unfinished.pop(0).deadline - time
        return moves, margin


# ---- the runner's lines

def plan_line(table, number):
    d = table[number - 1].d
    return " ".join([f"P {number} {level(table, d)}"] + [f"{point}:{to}" for point, to in plan(table, d)])


def event_lines(kernel, events):
    """The E lines, then the S line."""
    moves_so_far = bound = 0
    for count, call in enumerate(events, 1):
        number, moves, margin = 0, 0, None
        try:
            moves, margin = kernel.call(call)
        except Refused as refused:
            number = refused.number
        moves_so_far += moves
        if call.mark == b"RL" and number == 0:
            bound += level(kernel.table, kernel.table[call.task - 1].d) - 1
        yield f"E {count} {number} {kernel.running()} {moves} {len(kernel.waiting())} {'-' if margin is None else margin}"
    yield f"S {moves_so_far} {bound}"


def lines(stream):
    try:
        table, events = records(stream)
        test_table(table)
    except Refused as refused:
        return [f"X {refused.number} {refused.given}"]
    plans = [plan_line(table, number) for number in range(1, len(table) + 1)]
    return plans + list(event_lines(Kernel(table, 0), events))


def output(stream):
    """The runner's whole output for a stream, as bytes."""
    return "".join(line + "\n" for line in lines(stream)).encode()


def main():
    if len(sys.argv) > 1:
        print("usage: tools/model.py < STREAM", file=sys.stderr)
        return 2
    sys.stdout.buffer.write(output(sys.stdin.buffer.read()))
    return 0


if __name__ == "__main__":
    sys.exit(main())
