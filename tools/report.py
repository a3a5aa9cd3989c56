"""What the runner printed for a stream, read back: its P, E and S lines, or its X line; and each event beside its E line.

  read(text)                     the report; Wrong, if the text is not a runner's output
  events(items, report)          the stream's events, each with its line and its time; Wrong, if stream and report do not belong together
"""
import re
from typing import NamedTuple, Optional

import refusals
import stream
from door import Wrong

NUMBER = "(0|[1-9][0-9]{0,12})"
FORMS = {
    "P": re.compile(f"P {NUMBER} {NUMBER}((?: [0-9]{{1,10}}:[0-9]{{1,3}})*)"),
    "E": re.compile(f"E {NUMBER} {NUMBER} {NUMBER} {NUMBER} {NUMBER} (-|0|-?[1-9][0-9]{{0,12}})"),
    "S": re.compile(f"S {NUMBER} {NUMBER}"),
    "X": re.compile(f"X {NUMBER} {NUMBER}"),
}
STEPS = {"release": 1, "done": -1, "clock": 0}     # what an accepted call does to the number of active jobs
APART = "stream and output do not belong together"


class Plan(NamedTuple):
    """A P line: a job of the task begins at the first level, and is at another one from so many ticks after its release on."""
    task: int
    first: int
    points: tuple     # of (at, level)


class Line(NamedTuple):
    """An E line."""
    count: int
    answer: int       # 0, or the number of the refusal
    running: int      # 0 nobody
    moves: int
    waiting: int
    margin: Optional[int]


class Report(NamedTuple):
    plans: list
    events: list
    total: int        # moves
    bound: int        # of the moves
    refusal: Optional[tuple]    # number, and task or offset, of a stream that is refused; it has nothing else


class Event(NamedTuple):
    """An event record beside its E line."""
    item: stream.Item
    line: Line
    time: int                # of the block's clock after it
    asked: Optional[int]     # the time that its reading stands for; None where the counter went back


# ---- the lines

def matched(line):
    """The columns of a line, as text."""
    found = line[:1] in FORMS and FORMS[line[:1]].fullmatch(line)
    if not found:
        raise Wrong(f"not an output of the runner: {line[:40]!r}")
    return found.groups()


def read_plan(columns):
    task, first, points = columns
    return Plan(int(task), int(first), tuple(tuple(map(int, point.split(":"))) for point in points.split()))


def read_event(columns):
    *numbers, margin = columns
    line = Line(*map(int, numbers), None if margin == "-" else int(margin))
    if line.answer and refusals.numbered(line.answer).given != "nothing":
        raise Wrong(f"not an output of the runner: no event is refused with {line.answer}")
    return line


def read_refusal(columns):
    number, given = map(int, columns)
    if refusals.numbered(number).given == "nothing":
        raise Wrong(f"not an output of the runner: no stream is refused with {number}")
    return number, given


def counted(numbers):
    return numbers == list(range(1, len(numbers) + 1))


def read(text):
    """The report that a runner's output gives."""
    lines = text.removesuffix("\n").split("\n")
    rows = [matched(line) for line in lines]
    kinds = "".join(line[0] for line in lines)
    if kinds == "X":
        return Report([], [], 0, 0, read_refusal(rows[0]))
    plans = [read_plan(row) for row, kind in zip(rows, kinds) if kind == "P"]
    events = [read_event(row) for row, kind in zip(rows, kinds) if kind == "E"]
    if not re.fullmatch("P+E*S", kinds) or not counted([plan.task for plan in plans]) or not counted([line.count for line in events]):
        raise Wrong("not an output of the runner: lines are missing, or in another order")
    return Report(plans, events, *map(int, rows[-1]), None)


# ---- beside the stream

def active(line):
    """How many jobs run or wait."""
    return line.waiting + (line.running > 0)


def plan_fits(tasks, plan):
    """Whether a P line can be that of its task: a point for each distinct smaller deadline, from the largest down."""
    deadline = tasks[plan.task - 1].numbers[1]
    smaller = {task.numbers[1] for task in tasks if task.numbers[1] < deadline}
    return [deadline - at for at, _ in plan.points] == sorted(smaller, reverse=True)


def event_fits(item, line, before, asked):
    """Whether an E line can be that of this event, the line before it being known."""
    if (line.answer == refusals.named("CounterWentBack").number) != (asked is None):
        return False
    if line.answer:
        return line[2:] == (before.running, 0, before.waiting, None)
    if item.word == "done" and item.numbers[1] != before.running:
        return False
    return (line.margin is not None) == (item.word == "done") and active(line) == active(before) + STEPS[item.word]


def belong(tasks, calls, report):
    """Whether a report has a plan for each task, a line for each event, and the sum of their moves."""
    counts = (len(tasks), len(calls)) == (len(report.plans), len(report.events))
    kinds = all(item.word == "task" for item in tasks) and all(item.word in stream.EVENTS for item in calls)
    moves = sum(line.moves for line in report.events)
    return counts and kinds and moves == report.total and all(plan_fits(tasks, plan) for plan in report.plans)


def events(items, report):
    """The events of a stream; none, if it is refused."""
    if report.refusal:
        return []
    tasks, calls = items[:len(report.plans)], items[len(report.plans):]
    if not belong(tasks, calls, report):
        raise Wrong(APART)
    found, clock, last, before = [], 0, 0, Line(0, 0, 0, 0, 0, None)
    for item, line in zip(calls, report.events):
        elapsed = (item.numbers[0] - last) % 2 ** 32
        asked = clock + elapsed if elapsed < 2 ** 31 else None
        if not event_fits(item, line, before, asked):
            raise Wrong(APART)
        if line.answer == 0:
            clock, last = asked, item.numbers[0]
        found.append(Event(item, line, clock, asked))
        before = line
    return found
