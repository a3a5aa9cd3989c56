#!/usr/bin/env python3
"""Tells in words what the runner printed for a stream.

  tools/show.py STREAM OUTPUT [--text TEXT]

STREAM has the bytes of a stream, OUTPUT what the runner printed for them, TEXT the readable text that they came from: with it, a stream
that is refused is told by the text's line. Beside each of the runner's lines stands what it says; beside an E line first the event's
reading and task. Exit 0; 1 where the stream is refused; 2 and one line why, where the three do not belong together.
"""
import sys
from typing import NamedTuple, Optional

import door
import refusals
import report
import stream
from door import Wrong

WIDEST = 36     # lines of the runner that are longer stand out of their column
GAP = " " * 3


class Source(NamedTuple):
    data: bytes
    items: list
    text: Optional[str]


def many(count, word):
    return f"{count} {word}{'s' * (count != 1)}"


# ---- the table

def task_words(numbers, widths=(0, 0, 0)):
    return ", ".join(f"{name} {value:>{width}}" for name, value, width in zip("CDT", numbers, widths))


def plan_words(plan):
    """The first level, then each level with its point; the unit is named once."""
    points = [f"{level} after {many(at, 'tick') if i == 0 else at}" for i, (at, level) in enumerate(plan.points)]
    return ", ".join([f"level {plan.first}"] + points)


def plans_told(plans, items):
    """What each P line says."""
    tasks = [item.numbers for item in items if item.word == "task"]
    widths = [max(len(str(value)) for value in column) for column in zip(*tasks)]
    most = len(str(len(tasks)))
    return [f"task {plan.task:>{most}}  {task_words(task, widths)}: {plan_words(plan)}" for plan, task in zip(plans, tasks)]


# ---- the events

def margin_words(margin):
    if margin == 0:
        return "at its deadline"
    return f"{many(margin, 'tick')} before its deadline" if margin > 0 else f"{many(-margin, 'tick')} LATE"


def queue_words(line):
    """Who runs, and how many wait; where nobody runs, nobody waits."""
    if line.running == 0:
        return "nobody runs"
    waiting = "nobody waits" if line.waiting == 0 else "1 waits" if line.waiting == 1 else f"{line.waiting} wait"
    return f"task {line.running} runs, {waiting}"


def event_words(word, line):
    if line.answer:
        when = refusals.numbered(line.answer).when
        return f"{word}: refused {line.answer}, {when.removeprefix(word + ': ')}"
    margin = [] if line.margin is None else [margin_words(line.margin)]
    moves = [many(line.moves, "move")] if line.moves else []
    return f"{word}: " + "; ".join(margin + [queue_words(line)] + moves)


def events_told(events):
    """What each E line says, behind reading and task of its event."""
    rows = [tuple(map(str, event.item.numbers)) for event in events]
    readings = max((len(row[0]) for row in rows), default=0)
    tasks = max((len(row[1]) for row in rows if len(row) > 1), default=0)
    calls = [f"{row[0]:>{readings}} {''.join(row[1:]):>{tasks}}" for row in rows]
    return [f"{call}  {event_words(event.item.word, event.line)}" for call, event in zip(calls, events)]


# ---- a stream that is refused

def at_line(source, offset):
    return f" (line {stream.line_of(source.text, offset)} of the text)" if source.text is not None else ""


def at_offset(source, refusal, offset):
    """The offset at which a stream is refused; Wrong, if nothing is there that can be refused so."""
    wanted = {"Unreadable": "bytes", "TaskBehindEvent": "task"}.get(refusal.name)
    if offset >= len(source.data) or wanted and (offset, wanted) not in [(item.offset, item.word) for item in source.items]:
        raise Wrong(report.APART)
    return f", at offset {offset}{at_line(source, offset)}"


def at_task(source, number):
    """The task for which a table is refused; nothing for task 0."""
    tasks = [item for item in source.items if item.word == "task"]
    if number > len(tasks):
        raise Wrong(report.APART)
    if number == 0:
        return ""
    task = tasks[number - 1]
    return f", task {number} with {task_words(task.numbers)}{at_line(source, task.offset)}"


def refusal_told(source, number, given):
    refusal = refusals.numbered(number)
    place = at_offset(source, refusal, given) if refusal.given.startswith("offset") else at_task(source, given)
    return f"refused {number}: {refusal.when}{place}"


# ---- all lines

def told(source, found):
    """What each of the runner's lines says, in their order."""
    if found.refusal:
        return [refusal_told(source, *found.refusal)]
    events = events_told(report.events(source.items, found))
    return plans_told(found.plans, source.items) + events + [f"{many(found.total, 'move')} in all, of at most {found.bound}"]


def source_of(name, text_name):
    data = door.content(name)
    text = None if text_name is None else door.read(text_name)
    if text is not None and stream.assemble(text, door.called(text_name)) != data:
        raise Wrong(f"{door.called(text_name)}: not the text of this stream")
    return Source(data, stream.items(data), text)


def main(arguments):
    if len(arguments) not in (2, 4) or arguments[2:3] not in ([], ["--text"]):
        raise Wrong("usage: tools/show.py STREAM OUTPUT [--text TEXT]")
    source = source_of(arguments[0], arguments[3] if len(arguments) == 4 else None)
    printed = door.read(arguments[1])
    found = report.read(printed)
    lines = printed.splitlines()
    width = max((len(line) for line in lines if len(line) <= WIDEST), default=0)
    for line, words in zip(lines, told(source, found)):
        print(f"{line:<{width}}{GAP}{words}")
    return 1 if found.refusal else 0


if __name__ == "__main__":
    sys.exit(door.main(main))
