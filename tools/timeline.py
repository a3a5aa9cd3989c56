"""What became of each task's jobs, from a stream and what the runner printed for it: the data that tools/draw.py draws.

  timeline(items, report)        Wrong, if stream and report do not belong together

All of it comes from the runner's lines: who runs from the E lines, levels from the P lines. What can be counted here is compared with
the number that the runner gives (moves, number waiting, margin), so that nothing is shown that it did not say.
"""
import bisect
from typing import NamedTuple

import report as printed
from door import Wrong
from report import APART

RUNS = 0              # stands where a waiting job has its level
OTHERS = 0            # the lane of clock calls, and of tasks that are not in the table


class Task(NamedTuple):
    number: int
    c: int
    d: int
    t: int
    plan: printed.Plan


class Job(NamedTuple):
    task: int
    release: printed.Event
    deadline: int


class Span(NamedTuple):
    """A time in which a job runs, or waits at one level; all of it lies before the job's deadline, or all of it past."""
    job: Job
    begin: int
    end: int
    level: int        # at which it waits, or RUNS
    late: bool
    open: bool        # the stream ends, the job does not


class Note(NamedTuple):
    """What is written in a lane at a time."""
    lane: int         # a task, or OTHERS
    time: int
    kind: str         # of an event: done, late, clock or refused; of a waiting job whose level fell at it: move
    event: printed.Event
    text: str


class Timeline(NamedTuple):
    tasks: list
    events: list
    jobs: list
    spans: list
    notes: list       # in the order of the events


def demand(fact):
    if not fact:
        raise Wrong(APART)


def together(found, key):
    """Those with one key, by it."""
    groups = {}
    for each in found:
        groups.setdefault(key(each), []).append(each)
    return groups


def at(event):
    """The time at which an event stands: that of its reading, or the clock where the counter went back."""
    return event.time if event.asked is None else event.asked


def level(task, age):
    """That of a job of the task, so many ticks after its release."""
    passed = bisect.bisect_right(task.plan.points, age, key=lambda point: point[0])
    return task.plan.points[passed - 1][1] if passed else task.plan.first


def event_notes(event, count):
    """That of one event, in a table of so many tasks; an accepted release has none."""
    word, answer, margin = event.item.word, event.line.answer, event.line.margin
    task = OTHERS if word == "clock" else event.item.numbers[1]
    lane = task if task <= count else OTHERS
    if answer:
        return [Note(lane, at(event), "refused", event, str(answer))]
    if word == "done":
        return [Note(lane, event.time, "late" if margin < 0 else "done", event, f"{margin:+d}" if margin else "0")]
    return [Note(lane, event.time, "clock", event, "")] if word == "clock" else []


class Walk:
    """Goes from one accepted event to the next."""

    def __init__(self, tasks):
        self.tasks = tasks
        self.active = {}        # the job of each task that has one
        self.doing = {}         # of each active job, by task: a level or RUNS, and since when
        self.clock = self.running = 0
        self.jobs, self.spans, self.notes = [], [], []

    def level(self, number, time):
        return level(self.tasks[number - 1], time - self.active[number].release.time)

    def close(self, number, end, open_end=False):
        """Ends what the task's job is doing: a span, or one on each side of its deadline."""
        job, (doing, begin) = self.active[number], self.doing.pop(number)
        cuts = [begin, job.deadline, end] if begin < job.deadline < end else [begin, end]
        for first, last in zip(cuts, cuts[1:]):
            if first < last or open_end:
                self.spans.append(Span(job, first, last, doing, last > job.deadline, open_end and last == end))

    def promote(self, event):
        """The moves: the waiting jobs whose level is lower at the event's time than at the clock."""
        waiting = [number for number in self.active if number != self.running]
        levels = [(number, self.level(number, self.clock), self.level(number, event.time)) for number in waiting]
        moves = [Note(number, event.time, "move", event, f"{before}→{after}") for number, before, after in levels if after < before]
        demand(len(moves) == event.line.moves)
        self.notes += moves
        self.clock = event.time

    def release(self, event, number):
        demand(1 <= number <= len(self.tasks) and number not in self.active)
        self.active[number] = Job(number, event, event.time + self.tasks[number - 1].d)
        self.jobs.append(self.active[number])

    def done(self, event, number):
        demand(number in self.active and event.line.margin == self.active[number].deadline - event.time)
        self.close(number, event.time)
        del self.active[number]

    def dispatch(self, event):
        """The running job is the one that the line names; the others wait at their levels of now."""
        self.running = event.line.running
        demand(self.running in self.active or (self.running == 0 and not self.active))
        demand(len(self.active) - (self.running > 0) == event.line.waiting)
        for number in self.active:
            doing = RUNS if number == self.running else self.level(number, event.time)
            if number in self.doing and self.doing[number][0] != doing:
                self.close(number, event.time)
            self.doing.setdefault(number, (doing, event.time))

    def step(self, event):
        """A refused event changes nothing."""
        if event.line.answer == 0:
            self.promote(event)
            if event.item.word == "release":
                self.release(event, event.item.numbers[1])
            elif event.item.word == "done":
                self.done(event, event.item.numbers[1])
            self.dispatch(event)
        self.notes += event_notes(event, len(self.tasks))


def last_time(events):
    """The last of which the runner says who runs: that of the last accepted event, or of a refused one behind it."""
    accepted = [place for place, event in enumerate(events) if event.line.answer == 0]
    return max(at(event) for event in events[accepted[-1]:]) if accepted else 0


def timeline(items, report):
    records = [item.numbers for item in items if item.word == "task"]
    events = printed.events(items, report)
    walk = Walk([Task(number, *record, plan) for number, (record, plan) in enumerate(zip(records, report.plans), 1)])
    for event in events:
        walk.step(event)
    last = last_time(events)
    for number in walk.active:
        walk.close(number, last, open_end=True)
    return Timeline(walk.tasks, events, walk.jobs, walk.spans, walk.notes)
