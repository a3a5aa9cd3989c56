#!/usr/bin/env python3
"""Draws what happened: a lane a task, with when its jobs were released, waited, ran and were done, and what was refused.

  tools/draw.py STREAM OUTPUT [--name NAME]

STREAM has the bytes of a stream, OUTPUT what the runner printed for them; NAME stands on top of the picture, which is SVG, on standard
output. Exit 1, if the stream is refused.

What is drawn comes from tools/timeline.py, where a time stands from tools/axis.py, and how a sign looks from tools/shapes.py.
"""
import sys
from typing import Callable, NamedTuple

import door
import refusals
import report
import shapes
import show
import stream
import timeline
from axis import BAND, NUMBER, STUB, Axis, axis_of
from door import Wrong
from shapes import group, path, text, wide
from timeline import OTHERS, RUNS, together

# pixels
LEAST = 900           # a small picture
EDGE = 14             # around it
SMALL = 11            # height of the legend's texts

FEW, MANY = 8, 20     # tasks: of more, lanes are lower; and above more than a few the axis stands once again


class Lane(NamedTuple):
    """Heights in the picture. Above the bar are notes; a low lane has no bar."""
    top: float
    bar: float        # its top
    end: float        # and its bottom
    bottom: float
    label: float      # the foot of the texts beside it


class Scene(NamedTuple):
    """What is drawn, and where."""
    line: timeline.Timeline
    size: int         # of the texts
    columns: list     # heading and right end of each column beside the lanes
    axis: Axis
    lanes: dict       # by task; OTHERS only if something stands in it
    top: float        # of the lanes
    bottom: float
    width: float      # of the picture


# ---- the axis

def axis_shapes(scene, y):
    """The clock: a line with a tick and a number at each time, small ticks between them, and the breaks."""
    places, events = scene.axis.places, together(scene.line.events, timeline.at)
    yield text(scene.columns[-1][1], y + 4, "clock", scene.size, "dim end")
    yield path("axis", ("M", places[0] - 6, y), ("H", scene.width - EDGE))
    feet = {time: y + 5 + (NUMBER + 2) * row for time, row in scene.axis.rows.items()}
    yield from (path("axis" if foot == y + 5 else "minor", ("M", places[time], y), ("V", foot)) for time, foot in feet.items())
    for time, foot in feet.items():
        title = "\n\n".join([f"clock {time}", *map(details, events.get(time, ()))])
        yield group(title, text(places[time], foot + NUMBER, str(time), NUMBER, "number" + " dim" * (time not in events)))
    for time, after in zip(places, list(places)[1:]):
        between, ticks = places[after] - places[time], after - time
        if time in scene.axis.breaks:
            yield shapes.zigzag(places[time] + between / 2, y)
        elif between >= 5 * ticks:
            yield from (path("minor", ("M", places[time] + between * tick / ticks, y), ("v", 3)) for tick in range(1, ticks))


# ---- the lanes

def details(event):
    """What there is to know of an event."""
    reading, *task = event.item.numbers
    *columns, margin = event.line
    head = f"event {event.line.count}, reading {reading}" + "".join(f", task {number}" for number in task)
    line = " ".join(["E", *map(str, columns), "-" if margin is None else str(margin)])
    return f"{head}\n{line}\n{show.event_words(event.item.word, event.line)}"


def span_title(span):
    doing = "runs" if span.level == RUNS else f"waits at level {span.level}"
    return f"task {span.job.task} {doing} from {span.begin} to {span.end}" + ", late" * span.late + ", not done" * span.open


def bars(scene):
    """When jobs run and wait; the level stands again behind each band."""
    places, most = scene.axis.places, max(task.plan.first for task in scene.line.tasks)
    for span in scene.line.spans:
        x, end, lane = places[span.begin], places[span.end], scene.lanes[span.job.task]
        fill, height = shapes.shade(span.level, most) if span.level != RUNS else None, lane.end - lane.bar
        parts = [shapes.bar(fill, span.late, x, lane.bar, end - x, height)] if x < end else []
        parts += [shapes.bar(fill, span.late, end, lane.bar, STUB, height, " open")] if span.open else []
        starts = [x] + [band + BAND for band in scene.axis.bands if x < band < end]
        parts += [text(start + 4, lane.label, str(span.level), scene.size) for start in starts if fill]
        yield group(span_title(span), *parts)


def arrows(scene):
    """Each job's deadline and release."""
    places = scene.axis.places
    for job in scene.line.jobs:
        lane = scene.lanes[job.task]
        title = f"task {job.task}: deadline {job.deadline} of the job that was released at {job.release.time}"
        yield group(title, shapes.deadline(places[job.deadline] - 1, lane.bar, lane.end))
        yield group(details(job.release), shapes.release(places[job.release.time] + 0.8, lane.bar, lane.end))


def pole(kind, x, y, lane):
    """From a note down to its time. A refused call changes nothing: its pole does not cross the bar."""
    return path(f"pole {kind}", ("M", x - (kind in ("done", "late")), y + 1), ("V", lane.bar if kind == "refused" else lane.end))


def notes(scene):
    """Side by side, where several stand in one lane at one time."""
    for (number, time), here in together(scene.line.notes, lambda note: (note.lane, note.time)).items():
        lane, x = scene.lanes[number], scene.axis.places[time]
        y = lane.top + scene.size + 1
        yield from (pole(kind, x, y, lane) for kind in dict.fromkeys(note.kind for note in here))
        for note in here:
            title = f"task {number}: level {note.text}\n" * (note.kind == "move") + details(note.event)
            yield group(title, shapes.note(note.kind, note.event.item.word, note.text, x, y, scene.size))
            x += shapes.room(note.kind, note.text, scene.size)


def stripes(scene):
    """What lies under the bars: every other lane, and a line at each time."""
    for lane in list(scene.lanes.values())[::2]:
        yield shapes.box(EDGE, lane.top, scene.width - 2 * EDGE, lane.bottom - lane.top, "lane")
    for x in scene.axis.places.values():
        yield path("grid", ("M", x, scene.top), ("V", scene.bottom))


def labels(scene):
    """Task, C, D and T beside the lanes; the task again in each band."""
    size, lanes, tasks = scene.size, scene.lanes, scene.line.tasks
    yield from (text(right, scene.top - 5, heading, size, "dim end") for heading, right in scene.columns)
    for band in scene.axis.bands:
        yield shapes.box(band, scene.top, BAND, scene.bottom - scene.top, "band")
        yield from (text(band + BAND / 2, lanes[task.number].label, str(task.number), size, "bold mid") for task in tasks)
    for task in tasks:
        title = f"task {task.number}: {show.task_words(task[1:4])}\n{show.plan_words(task.plan)}"
        cells = zip(task, scene.columns, ("bold end", "end", "end", "end"))
        yield group(title, *(text(right, lanes[task.number].label, str(number), size, style) for number, (_, right), style in cells))
    if OTHERS in lanes:
        yield text(EDGE + 6, lanes[OTHERS].label, "other calls", size)


# ---- the legend

def refused_calls(line):
    """Each word and number that was refused, in order of the numbers."""
    found = {(event.line.answer, event.item.word) for event in line.events if event.line.answer}
    return [(word, number, refusals.numbered(number).when.removeprefix(f"{word}: ")) for number, word in sorted(found)]


class Sample(NamedTuple):
    """A line of the legend."""
    width: float
    shape: Callable   # at x; y is the foot of the words
    words: str


def bar_sample(level, late, more, words):
    fill = None if level == RUNS else shapes.shade(level, 3)
    number = "" if level == RUNS else str(level)
    return Sample(24, lambda x, y: shapes.bar(fill, late, x, y - 10, 24, 13, more) + text(x + 4, y, number, SMALL), words)


def arrow_sample(shape, words):
    return Sample(8, lambda x, y: shape(x + 4, y - 4, y - 1), words)


def note_sample(kind, written, words, word=""):
    return Sample(shapes.room(kind, written, SMALL), lambda x, y: shapes.note(kind, word, written, x + 6, y, SMALL), words)


def break_sample(words):
    return Sample(18, lambda x, y: path("axis", ("M", x, y - 4), ("H", x + 18)) + shapes.zigzag(x + 9, y - 4), words)


def samples(scene):
    """Of what stands in the picture."""
    line, kinds = scene.line, {note.kind for note in scene.line.notes}
    found = [
        (any(span.level == RUNS for span in line.spans), bar_sample(RUNS, False, "", "runs")),
        (any(span.level != RUNS for span in line.spans), bar_sample(2, False, "", "waits at level 2")),
        (any(span.late for span in line.spans), bar_sample(RUNS, True, "", "late")),
        (any(span.open for span in line.spans), bar_sample(RUNS, False, " open", "not done at the end")),
        (line.jobs, arrow_sample(shapes.release, "release")),
        (line.jobs, arrow_sample(shapes.deadline, "deadline")),
        ("done" in kinds, note_sample("done", "+1", "done, 1 tick before its deadline")),
        ("late" in kinds, note_sample("late", "-1", "done, 1 tick late")),
        ("move" in kinds, note_sample("move", "3→2", "promotion from level 3 to 2")),
        ("clock" in kinds, note_sample("clock", "", "clock call")),
        (scene.axis.breaks, break_sample("a step drawn shorter"))]
    refused = [note_sample("refused", str(number), f"{word} refused: {when}", word) for word, number, when in refused_calls(line)]
    return [sample for here, sample in found if here] + refused


def legend(scene, y):
    """The samples, row by row, and where they end."""
    drawn, x = [], EDGE
    for sample in samples(scene):
        needed = sample.width + 5 + wide(sample.words, SMALL)
        if x > EDGE and x + needed > LEAST - EDGE:
            x, y = EDGE, y + 18
        drawn += [sample.shape(x, y + 12), text(x + sample.width + 5, y + 12, sample.words, SMALL)]
        x += needed + 14
    return drawn, y + 18 if drawn else y


# ---- the picture

def summary(line, found):
    """The counts in words; those that tell of trouble stand out."""
    refused = sum(1 for event in line.events if event.line.answer)
    late = len({span.job for span in line.spans if span.late})
    return [(show.many(len(line.tasks), "task"), False), (show.many(len(line.jobs), "job"), False), (f"{late} late", late > 0),
            (show.many(len(line.events), "event"), False), (f"{refused} refused", refused > 0),
            (f"{show.many(found.total, 'move')} of at most {found.bound}", False)]


def head(counts, name):
    """The name and the counts, and where they end."""
    y, drawn = EDGE + 12, []
    if name:
        drawn, y = [text(EDGE, y, name, 14, "bold")], y + 19
    x = EDGE
    for words, stands_out in counts:
        drawn.append(text(x, y, words, 12, "late bold" if stands_out else ""))
        x += wide(words, 12) + 14
    return drawn, y + 10


def columns_of(tasks, size):
    """Heading and right end of each column beside the lanes."""
    found, x = [], EDGE + 4
    for at, heading in enumerate(("task", "C", "D", "T")):
        x += max(wide(str(cell), size) for cell in (heading, *(task[at] for task in tasks))) + (10 if at else 0)
        found.append((heading, x))
    return found


def lanes_of(line, size, bar, top):
    """One below the other; where there are many, those without a job are low."""
    busy, others = {job.task for job in line.jobs}, any(note.lane == OTHERS for note in line.notes)
    lanes = {}
    for number in [task.number for task in line.tasks] + [OTHERS] * others:
        if number == OTHERS or (len(line.tasks) > FEW and number not in busy):
            bottom = top + size + 8
            lanes[number] = Lane(top, bottom, bottom, bottom, top + size + 1)
        else:
            above = top + size + 11
            lanes[number] = Lane(top, above, above + bar, above + bar + 8, above + bar / 2 + 0.36 * size)
        top = lanes[number].bottom
    return lanes


def scene_of(line, name, top):
    """Lanes below the top, the more the lower, and the axis above them where they are many."""
    count = len(line.tasks)
    size, bar = (11, 18) if count <= FEW else (10, 14) if count <= MANY else (9, 11)
    columns = columns_of(line.tasks, size)
    axis = axis_of(line, size, columns[-1][1] + 24)
    top += size + 8 + (axis.height + 6 if count > FEW else 0)
    lanes = lanes_of(line, size, bar, top)
    width = max(LEAST, axis.right + EDGE, wide(name, 14) + 2 * EDGE)
    return Scene(line, size, columns, axis, lanes, top, max(lane.bottom for lane in lanes.values()), width)


def opening(width, height, title):
    """The head of the file, and a white page: the picture may stand on a dark one."""
    size = 'width="{0}" height="{1}" viewBox="0 0 {0} {1}"'.format(shapes.px(width), shapes.px(height))
    yield f'<svg xmlns="http://www.w3.org/2000/svg" {size} role="img"><title>{shapes.clean(title)}</title>'
    yield f"<style>{shapes.STYLE}</style>{shapes.HATCH}"
    yield shapes.box(0.5, 0.5, width - 1, height - 1, "page", ' rx="6"')


def picture(line, found, name):
    """The lines of an SVG file."""
    counts = summary(line, found)
    title, top = head(counts, name)
    scene = scene_of(line, name, top)
    key, bottom = legend(scene, scene.bottom + 14 + scene.axis.height)
    yield from opening(scene.width, bottom + 8, ", ".join([name] * bool(name) + [words for words, _ in counts]))
    for part in (title, stripes(scene), bars(scene), arrows(scene), notes(scene), labels(scene)):
        yield from part
    if len(line.tasks) > FEW:
        yield from axis_shapes(scene, top + 6)
    yield from axis_shapes(scene, scene.bottom + 7)
    yield from key
    yield "</svg>"


def no_picture(number, given):
    """Says why: the stream is refused."""
    refusal = refusals.numbered(number)
    kind = "offset" if refusal.given.startswith("offset") else "task"
    door.say(f"refused {number}" + (f" at {kind} {given}" if given or kind == "offset" else "") + f": {refusal.when}")
    return 1


def main(arguments):
    if len(arguments) not in (2, 4) or arguments[2:3] not in ([], ["--name"]):
        raise Wrong("usage: tools/draw.py STREAM OUTPUT [--name NAME]")
    items, found = stream.items(door.content(arguments[0])), report.read(door.read(arguments[1]))
    if found.refusal:
        return no_picture(*found.refusal)
    for line in picture(timeline.timeline(items, found), found, door.called("".join(arguments[3:]))):
        print(line)
    return 0


if __name__ == "__main__":
    sys.exit(door.main(main))
