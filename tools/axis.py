"""Where the times of a picture stand, from the left to the right, in pixels.

  axis_of(line, size, left)      for a timeline, with notes of this size, from this x on

Between two neighbouring times the distance is proportional to the ticks, with two exceptions. It is more where what is written needs more;
and a step that is far longer than most is drawn shorter, with a break, so that it does not eat the picture.
"""
from typing import NamedTuple

import timeline
from shapes import room, wide
from timeline import RUNS, together

NARROW = 16           # the least distance
WIDE = 240            # the most of a step that is drawn to scale
BROKEN = 56           # of a step that is drawn shorter
FILL = 740            # all steps of a small picture
STUB = 22             # of a bar whose job is not done when the stream ends
AGAIN = 1400          # after so much the task numbers stand again,
BAND = 34             # in a band of this width
NUMBER = 10           # the height of the numbers at the times

FAR = 8               # times the middle step: a longer one is drawn shorter
ROWS = 3              # of numbers


class Axis(NamedTuple):
    places: dict      # the x of each time
    rows: dict        # the row in which the number of each time stands
    breaks: set       # of times: the step behind each is drawn shorter
    bands: list       # the x of each band of task numbers
    right: float

    @property
    def height(self):
        return 10 + (NUMBER + 2) * (max(self.rows.values()) + 1)


# ---- the scale

def times_of(line):
    return sorted({0, *map(timeline.at, line.events), *(job.deadline for job in line.jobs)})


def scale(steps, middle):
    """Pixels a tick: so that the steps fill the picture, though the shortest are drawn longer; never less than the middle step needs."""
    left, ticks = FILL, sum(steps)
    for step in sorted(steps):
        if step * left >= NARROW * ticks:
            break
        left, ticks = left - NARROW, ticks - step
    fill = left / ticks if ticks and left > 0 else 0
    return max(min(fill, WIDE / max(steps)), NARROW / middle)


def distances(steps):
    """The pixels of each step; none, where it is drawn shorter."""
    if not steps:
        return []
    middle = sorted(steps)[len(steps) // 2]
    pixels = scale([step for step in steps if step <= FAR * middle], middle)
    return [max(NARROW, step * pixels) if step <= FAR * middle else None for step in steps]


# ---- the places

def ended(line, times, size):
    """By time: the spans that are over then, each as its begin and the pixels that it needs, for its level or for the stub of its bar."""
    rooms = [(span.end, span.begin, 8 + wide(str(span.level), size)) for span in line.spans if span.level != RUNS and not span.open]
    last = max((span.end for span in line.spans if span.open), default=times[-1])
    rooms += [(time, last, STUB + 6) for time in times if time > last][:1]
    return together(rooms, lambda each: each[0])


class Ruler:
    """Goes to the right, and knows how far each lane and each row of numbers is written on."""

    def __init__(self, left, size):
        self.x = self.since = left      # since: where the task numbers stood last
        self.size = size
        self.lanes, self.numbers = {}, [0] * ROWS
        self.places, self.rows, self.bands = {}, {}, []

    def move(self, pixels, notes, spans):
        """So many pixels, or to where the lanes have room for the notes and the spans had it for their levels."""
        free = [self.lanes.get(note.lane, 0) + 8 for note in notes] + [self.places[begin] + need for _, begin, need in spans]
        self.x = max([self.x + pixels, *free])

    def band(self):
        """Past a band, where one is due."""
        if self.x - self.since > AGAIN:
            self.bands.append(max([self.x, *self.lanes.values()]) + 20)
            self.since = self.x = self.bands[-1] + BAND + 24

    def number(self, time):
        """To where a row has room for the time's number: the first that has it here, or else the one that has it soonest."""
        half = wide(str(time), NUMBER) / 2 + 2
        row = next((row for row, end in enumerate(self.numbers) if end + half <= self.x), self.numbers.index(min(self.numbers)))
        self.x = max(self.x, self.numbers[row] + half)
        self.rows[time], self.numbers[row] = row, self.x + half

    def write(self, time, notes):
        self.places[time] = self.x
        for note in notes:
            self.lanes[note.lane] = max(self.lanes.get(note.lane, 0), self.x - 6) + room(note.kind, note.text, self.size)


def axis_of(line, size, left):
    times = times_of(line)
    steps = distances([after - before for before, after in zip(times, times[1:])])
    notes, spans, ruler = together(line.notes, lambda note: note.time), ended(line, times, size), Ruler(left, size)
    for time, step in zip(times, [0] + steps):
        here = notes.get(time, ())
        ruler.move(BROKEN if step is None else step, here, spans.get(time, ()))
        ruler.band()
        ruler.number(time)
        ruler.write(time, here)
    breaks = {time for time, step in zip(times, steps) if step is None}
    return Axis(ruler.places, ruler.rows, breaks, ruler.bands, max([ruler.x + STUB, *ruler.lanes.values(), *ruler.numbers]))
