#!/usr/bin/env python3
"""Writes a stream of records from readable text, and readable text from a stream.

  tools/stream.py FILE.txt       the stream's bytes, on standard output; exit 2 and one line why, if the text cannot be read
  tools/stream.py --text FILE    the text of a stream, whatever its bytes are: assembling it gives the same bytes
  tools/stream.py --is-text FILE   exit 0 where the bytes read like the text of a stream, else 1
  FILE may be -, standard input.

One record a line; numbers are decimal, # starts a comment, blank lines are free:
  task C D T                     a task of the table (TK)
  release READING TASK           an event: a job of the task is released (RL)
  done READING TASK              an event: the running job ends (DN)
  clock READING                  an event: nothing more (TM)
  bytes HH HH ..                 these bytes, in hex, for streams that are damaged
C, D, T and READING are 0 to 4294967295, TASK is 0 to 255: all that a record has room for, also what the runner is to refuse.
"""
import re
import sys
from typing import NamedTuple

import door
import refusals
from door import Wrong, read

USAGE = "usage: tools/stream.py FILE.txt, or tools/stream.py --text FILE, or tools/stream.py --is-text FILE"

# a word: its mark, and the bytes of each of its numbers
RECORDS = {"task": (b"TK", (4, 4, 4)), "release": (b"RL", (4, 1)), "done": (b"DN", (4, 1)), "clock": (b"TM", (4,))}
EVENTS = ("release", "done", "clock")
BYTES_A_LINE = 16


class Item(NamedTuple):
    """A record of a stream. What cannot be read is one item, the last: its word is bytes, its numbers are all bytes that are left."""
    offset: int
    size: int
    word: str
    numbers: tuple


# ---- from text to bytes

def number(word, size):
    """A decimal number, as little-endian bytes."""
    if not re.fullmatch("[0-9]+", word):
        raise Wrong(f"{word!r} is not a decimal number")
    digits, largest = word.lstrip("0") or "0", 256 ** size - 1
    if len(digits) > len(str(largest)) or int(digits) > largest:
        raise Wrong(f"{word} is above {largest}")
    return int(digits).to_bytes(size, "little")


def raw(words):
    if not words:
        raise Wrong("bytes takes at least one byte")
    for word in words:
        if not re.fullmatch("[0-9A-Fa-f]{2}", word):
            raise Wrong(f"{word!r} is not a byte of two hex digits")
    return bytes(int(word, 16) for word in words)


def words_of(line):
    """The words of a line, without its comment."""
    return line.split("#")[0].split()


def line_bytes(line):
    """The bytes that one line says: none, if it has no word."""
    words = words_of(line)
    if not words:
        return b""
    word, rest = words[0], words[1:]
    if word == "bytes":
        return raw(rest)
    if word not in RECORDS:
        raise Wrong(f"unknown word {word!r}: a line begins with {', '.join(RECORDS)} or bytes")
    mark, sizes = RECORDS[word]
    if len(rest) != len(sizes):
        raise Wrong(f"{word} takes {len(sizes)} number{'s' * (len(sizes) > 1)}, here are {len(rest)}")
    return mark + b"".join(number(value, size) for value, size in zip(rest, sizes))


def assemble(text, name):
    """The stream that a text says. Wrong names the file and the line."""
    stream = bytearray()
    for at, line in enumerate(text.split("\n"), 1):
        try:
            stream += line_bytes(line)
        except Wrong as wrong:
            raise Wrong(f"{name}:{at}: {wrong}") from None
    return bytes(stream)


def line_of(text, offset):
    """The line of a text in which the byte at this offset of its stream is written."""
    end = 0
    for at, line in enumerate(text.split("\n"), 1):
        end += len(line_bytes(line))
        if offset < end:
            return at
    raise Wrong(f"the text has no byte at offset {offset}")


def looks_like_text(data):
    """Whether bytes begin like a text: their first word is one that a line begins with; or they are a text that has no word."""
    lines = door.decode(data, "replace").split("\n")
    first = next((words[0] for words in map(words_of, lines) if words), None)
    return first in (*RECORDS, "bytes") or first is None and door.is_text(data)


# ---- from bytes to text

def record_at(stream, at):
    """The record that stands there; what cannot be read is all bytes from there on."""
    for word, (mark, sizes) in RECORDS.items():
        end = at + len(mark) + sum(sizes)
        if stream.startswith(mark, at) and end <= len(stream):
            numbers, place = [], at + len(mark)
            for size in sizes:
                numbers.append(int.from_bytes(stream[place:place + size], "little"))
                place += size
            return Item(at, end - at, word, tuple(numbers))
    return Item(at, len(stream) - at, "bytes", tuple(stream[at:]))


def items(stream):
    """All records from the front; behind one that cannot be read there is no other."""
    found, at = [], 0
    while at < len(stream):
        found.append(record_at(stream, at))
        at += found[-1].size
    return found


class Layout(NamedTuple):
    """How the lines of some records are laid out: the width of their words, and of each column of numbers under its head."""
    lead: int
    heads: tuple
    widths: tuple

    def line(self, word, values):
        return " ".join([f"{word:<{self.lead}}"] + [f"{value:>{width}}" for value, width in zip(values, self.widths)])

    def head(self):
        return self.line("#", self.heads)


def layout(words, heads, found):
    rows = [heads] + [item.numbers for item in found if item.word in words]
    widths = tuple(max(len(str(row[i])) for row in rows if i < len(row)) for i in range(len(heads)))
    return Layout(max(map(len, words)), heads, widths)


def remark(item, refusal):
    return f"# offset {item.offset}: {refusals.named(refusal).when}"


def raw_lines(numbers):
    """So many bytes a line."""
    rows = [numbers[at:at + BYTES_A_LINE] for at in range(0, len(numbers), BYTES_A_LINE)]
    return [" ".join(["bytes"] + [f"{value:02X}" for value in row]) for row in rows]


def text_of(stream):
    """A text that says this stream, whatever its bytes are."""
    found = items(stream)
    tasks, events = layout(("task",), ("C", "D", "T"), found), layout(EVENTS, ("READING", "TASK"), found)
    lines, begun = [] if found else ["# an empty stream"], False
    for item in found:
        if item.word == "bytes":
            lines += [remark(item, "Unreadable")] + raw_lines(item.numbers)
        elif item.word == "task":
            if begun:
                lines.append(remark(item, "TaskBehindEvent"))
            elif not lines:
                lines.append(tasks.head())
            lines.append(tasks.line(item.word, item.numbers))
        else:
            if not begun:
                lines += [""] * bool(lines) + [events.head()]
            lines.append(events.line(item.word, item.numbers))
            begun = True
    return "".join(line + "\n" for line in lines)


def main(arguments):
    if len(arguments) == 2 and arguments[0] == "--is-text":
        return 0 if looks_like_text(door.content(arguments[1])) else 1
    if len(arguments) == 2 and arguments[0] == "--text":
        print(text_of(door.content(arguments[1])), end="")
    elif len(arguments) == 1 and not arguments[0].startswith("--"):
        sys.stdout.buffer.write(assemble(read(arguments[0]), door.called(arguments[0])))
    else:
        raise Wrong(USAGE)
    return 0


if __name__ == "__main__":
    sys.exit(door.main(main))
