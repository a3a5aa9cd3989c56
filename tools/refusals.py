#!/usr/bin/env python3
"""The numbers given back, from docs/refusals.txt; and what else says them is made from it or held to it.

  tools/refusals.py              writes README.md's table and include/meter.h's enum, between their marker lines
  tools/refusals.py --check      writes nothing: exit 1 and a line for each thing that is not so: the table and the enum as it would write
                                 them; numbers, names and what is given as crates/rules/specs/Numbers.antt defines them; the constants of
                                 crates/refusals/src/lib.rt
"""
import functools
import pathlib
import re
import sys
from typing import NamedTuple

import door
from door import Wrong

ROOT = pathlib.Path(__file__).resolve().parent.parent
SOURCE = "docs/refusals.txt"
README = "README.md"
HEADER = "include/meter.h"
DEFINITIONS = "crates/rules/specs/Numbers.antt"
CONSTANTS = "crates/refusals/src/lib.rt"


class Refusal(NamedTuple):
    number: int
    name: str      # as in the definitions
    when: str      # given exactly when
    given: str     # with it: nothing, a task or an offset
    words: str     # what is tested, in which order, and what to do about it


# ---- the source

def refusal(at, line):
    parts = [part.strip() for part in line.split("|")]
    if len(parts) != 5 or not all(parts) or not re.fullmatch("[1-9][0-9]?", parts[0]):
        raise Wrong(f"{SOURCE}:{at}: not a number, a name, when it is given, what is given with it, and words, with | between them")
    return Refusal(int(parts[0]), *parts[1:])


@functools.cache
def refusals():
    """All of them, by number, from 1."""
    lines = enumerate(door.read(ROOT / SOURCE).split("\n"), 1)
    found = [refusal(at, line) for at, line in lines if line.strip() and not line.startswith("#")]
    if [each.number for each in found] != list(range(1, len(found) + 1)):
        raise Wrong(f"{SOURCE}: the numbers do not run from 1")
    return found


def numbered(number):
    for each in refusals():
        if each.number == number:
            return each
    raise Wrong(f"no refusal has the number {number}")


def named(name):
    for each in refusals():
        if each.name == name:
            return each
    raise Wrong(f"{SOURCE}: no refusal has the name {name}")


# ---- what is made from it

def constant(name):
    """TooSoon as TOO_SOON."""
    return re.sub("(?<=[a-z])(?=[A-Z])", "_", name).upper()


def readme_table():
    """README.md's table."""
    rows = [f"| {each.number} | {each.when} | {'' if each.given == 'nothing' else each.given + ' '}|" for each in refusals()]
    return ["| No. | given exactly when | with it |", "|---|---|---|"] + rows


def header_enum():
    """The enum of include/meter.h, in ASCII."""
    values = [f"METER_{constant(each.name)} = {each.number}" for each in refusals()]
    values = [value + "," for value in values[:-1]] + values[-1:]
    width = max(map(len, values))
    lines = [f"    {value:<{width}}  /* {each.when.replace('≤', '<=')} */" for value, each in zip(values, refusals())]
    return ["/* The numbers given back. */", "enum {"] + lines + ["};"]


# a file, the marker lines in it, and what stands between them
MADE = (
    (README, "<!-- refusals -->", "<!-- end of refusals -->", readme_table),
    (HEADER, "/* refusals */", "/* end of refusals */", header_enum),
)


def renewed(text, first, last, lines):
    """The text with these lines between its marker lines; nothing, if it has not one of each, in order."""
    old = text.split("\n")
    if old.count(first) != 1 or old.count(last) != 1 or old.index(first) > old.index(last):
        return None
    return "\n".join(old[:old.index(first) + 1] + lines + old[old.index(last):])


def write():
    """Writes what is not as it should be; the lines that say where that cannot be done."""
    wrong = []
    for name, first, last, lines in MADE:
        old = door.read(ROOT / name)
        new = renewed(old, first, last, lines())
        if new is None:
            wrong.append(f"{name}: no lines {first} and {last}")
        elif new != old:
            try:
                (ROOT / name).write_text(new, encoding="utf-8")
            except OSError as error:
                wrong.append(f"{name}: {error.strerror}")
    return wrong


# ---- what is held to it

def stale():
    """The places that are not as they would be written."""
    for name, first, last, lines in MADE:
        text = door.read(ROOT / name)
        if renewed(text, first, last, lines()) != text:
            yield f"{name}: not as tools/refusals.py writes it, between {first} and {last}"


def equations(name, text):
    """The equations of a definition, by constructor: what it gives, `its` being the constructor's own argument."""
    longest = dict(re.findall(r"^(longest) = (\d+)$", text, re.M))
    found = re.findall(rf"^{name} \(?(\w+)(?: (\w+))?\)? = (.+)$", text, re.M)
    return {each: " ".join({argument: "its", **longest}.get(word, word) for word in result.split()) for each, argument, result in found}


def as_defined(given):
    """What is given, as the definitions have it."""
    fixed = {"nothing": "Nothing", "first such task": "OfTask its", "offset of the record": "Offset its"}
    return fixed.get(given) or re.sub("^task ", "OfTask ", re.sub("^offset ", "Offset ", given))


def unlike(name, here, there):
    """A line for each key that two tables do not have alike."""
    for key in dict.fromkeys([*here, *there]):
        if here.get(key) != there.get(key):
            yield f"{name}: {key} is {there.get(key, 'missing')}, and in {SOURCE} {here.get(key, 'missing')}"


def differences():
    """All that is not as docs/refusals.txt has it."""
    definitions = door.read(ROOT / DEFINITIONS)
    numbers = {each.name: str(each.number) for each in refusals()}
    yield from stale()
    yield from unlike(f"{DEFINITIONS}: number_of", numbers, equations("number_of", definitions))
    values = {each.name: as_defined(each.given) for each in refusals()}
    yield from unlike(f"{DEFINITIONS}: value_of", values, equations("value_of", definitions))
    if not (ROOT / CONSTANTS).is_file():
        yield f"{CONSTANTS}: missing"
        return
    declared = dict(re.findall(r"^pub const (\w+): u8 = (\d+);", door.read(ROOT / CONSTANTS), re.M))
    yield from unlike(CONSTANTS, {constant(name): number for name, number in numbers.items()}, declared)


def main(arguments):
    if arguments not in ([], ["--check"]):
        raise Wrong("usage: tools/refusals.py [--check]")
    wrong = list(differences()) if arguments else write()
    for line in wrong:
        (print if arguments else door.say)(line)
    if not wrong:
        print(f"{SOURCE}: {len(refusals())} refusals, {'the same everywhere' if arguments else 'written'}")
    return 1 if wrong else 0


if __name__ == "__main__":
    sys.exit(door.main(main))
