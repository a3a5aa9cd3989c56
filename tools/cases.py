#!/usr/bin/env python3
"""Makes the files of the program crates/cases from tests/cases.txt, whose head says how a case is written.

  tools/cases.py               writes args (the names), data/ (a stream a case) and stdout (what the model prints for each)
  tools/cases.py --check       writes nothing: exit 1 and a line for each file that is not as it would be written
"""
import ast
import operator
import pathlib
import re
import sys
from typing import NamedTuple

import model
import stream
from stream import Wrong

ROOT = pathlib.Path(__file__).resolve().parent.parent
TEXT = "tests/cases.txt"
PROGRAM = "crates/cases"
HEAD = re.compile(r"case ([-A-Za-z0-9{}]+)(?:, n = (\d+)\.\.(\d+))?: \S.*")
OPERATIONS = {ast.Add: operator.add, ast.Sub: operator.sub, ast.Mult: operator.mul, ast.FloorDiv: operator.floordiv, ast.Mod: operator.mod}


class Case(NamedTuple):
    name: str
    stream: bytes
    gives: list     # lines of the output that the text itself names


# ---- numbers that are computed

def value(node, names):
    if isinstance(node, ast.BinOp) and type(node.op) in OPERATIONS:
        return OPERATIONS[type(node.op)](value(node.left, names), value(node.right, names))
    if isinstance(node, ast.Constant) and type(node.value) is int:
        return node.value
    if isinstance(node, ast.Name) and node.id in names:
        return names[node.id]
    raise Wrong("neither a number nor a name that is known here")


def computed(text, names):
    """The text, with a number for each {..} in it."""
    def number(found):
        try:
            return str(value(ast.parse(found.group(1), mode="eval").body, names))
        except (SyntaxError, ZeroDivisionError, Wrong):
            raise Wrong(f"cannot compute {found.group()}") from None
    return re.sub(r"\{([^{}]*)\}", number, text)


# ---- a case

def parts(line):
    """The lines that stand in one, without its comment."""
    return [part.strip() for part in line.split("#")[0].split(";") if part.strip()]


def repeated(lines, names):
    """The records of `repeat N: LINE; LINE ..`."""
    head = re.fullmatch(r"repeat (\d+): (.*)", lines[0])
    if not head:
        raise Wrong("repeat takes a number and a colon")
    body = [head.group(2)] + lines[1:]
    turns = range(1, int(head.group(1)) + 1)
    return b"".join(stream.line_bytes(computed(line, {**names, "i": i})) for i in turns for line in body)


def read_line(line, names, records, gives):
    """Does what one line of a case says, to the records and the lines to be given so far."""
    lines = parts(line)
    if lines and lines[0].startswith("repeat "):
        records += repeated(lines, names)
        return
    for part in lines:
        word, _, rest = computed(part, names).partition(" ")
        if word == "gives":
            gives.append(rest)
        elif word == "cut" and rest.isdigit():
            del records[int(rest):]
        else:
            records += stream.line_bytes(f"{word} {rest}")


def case_of(name, lines, names):
    records, gives = bytearray(), []
    for at, line in lines:
        try:
            read_line(line, names, records, gives)
        except Wrong as wrong:
            raise Wrong(f"{TEXT}:{at}: {wrong}") from None
    return Case(computed(name, names), bytes(records), gives)


def cases_of(at, head, lines):
    """The cases of one head: one, or one for each n."""
    found = HEAD.fullmatch(head)
    if not found or ("{" in found.group(1)) != bool(found.group(2)):
        raise Wrong(f"{TEXT}:{at}: not the head of a case: {head!r}")
    name, first, last = found.groups()
    every = [{"n": n} for n in range(int(first), int(last) + 1)] if first else [{}]
    return [case_of(name, lines, names) for names in every]


def cases(text):
    """All cases of the text, in its order."""
    heads = []
    for at, line in enumerate(text.split("\n"), 1):
        if line.startswith("case "):
            heads.append((at, line.strip(), []))
        elif heads:
            heads[-1][2].append((at, line))
        elif parts(line):
            raise Wrong(f"{TEXT}:{at}: a line before the first case")
    return [case for head in heads for case in cases_of(*head)]


# ---- the files

def output(case):
    """What the model prints. Wrong, if that lacks a line which the text names."""
    printed = model.output(case.stream)
    for line in case.gives:
        if line not in printed.decode().splitlines():
            raise Wrong(f"{TEXT}: {case.name}: the model does not print {line!r}")
    return printed


def files(found):
    """Each file of the program that comes from the cases, by its path, with its bytes."""
    program = ROOT / PROGRAM
    content = {program / "data" / case.name: case.stream for case in found}
    if len(content) < len(found):
        raise Wrong(f"{TEXT}: two cases have one name")
    content[program / "args"] = "".join(f"{case.name}\n" for case in found).encode()
    content[program / "stdout"] = b"".join(f"== {case.name}\n".encode() + output(case) for case in found)
    return content


def differing(content):
    """The files that are missing or differ, and those of data/ that belong to no case."""
    wrong = [path for path, wanted in content.items() if not path.is_file() or path.read_bytes() != wanted]
    return wrong + [path for path in sorted((ROOT / PROGRAM / "data").glob("*")) if path not in content]


def write(content):
    (ROOT / PROGRAM / "data").mkdir(parents=True, exist_ok=True)
    for path in differing(content):
        if path in content:
            path.write_bytes(content[path])
        else:
            path.unlink()


def check(content):
    """Exit status 1, if a file is not as it would be written; a line for each."""
    wrong = differing(content)
    for path in wrong:
        print(f"{path.relative_to(ROOT)}: not as tools/cases.py writes it")
    return 1 if wrong else 0


def main():
    if sys.argv[1:] not in ([], ["--check"]):
        print("usage: tools/cases.py [--check]", file=sys.stderr)
        return 2
    try:
        found = cases(stream.read(ROOT / TEXT))
        content = files(found)
    except Wrong as wrong:
        print(wrong, file=sys.stderr)
        return 2
    if not sys.argv[1:]:
        write(content)
        print(f"{TEXT}: {len(found)} cases, written")
        return 0
    status = check(content)
    if status == 0:
        print(f"{TEXT}: {len(found)} cases, as committed")
    return status


if __name__ == "__main__":
    sys.exit(main())
