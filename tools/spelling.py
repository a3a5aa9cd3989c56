#!/usr/bin/env python3
"""Spells this repository's own definitions and lemmas as the library spells its names: words in snake case, types in camel case.

usage: spelling.py [--check]

Run once, at the top, over what the kit's port.py left. Names that specs/ and the files beside the functions' folders in proofs/ declare turn
there, in functions' proof files, in clauses of src/, in must-fail edits and in code spans of the pages. Names of src/ stay.
"""
import os
import re
import sys

TOP = os.path.dirname(os.path.dirname(os.path.abspath(__file__)))
WORD = re.compile(r"[^\s(){}.;,@\"«»`]+")
DECLARED = re.compile(r"^ *(?:(?:abbrev|unfoldable|pub) +)*([^\s:(){}.;,@\"«»]+) *(?:\{[^{}\n]*\} *|\([^()\n]*\) *)*:(?= |$)")
RECORD = re.compile(r"^ *(?:pub +)?(?:record|data) +([^\s:(){}]+)")
# Two names that would fall together: the lemma gets another.
APART = dict(line.split() for line in open(os.path.join(TOP, "tools", "spelling.txt"), encoding="utf-8") if line.strip())


ALL = object()
DECLARED_NOW = set()
# In comments these are words of the paper.
PROSE = {"first-level"}


def snake(name):
    return re.sub(r"(?<=[a-z0-9])[A-Z]", lambda m: "_" + m[0].lower(), name).replace("-", "_")


def files(*ends):
    for folder, inner, names in os.walk(os.path.join(TOP, "crates")):
        inner[:] = sorted(d for d in inner if d != "out")
        for n in sorted(names):
            if n.endswith(ends):
                yield os.path.join(folder, n)


def shared(path):
    """Whether a proof file declares names for others: one beside the functions' folders, or of specs/."""
    return "/specs/" in path or re.search(r"/proofs/[^/]+\.antt$", path)


def text(path):
    with open(path, encoding="utf-8") as f:
        return f.read()


def table():
    rows = {}
    for path in files(".antt"):
        if not shared(path):
            continue
        for line in text(path).splitlines():
            m = DECLARED.match(line)
            if not m or line.lstrip().startswith("--"):
                continue
            name = m[1]
            DECLARED_NOW.add(name)
            if name in APART:
                rows[name] = APART[name]
            elif name[0].islower() and snake(name) != name and not re.search(r"[^A-Za-z0-9_'-]", name):
                rows[name] = snake(name)
    return rows


def fields():
    """The fields of records: these turn behind any dot."""
    found, inside = set(), False
    for path in files(".antt"):
        if not shared(path):
            continue
        for line in text(path).splitlines():
            if not line.strip():
                continue
            if RECORD.match(line) and line.rstrip().endswith("where"):
                inside, depth = " record " in " " + line, len(line) - len(line.lstrip())
            elif inside and not line.lstrip().startswith("--"):
                if len(line) - len(line.lstrip()) <= depth:
                    inside = False
                elif m := DECLARED.match(line):
                    found.add(m[1])
    return found


def known(t, rows):
    """The rows, and one for each old spelling of the text whose new one is a name of ours: port.py has turned some already, but in no edit or page."""
    return rows | {w: snake(w) for w in WORD.findall(t) if w not in rows and snake(w) != w and snake(w) in DECLARED_NOW}


def turn(t, rows, always=()):
    def word(m):
        w = m[0]
        if w not in rows:
            return w
        if always is not ALL and w not in always and m.start() and t[m.start() - 1] == ".":
            head = re.search(r"([^\s(){};,@\"«»`]+)\.$", t[: m.start()])
            if head and not any(p[:1].isupper() for p in head[1].split(".")):
                return w
        return rows[w]

    return WORD.sub(word, t)


def turned_line(line, rows, mine):
    """A line of antt: in its comment only the names that no sentence would have."""
    m = re.search(r"(?:^|(?<=\s))--(?=\s|$)", line)
    if not m:
        return turn(line, rows, mine)
    words = {a: b for a, b in rows.items() if a not in PROSE}
    return turn(line[: m.start()], rows, mine) + turn(line[m.start() :], words, ALL)


def main():
    rows = table()
    new = {}
    for a, b in rows.items():
        new.setdefault(b, set()).add(a)
    bad = 0
    # A function and the definition that its contract cites may share a name: clauses cannot name functions.
    functions = {m[1] for path in files(".rt") for m in re.finditer(r"\bfn (\w+)", text(path))}
    for path in files(".antt", ".rt"):
        words = set(WORD.findall(text(path)))
        for b, olds in new.items():
            here = (olds | ({b} - set(rows) - functions)) & words
            if len(here) > 1:
                print(f"fall together: {os.path.relpath(path, TOP)}: {' '.join(sorted(here))}")
                bad += 1
    if bad or "--check" in sys.argv:
        print(f"{len(rows)} names, {bad} places")
        return bool(bad)
    mine = fields()
    for path in files(".antt", ".edit"):
        t = text(path)
        here = known(t, rows) if path.endswith(".edit") else rows
        u = "\n".join(turned_line(line, here, mine) for line in t.split("\n"))
        if u != t:
            with open(path, "w", encoding="utf-8") as f:
                f.write(u)
    words = {a: b for a, b in rows.items() if a not in PROSE}
    for path in files(".rt"):
        t = text(path)
        u = re.sub(r"ghost use [^;]*;|(?:requires|ensures)\*? *\w* *\{(?:[^{}]|\{[^{}]*\})*\}|\x60[^\x60\n]*\x60", lambda m: turn(m[0], rows if m[0][0] != "\x60" else words, mine), t)
        if u != t:
            with open(path, "w", encoding="utf-8") as f:
                f.write(u)
    pages = [os.path.join(TOP, "README.md")] + [os.path.join(TOP, "docs", n) for n in sorted(os.listdir(os.path.join(TOP, "docs"))) if n.endswith(".md") and n != "PORT.md"]
    for path in pages:
        t = text(path)
        u = re.sub(r"\x60[^\x60\n]*\x60", lambda m: m[0] if any(w in m[0] for w in PROSE) else turn(m[0], known(m[0], rows), ALL), t)
        if u != t:
            with open(path, "w", encoding="utf-8") as f:
                f.write(u)
    print(f"{len(rows)} names")
    return 0


if __name__ == "__main__":
    sys.exit(main())
