#!/usr/bin/env python3
"""Counts the places of docs/DESIGN-PASS.md's points in the code, crates/*/src.

  tools/places.py [FOLDER]        FOLDER: another checkout's top; none: this one
  tools/places.py -l [FOLDER]     and lists them, those of point 8 apart

A pattern finds too much rather than too little: what it finds may be as it should be. Each line says for which point it counts:
  1  enums, and structs with a yes or no beside a value; numbers that tell a kind or a refusal
  2  functions whose bodies are the same but for names and numbers (of some length)
  3  loops that count: over a range, or `while`
  4  comparisons of the number in a tuple struct; bytes, digits and copies made by hand
  5  facts that three or more contracts ask for; pairs of parameters that stand side by side in three or more functions
  6  a length or a place beside what it is of
  7  a number or a name that tells which step to run
  8  files of answers, and answers in them
"""
import collections
import pathlib
import re
import sys

FUNCTION = re.compile(r"^( *)(?:pub )?(?:extern \"C\" )?fn (\w+)[^(\n]*\(((?:[^()]|\([^()]*\))*)\)((?:[^{}]|\{(?:[^{}]|\{[^{}]*\})*\})*?)\{$\n((?:.*\n)*?)\1\}$", re.M)
LINES = {
    1: [r"^ *(?:pub )?enum \w+", r"^ *(?:pub )?\w+: bool,$", r"\bkind: u8\b", r"-> u8$", r"\berror: Option<i32>"],
    3: [r"^ *for \w+ in \S.*\.\.", r"^ *while "],
    4: [r"\.0 (?:==|!=|<|<=|>|>=) ", r"% 256\b", r"\b256 \* \w+ \+|\+ 256 \*", r"b'0' \+", r"as u64 \+ 1$", r"^ *let (?:first|last|next) = (?:self|stored|lists)\."],
    6: [r"\b(?:count|n|at|place): usize"],
    7: [r"\bif kind ==", r"\bmatch kind\b"],
}


def texts(top):
    for path in sorted((top / "crates").glob("*/src/*.rt")):
        yield path.relative_to(top), path.read_text()


def by_lines(top, patterns):
    for path, text in texts(top):
        for at, line in enumerate(text.split("\n"), 1):
            code = line.split(" //")[0]
            if not code.lstrip().startswith("//") and any(re.search(p, code) for p in patterns):
                yield f"{path}:{at}: {line.strip()}"


def functions(top):
    for path, text in texts(top):
        for m in FUNCTION.finditer(text):
            yield path, m.group(2), m.group(3), m.group(4), m.group(5)


def twins(top):
    groups = collections.defaultdict(list)
    for path, name, _, _, body in functions(top):
        words = re.findall(r"[A-Za-z_]\w*|\d+|\S", re.sub(r"//.*", "", body))
        kept = {"let", "mut", "for", "in", "if", "else", "return", "match", "while"}
        shape = " ".join(w if w in kept or not re.match(r"\w", w) else "x" for w in words)
        if len(words) >= 20:
            groups[shape].append(f"{path}.{name}")
    return ["  ".join(names) for names in groups.values() if len(names) > 1]


def facts(top):
    found, pairs = collections.defaultdict(set), collections.defaultdict(set)
    for path, name, params, clauses, _ in functions(top):
        for asked in re.findall(r"requires \{(.*)\}", clauses):
            for fact in asked.split("×"):
                found[re.sub(r"\b[a-z]\w*(?:\.\w+)*", "_", fact).strip(" ()")].add(f"{path}.{name}")
        names = [re.sub(r"\s+", " ", p.strip()) for p in re.split(r",(?![^\[(]*[\])])", params) if ":" in p]
        for a, b in zip(names, names[1:]):
            pairs[f"{a}, {b}"].add(f"{path}.{name}")
    return [f"{fact}: {len(who)}" for fact, who in sorted({**found, **pairs}.items()) if len(who) > 2]


def answers(top):
    for path in sorted((top / "crates").glob("*/proofs/**/Answers.antt")):
        yield from (f"{path.relative_to(top)}: {line}" for line in path.read_text().split("\n") if re.match(r"pub \S+ : goal\.", line))


def main(args):
    listed = args[:1] == ["-l"]
    args = args[listed:]
    if len(args) > 1 or any(a.startswith("-") for a in args):
        print(__doc__, file=sys.stderr)
        return 2
    top = pathlib.Path(args[0]) if args else pathlib.Path(__file__).resolve().parent.parent
    for point in range(1, 9):
        found = {2: twins, 5: facts, 8: answers}.get(point, lambda t: by_lines(t, LINES[point]))(top)
        found = list(found)
        print(f"{point}: {len(found)}")
        if listed and point != 8:
            print("".join(f"   {each}\n" for each in found), end="")
    return 0


if __name__ == "__main__":
    sys.exit(main(sys.argv[1:]))
