#!/usr/bin/env python3
"""Checks docs/DEMANDS.md, the map from the paper's sentences to definitions, code, theorems, must-fail edits and cases.

  tools/check_map.py        exit 0: the map is true of the tree; 1: what is wrong, a line each; 2: wrong use

A mark of the map is a text in `..` of one of these forms. The crate may stand in front, `laws/specs/Words`; without one it is rules.
  specs/Clock                         a file
  specs/Clock.elapsed_of              a name that the file declares: a definition, a law, a data type, a record, a field, a constructor
  proofs/Cases#Elapsed 4294967290     a text that stands in the file
  clock/src/lib.advance               a function, a struct, an enum, a trait or a constant of a file of code
  must-fail/zero_moves                a must-fail edit
  tests/clock-end                     a case of tests/cases.txt
Each mark must exist. And the map must be complete: every definition of a crate's specs/ (laws, the words, apart), every public function
and every must-fail edit stands in it. A function that returns something and says nothing of it (`ensures`) is wrong too, and so is a name
that two definitions have, or a definition and a type of the code.
"""
import pathlib
import re
import sys

ROOT = pathlib.Path(__file__).resolve().parent.parent
MAP = ROOT / "docs" / "DEMANDS.md"
CASES = ROOT / "tests" / "cases.txt"
MARK = re.compile(r"`(?:([a-z0-9_]+)/)?(specs|proofs|src|must-fail|tests)/([^`]+)`")
NAME = r"([^\s:(){}.;,]+)"
DECLARES = re.compile(r"^\s*(?:(?:unfoldable|abbrev|pub|data|record) )*" + NAME + r"(?= |$)")
DEFINES = re.compile(r"^ *(?:unfoldable |abbrev )?pub (?:record |data )?" + NAME + " ")
ITEM = re.compile(r'^ *(?:pub )?(?:extern "C" )?(?:fn|struct|enum|const|trait) (\w+)', re.M)
HEAD = re.compile(r'^ *(?:pub )?(?:extern "C" )?fn (\w+)[<(]', re.M)
# An impl of a trait: its methods have the trait's contracts.
OF_TRAIT = re.compile(r"^impl[^\n]* for [^\n]*\{\n(?:.*\n)*?\}$", re.M)

# The same said again: of a state, of a block's fields and of a block; of the rules and of the block.
AGAIN = {"Whole", "Demand1", "Demands"}
# The rules' types that the code has too, under the same name.
TWINS = {"Call", "Job", "Point", "Ready", "Record", "Refusal", "Task"}


def lines(path):
    return [line for line in path.read_text().split("\n") if not line.startswith("use ") and not line.lstrip().startswith("--")]


def declared(path):
    """Every name that the file declares, its records' fields and its data types' constructors among them."""
    if path.suffix == ".rt":
        return set(ITEM.findall(path.read_text()))
    found = (DECLARES.match(line) for line in lines(path) if " : " in line or line.endswith(" where"))
    return {m.group(1) for m in found if m}


def defined(path):
    """The definitions that the file opens to others: what stands at its top level or in a section, and is no record's field."""
    names, in_record = [], False
    for line in lines(path):
        if line and not line.startswith(" "):
            in_record = bool(re.match(r"pub (record|data) ", line))
        m = DEFINES.match(line)
        if m and not (in_record and line.startswith(" ")) and m.group(1) != "mod":
            names.append(m.group(1))
    return names


def fault(crate, part, rest):
    """What is wrong with a mark, or nothing."""
    if part == "tests":
        return "" if re.search(rf"^case {re.escape(rest)}(-{{n}},|:)", CASES.read_text(), re.M) else "no such case"
    folder = ROOT / "crates" / (crate or "rules") / part
    if part == "must-fail":
        return "" if (folder / f"{rest}.edit").is_file() else "no such must-fail edit"
    m = re.fullmatch(r"([A-Za-z0-9_/]+)(?:([.#])(.+))?", rest)
    if not m:
        return "not a mark"
    path = folder / (m.group(1) + (".rt" if part == "src" else ".antt"))
    if not path.is_file():
        return "no such file"
    if m.group(2) == "." and m.group(3) not in declared(path):
        return "no such name"
    if m.group(2) == "#" and m.group(3) not in path.read_text():
        return "no such text"
    return ""


def missing(marks):
    """The must-fail edits, the definitions and the public functions that no mark names."""
    here = {f"{crate or 'rules'}/{part}/{rest}" for crate, part, rest in marks}
    wanted = [f"{e.parent.parent.name}/must-fail/{e.stem}" for e in sorted(ROOT.glob("crates/*/must-fail/*.edit"))]
    for path in sorted(ROOT.glob("crates/*/specs/*.antt")):
        crate = path.parent.parent.name
        wanted += [f"{crate}/specs/{path.stem}.{name}" for name in defined(path) if crate != "laws"]
    for path in sorted(ROOT.glob("crates/*/src/*.rt")):
        names = re.findall(r'^ *pub (?:extern "C" )?fn (\w+)', path.read_text(), re.M)
        wanted += [f"{path.parent.parent.name}/src/{path.stem}.{name}" for name in names]
    return [mark for mark in wanted if mark not in here]


def functions(text):
    """The functions of a file of code, each with what stands ahead of its body, or ahead of the `;` by which a trait leaves it open."""
    for m in HEAD.finditer(text):
        head = []
        for line in text[m.start():].split("\n"):
            head.append(line)
            if line.endswith(("{", ";", "{}")):
                break
        yield m.group(1), "\n".join(head)


def silent():
    """The functions that return something and have no `ensures`; a program's main returns its exit status, of which none speaks."""
    return [f"{path.relative_to(ROOT)}: {name} says nothing of what it returns" for path in sorted(ROOT.glob("crates/*/src/*.rt"))
            for name, head in functions(OF_TRAIT.sub("", path.read_text())) if ") -> " in head and "ensures" not in head and name != "main"]


def twice():
    """The names with two meanings."""
    places = {}
    for path in sorted(ROOT.glob("crates/*/specs/*.antt")):
        for name in defined(path):
            places.setdefault(name, []).append(path)
    for path in sorted(ROOT.glob("crates/*/src/*.rt")):
        for name in re.findall(r"^pub (?:struct|enum) (\w+)", path.read_text(), re.M):
            places.setdefault(name, []).append(path)
    return [f"two meanings of {name}: {', '.join(str(path.relative_to(ROOT)) for path in paths)}"
            for name, paths in places.items() if len(paths) > 1 and name not in AGAIN | TWINS]


def main():
    if len(sys.argv) > 1:
        print("usage: tools/check_map.py", file=sys.stderr)
        return 2
    if not MAP.is_file():
        print("tools/check_map.py: docs/DEMANDS.md is missing", file=sys.stderr)
        return 2
    marks = MARK.findall(MAP.read_text())
    wrong = [f"docs/DEMANDS.md: {why}: {crate and crate + '/'}{part}/{rest}" for crate, part, rest in marks if (why := fault(crate, part, rest))]
    wrong += [f"docs/DEMANDS.md: not in the map: {mark}" for mark in missing(marks)] + silent() + twice()
    for line in wrong:
        print(line)
    if not wrong:
        print(f"docs/DEMANDS.md: {len(marks)} marks, all true; every definition, public function and must-fail edit stands in it; each name has one meaning")
    return 1 if wrong else 0


if __name__ == "__main__":
    sys.exit(main())
