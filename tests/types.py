#!/usr/bin/env python3
"""Task numbers and levels are kept apart: "one given where the other belongs is a fault that must not build".

  tests/types.py        exit 0: each exchange is refused for its types; 1: one is not, with what the toolchain said; 2: wrong use

An exchange is a must-fail edit that the compiler refuses before the prover sees it, so `rt must-fail` cannot take it. Each is made in a copy
of the tree; the first error must be that of the types, at the line that was changed.
"""
import pathlib
import shutil
import subprocess
import sys
import tempfile

ROOT = pathlib.Path(__file__).resolve().parent.parent
# crate, file, what stands there, what it is made, and the two types of the error: in lists, in the listing, in a plan, of the table
EXCHANGES = [
    ("ready", "src/lib.rt", "lists.push_front(level, task)", "lists.push_front(task, level)", ("Level", "TaskNo")),
    ("lists", "src/walk.rt", "self.list_into(Level(level), buffer, at)", "self.list_into(table::TaskNo(level), buffer, at)", ("Level", "TaskNo")),
    ("levels", "src/lib.rt", "level: Level(i as u8 + 1)", "level: table::TaskNo(i as u8 + 1)", ("Level", "TaskNo")),
    ("kernel", "src/asks.rt", "if !in_table(table.count, task)", "if !in_table(table.count, table::Level(task.0))", ("TaskNo", "Level")),
]


def refused(house, crate, name, old, new, types):
    """Nothing where the exchange is refused for its types; else what was seen."""
    path = house / "crates" / crate / name
    text = path.read_text()
    if text.count(old) != 1:
        return f"{crate}/{name} does not have it once: {old}"
    path.write_text(text.replace(old, new))
    said = subprocess.run(["rt", "check"], cwd=house / "crates" / crate, text=True, stdout=subprocess.PIPE, stderr=subprocess.STDOUT)
    path.write_text(text)
    line = text[: text.index(old)].count("\n") + 1
    first = next((x for x in said.stdout.split("\n") if ": error" in x), "no error")
    wanted = f"{name}:{line}:", f"error[mismatched-types]: expected `{types[0]}`, found `{types[1]}`"
    return "" if said.returncode and all(x in first for x in wanted) else f"{crate}/{name}, {new}: {first}"


def main():
    if len(sys.argv) > 1:
        print("usage: tests/types.py", file=sys.stderr)
        return 2
    with tempfile.TemporaryDirectory() as folder:
        house = pathlib.Path(folder)
        shutil.copy(ROOT / "crates.txt", house)
        shutil.copytree(ROOT / "crates", house / "crates", ignore=shutil.ignore_patterns("out", "must-fail"))
        wrong = [why for exchange in EXCHANGES if (why := refused(house, *exchange))]
    for why in wrong:
        print(f"tests/types.py: not refused for its types: {why}")
    if not wrong:
        print(f"tests/types.py: {len(EXCHANGES)} exchanges of a task and a level, each refused for its types")
    return 1 if wrong else 0


if __name__ == "__main__":
    sys.exit(main())
