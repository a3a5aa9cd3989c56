#!/usr/bin/env python3
"""Tries the uses of the front door that tests/uses.txt lists, and compares lines and status.

  tests/uses.py [TEXT]        exit 0: all are as written; 1: those that are not, with what was seen. With TEXT, only uses that have it

The runner is built first, if it is not. Each use is a command that bash runs in the repository's folder, with W, a folder of its own:
  $ COMMAND           the use
  | LINE              a line on standard output
  ! LINE              a line on standard error
  = STATUS            its exit status, where it is not 0
A line `...` stands for any number of lines. Whatever a use does, it may leave nothing in the folder for temporary files.
"""
import os
import pathlib
import shutil
import signal
import subprocess
import sys
import tempfile
from typing import NamedTuple

ROOT = pathlib.Path(__file__).resolve().parent.parent
TEXT = ROOT / "tests" / "uses.txt"
SECONDS = 60

# A toolchain that proves nothing, for what the door says while it waits. Each takes part in a house of its own, with three crates.
CRATES = "laws:\nrules: laws\nrunner: rules io\nexport_c staticlib: rules\n"
PROVED = "".join(f"echo 'crate {name}: modules loaded=1 checked=0'; echo 'logic=proved functions=1'; " for name in ("laws", "rules", "runner"))
TOOLCHAINS = {
    "whole": f"""echo 'fn rules::f: proved'; {PROVED}
mkdir -p out && cp "$RUNNER" out/runner""",
    "broken": """echo 'crate laws: modules loaded=1 checked=0'; echo 'logic=proved functions=0'
echo './proofs/Steps.antt:3:1: error: it does not hold' >&2; echo 'crate rules: modules loaded=0 checked=1'; echo 'logic=not-proved'; exit 1""",
    "slow": """echo 'crate laws: modules loaded=1 checked=0'; echo 'logic=proved functions=0'; mktemp -d >/dev/null; mkdir -p out; echo half >out/runner; chmod +x out/runner
echo $$ >"$W/pids"; sleep 61 & echo $! >>"$W/pids"; sleep 62""",
}


class Use(NamedTuple):
    at: int
    command: str
    out: list
    err: list
    status: int


class Seen(NamedTuple):
    out: list
    err: list
    status: int
    left: list


def uses(text):
    """The uses of the text, in its order."""
    found = []
    for at, line in enumerate(text.split("\n"), 1):
        mark, _, rest = line.partition(" ")
        if mark == "$":
            found.append(Use(at, rest, [], [], 0))
        elif mark in ("|", "!"):
            (found[-1].out if mark == "|" else found[-1].err).append(rest)
        elif mark == "=":
            found[-1] = found[-1]._replace(status=int(rest))
        elif line and not line.startswith("#"):
            sys.exit(f"{TEXT.name}:{at}: neither a use nor what it gives: {line!r}")
    return found


def build_houses(folder):
    """For each toolchain that proves nothing a copy of the front door, with no crate built."""
    for name, text in TOOLCHAINS.items():
        house = folder / name
        for part in ("crates/runner", "kit"):
            (house / part).mkdir(parents=True)
        for part in ("tools", "docs"):
            shutil.copytree(ROOT / part, house / part)
        shutil.copy(ROOT / "meter", house / "meter")
        (house / "crates.txt").write_text(CRATES)
        (house / "kit" / "rt").write_text(f"#!/bin/sh\n{text}\n")
        (house / "kit" / "rt").chmod(0o755)


def tried(use, folder):
    """What a use gives, and what it leaves behind."""
    temporary = folder / "tmp"
    shutil.rmtree(temporary, ignore_errors=True)
    temporary.mkdir()
    settings = {**os.environ, "W": str(folder), "TMPDIR": str(temporary), "RUNNER": str(ROOT / "target" / "bin" / "runner"), "LC_ALL": "C.UTF-8"}
    run = subprocess.Popen(["bash", "-c", use.command], cwd=ROOT, env=settings, stdin=subprocess.DEVNULL, stdout=subprocess.PIPE, stderr=subprocess.PIPE,
                           start_new_session=True)
    try:
        out, err = run.communicate(timeout=SECONDS)
    except subprocess.TimeoutExpired:
        os.killpg(run.pid, signal.SIGKILL)
        out, err = run.communicate()
    left = sorted(path.name for path in temporary.iterdir())
    return Seen(lines(out), lines(err), run.returncode, left)


def lines(data):
    return data.decode(errors="backslashreplace").splitlines()


def fits(wanted, seen):
    """Whether lines are as wanted, `...` standing for any number of them."""
    if not wanted:
        return not seen
    if wanted[0] == "...":
        return any(fits(wanted[1:], seen[k:]) for k in range(len(seen) + 1))
    return bool(seen) and wanted[0] == seen[0] and fits(wanted[1:], seen[1:])


def difference(use, seen):
    """What is not as written: a line, and what was seen."""
    if fits(use.out, seen.out) and fits(use.err, seen.err) and use.status == seen.status and not seen.left:
        return []
    shown = [f"    | {line}" for line in seen.out[:20]] + [f"    ! {line}" for line in seen.err[:20]] + [f"    = {seen.status}"]
    left = [f"    left behind: {', '.join(seen.left)}"] if seen.left else []
    return [f"tests/uses.txt:{use.at}: $ {use.command}", *shown, *left]


def main():
    if len(sys.argv) > 2:
        print("usage: tests/uses.py [TEXT]", file=sys.stderr)
        return 2
    subprocess.run([ROOT / "meter", "run", ROOT / "examples" / "paper.txt"], stdout=subprocess.DEVNULL, check=False)
    wanted = [use for use in uses(TEXT.read_text()) if len(sys.argv) == 1 or sys.argv[1] in use.command]
    with tempfile.TemporaryDirectory() as made:
        folder = pathlib.Path(made)
        build_houses(folder)
        wrong = [line for use in wanted for line in difference(use, tried(use, folder))]
    for line in wrong:
        print(line)
    if not wrong:
        print(f"tests/uses.txt: {len(wanted)} uses, as written")
    return 1 if wrong else 0


if __name__ == "__main__":
    sys.exit(main())
