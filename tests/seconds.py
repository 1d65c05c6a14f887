#!/usr/bin/env python3
"""How the gate's time is spent: the second at which each crate was proved, and how many proofs, runs and must-fail edits there were.

    python3 tests/seconds.py stamp FILE   passes on what `rt ci` prints, and notes in FILE the second at which each line came
    python3 tests/seconds.py FILE         the table of such a file
    python3 tests/seconds.py check        whether notes written by hand give the table written by hand

The seconds are those on the wall since the first line was awaited. Several crates are proved side by side, and edits and runs are told when all
is proved, so these are counted alone. A crate that an earlier run proved is told apart, and a line that is none of these has no row."""
import pathlib
import re
import sys
import time

KINDS = {
    "proof": re.compile(r"rt: (\w+) proved"),
    "tests": re.compile(r"rt: (\w+): its tests are proved"),
    "kept": re.compile(r"rt: (\w+) is kept: .*"),
    "run": re.compile(r"rt: (\w+ ran(?: \(built by Rattle's own compiler\))?), and wrote what its file stdout has"),
    "edit": re.compile(r"rt: must-fail (\w+/\S+\.edit): refused, as it must be\b.*"),
}

SAMPLE = """\
      8 fn common::fill: proved
      8 rt: common proved
      8 rt: common: trying its must-fail edits (2)
      9 rt: units is kept: an earlier run on this machine proved the same files over the same libraries
     48 rt: desk proved
     53 rt: model NOT PROVED
     70 rt: must-fail common/fill_with_zero.edit: refused, as it must be: note: src/lib.rt:21:1: it is not proved that
     70 rt: must-fail common/piece_of_511.edit: refused, as it must be (only by a limit of the prover, which gave no verdict)
     70 rt: must-fail common/other.edit: NOT REFUSED: the crate is still proved with this edit
     71 rt: desk ran, and wrote what its file stdout has
     71 rt: desk ran (built by Rattle's own compiler), and wrote what its file stdout has
     72 248 passed, 0 failed
"""
TABLE = """\
 second  what
      8  proof  common
     48  proof  desk
     72  in all: 2 proofs, 0 of tests, 1 kept, 2 runs, 2 edits refused
"""


def rows(log):
    """Second, kind and name of each line that is one of these."""
    for line in log.split("\n"):
        at = line[:7].strip()
        for kind, form in KINDS.items():
            found = form.fullmatch(line[8:].rstrip())
            if found and at.isdigit():
                yield int(at), kind, found.group(1)


def table(log):
    """The table: what was proved, in its order; and how many there are of each kind."""
    found = list(rows(log))
    lines = [f"{at:7}  {kind:5}  {name}" for at, kind, name in found if kind in ("proof", "tests")]
    many = {kind: sum(1 for _, its, _ in found if its == kind) for kind in KINDS}
    last = max([int(line[:7]) for line in log.split("\n") if line[:7].strip().isdigit()], default=0)
    sums = f"{many['proof']} proofs, {many['tests']} of tests, {many['kept']} kept, {many['run']} runs, {many['edit']} edits refused"
    return "\n".join([" second  what", *lines, f"{last:7}  in all: {sums}", ""])


def stamp(name):
    """Passes standard input on, line by line, and notes when each came."""
    began = time.monotonic()
    with open(name, "w", encoding="utf-8") as notes:
        for line in sys.stdin.buffer:
            text = line.decode(errors="replace")
            sys.stdout.buffer.write(line)
            sys.stdout.buffer.flush()
            notes.write(f"{time.monotonic() - began:7.0f} {text}")
            notes.flush()
    return 0


def main(words):
    if words == ["check"]:
        right = table(SAMPLE) == TABLE
        print("seconds: the table is the one written by hand" if right else f"seconds: another table:\n{table(SAMPLE)}")
        return 0 if right else 1
    if len(words) == 2 and words[0] == "stamp":
        return stamp(words[1])
    if len(words) != 1:
        print("usage: seconds.py stamp FILE | FILE | check", file=sys.stderr)
        return 2
    print(table(pathlib.Path(words[0]).read_text(encoding="utf-8", errors="replace")), end="")
    return 0


if __name__ == "__main__":
    sys.exit(main(sys.argv[1:]))
