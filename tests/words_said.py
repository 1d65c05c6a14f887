#!/usr/bin/env python3
"""What `./torfbarke replay --words` must say of each write, by the model of vectors_model.py, which shares nothing with the crates.

    python3 tests/words_said.py [RUNS [SEED]]    random traces: commands/lib/words.awk is given each with the model's answers, and the
                                                 words for every write are held against the phase that the model has

The words are those of docs/OPERATORS.md. The script of the command sees lines and answers alone; the model knows the phase."""
import pathlib
import random
import subprocess
import sys
import tempfile

from vectors_model import FRESH, Cycle, Device, block_of, cut_comes, cycle, settled
from vectors_trace import printed

ROOT = pathlib.Path(__file__).resolve().parent.parent
BENCH = Device(3, 2, 3, 1, 0)
IDLE = {
    0xFF: "read array", 0x90: "read identifier", 0x70: "read status", 0x50: "clear the error bits", 0x20: "erase set-up",
    0x40: "program set-up", 0xB0: "nothing to suspend: read array",
}


def asked(state, c, after):
    """What a write that is not refused asks for: by the phase that steps 2 and 3 leave, and whether it started something."""
    if c.rp == 0:
        return "not heard, RP# is low"
    phase = settled(state, cut_comes(BENCH, state, c)).phase
    starts = "it starts" if after.phase in "PE" else "nothing starts"
    if phase == "F":
        return IDLE[c.data]
    if phase == "D":
        return f"data {c.data:02X} of a program at {c.address:04X}, {starts}"
    if phase == "C":
        return f"erase confirm in block {block_of(BENCH, c.address)}, {starts}" if c.data == 0xD0 else "no erase confirm, nothing starts"
    if phase == "P":
        return "ignored while a program runs"
    if phase == "E":
        return "erase suspend" if c.data == 0xB0 else "ignored while an erase runs"
    return {0xFF: "read array", 0x70: "read status", 0xD0: "erase resume"}.get(c.data, "ignored while an erase is suspended")


def random_cycle(r):
    """Mostly writes of commands, now and then a cut, a level that is none, the boot block or an address past the array."""
    data = r.choice([0x20, 0x20, 0xD0, 0xD0, 0xD0, 0x40, 0x40, 0xB0, 0xB0, 0x70, 0xFF, 0x50, 0x90, r.randrange(256)])
    rp, oe, vpp = r.choice([1] * 30 + [0, 2, 2, 9]), r.choice([0] * 30 + [1, 5]), r.choice([12000] * 30 + [0, 6500, 6501])
    return Cycle(r.choice("RWWWWI"), rp, oe, vpp, r.choice([0x0010, 0x0010, 0x3800, 0x3A00, 0x3C00, 0x4000, 0x0001]), data)


def trial(r, length):
    """A random trace with the model's answers, and what must be said of each of its writes."""
    array, residue, state = bytearray(b"\xff" * 16384), b"\xff" * 16384, FRESH
    lines, answers, words = [], [], {}
    for number in range(1, length + 1):
        c = random_cycle(r)
        answer, after = cycle(BENCH, state, c, array, residue)
        lines.append(f"{c.kind} {c.rp} {c.oe} {c.vpp:05d} {c.address:04X} {c.data:02X}\n")
        answers.append(printed(answer, after).decode())
        if c.kind == "W":
            words[number] = f"refused by {answer[1]}," if answer[0] == "X" else asked(state, c, after)
        state = after
    return "".join(lines), "".join(answers), words


def said(lines, answers):
    with tempfile.TemporaryDirectory() as folder:
        names = [pathlib.Path(folder) / name for name in ("answers", "trace")]
        for name, text in zip(names, (answers, lines)):
            name.write_text(text)
        told = subprocess.run(["awk", "-f", ROOT / "commands/lib/words.awk", *names], capture_output=True, text=True, check=True).stdout
    return told.splitlines()


def main(runs=20, seed=35):
    r = random.Random(seed)
    seen = set()
    for _ in range(runs):
        lines, answers, words = trial(r, r.choice([5, 60, 600]))
        told = said(lines, answers)
        assert len(told) == len(answers.splitlines()), "not a line for each cycle"
        for number, want in words.items():
            seen.add(want.rsplit(" ", 1)[-1] if "data" in want else want)
            got = told[number - 1].split(" mV: ", 1)[1]
            if not got.startswith(want) or got[len(want):len(want) + 1] not in "; ":
                sys.exit(f"line {number} of a random trace: said '{got}', and it means '{want}'")
    print(f"{runs} random traces, every write named as the model has it ({len(seen)} different words)")


if __name__ == "__main__":
    main(*map(int, sys.argv[1:]))
