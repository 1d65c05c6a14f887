#!/usr/bin/env python3
"""What `./torfbarke recording` must say, by a second program over the model of vectors_model.py, which shares nothing with the crates.

    python3 tests/recording_said.py [RUNS [SEED]]            random recordings, most of them spoilt: each is handed to the command, and
                                                              its line and its exit status are held against what this script says
    python3 tests/recording_said.py say TEXT BEFORE PROMISED  the line for three files; `-` for BEFORE is a blank part

The words are those of docs/OPERATORS.md, the check is that of vectors_recording.py, written from document 02 (xiii)."""
import collections
import pathlib
import random
import re
import subprocess
import sys
import tempfile

from vectors_model import FRESH, IN_FLIGHT, Cycle, Device, cycle, low
from vectors_recording import LONGEST, record_fault

ROOT = pathlib.Path(__file__).resolve().parent.parent
BENCH = Device(3, 2, 3, 1, 0)
SIZE = 16384
BLANK = b"\xff" * SIZE
LINE = re.compile(rb"[RWI] [0-9] [0-9] [0-9]{5} [0-9A-F]{4} [0-9A-F]{2} (D [0-9A-F]{2}|N --) ([0-9]{5}|-----)\n")
NOT_IDLE = {
    "C": "an erase waits for its confirm", "D": "a program waits for its data", "P": "a program is running", "E": "an erase is running",
    "U": "an erase is being suspended", "S": "an erase is suspended",
}


def stated(line):
    """The record of a good line: the cycle, the answer seen, the count."""
    t = line.decode()
    c = Cycle(t[0], int(t[2]), int(t[4]), int(t[6:11]), int(t[12:16], 16), int(t[17:19], 16), 0)
    heard = ("D", int(t[22:24], 16)) if t[20] == "D" else ("N", 0)
    return c, heard, 0 if t[25] == "-" else int(t[25:30])


def read(text):
    """The records of the good lines, and the first bad line or 0."""
    records = []
    while 31 * len(records) < len(text):
        line = text[31 * len(records):31 * len(records) + 31]
        if len(records) == 9998 or not LINE.fullmatch(line):
            return records, len(records) + 1
        records.append(stated(line))
    return records, 0


def made(state, array, c, residue=b""):
    """A cycle by the rules, on a bench with the longest times: the answer, the state and the array after it."""
    part = bytearray(array)
    answer, after = cycle(BENCH._replace(program=LONGEST, erase=LONGEST), state, c, part, residue)
    return answer, after, part


def starts(state, after):
    return state.phase in "CD" and after.phase in "PE"


def shown(answer):
    return f"D {answer[1]:02X}" if answer[0] == "D" else "N --"


def why(state, array, record):
    """What is wrong with a record at fault."""
    c, heard, busy = record
    answer, after, _ = made(state, array, c, BLANK)
    if starts(state, after) and not 1 <= busy <= LONGEST:
        return f"the count {busy} is not 1 to 65535"
    if state.phase in IN_FLIGHT and (c.rp == 0 or low(BENCH, c.vpp)):
        return "an operation is cut"
    given = f"refuse the cycle by number {answer[1]}" if answer[0] == "X" else f"give {shown(answer)}"
    return f"seen {shown(heard)}, the rules {given}"


def end(state, array, promised):
    """What is wrong with the end, or nothing."""
    if state.phase != "F":
        return f"not idle, {NOT_IDLE[state.phase]}"
    if len(promised) > SIZE:
        return f"the array promised has more bytes than the part's {SIZE}"
    if len(promised) < SIZE:
        return f"the array promised has {len(promised)} bytes, the part {SIZE}"
    apart = [a for a in range(SIZE) if promised[a] != array[a]]
    return f"the array differs from the one promised at {apart[0]:04X}" if apart else ""


def said(text, before, promised):
    if len(before) != SIZE:
        return "refused 2: the array at the start is not as long as the part\n"
    records, bad = read(text)
    state, array = FRESH, bytearray(before)
    for i, record in enumerate(records):
        left = record_fault(BENCH, state, array, record)
        if left is None:
            return f"line {i + 1} is at fault: {why(state, array, record)}\n"
        state, array = left
    if bad:
        return f"line {bad} is no line of a recording\n"
    wrong = end(state, array, promised)
    return f"the end is at fault: {wrong}\n" if wrong else f"accepted: {len(records)} records, and the array is the one promised\n"


# ---------------------------------------------------------------- random recordings

def line_of(c, answer, busy):
    count = "-----" if busy is None else f"{busy:05d}"
    return f"{c.kind} {c.rp} {c.oe} {c.vpp:05d} {c.address:04X} {c.data:02X} {shown(answer)} {count}\n".encode()


def host(rnd, state):
    """A cycle that a host might make next."""
    kinds, bytes_ = {
        "F": ("WWWRI", (0x20, 0x40, 0x40, 0xFF, 0x70, 0x50, 0x90, 0xB0)), "C": ("WWWWRI", (0xD0, 0xD0, 0xD0, 0xFF)),
        "D": ("WWWR", (0x00, 0x0F, 0x5A, 0xFF)),
    }.get(state.phase, ("RRRWI", (0xB0, 0xD0, 0x70, 0xFF)))
    vpp = 5000 if state.phase not in IN_FLIGHT and rnd.random() < 0.03 else rnd.choice((12000, 12000, 11400, 12600))
    return Cycle(rnd.choice(kinds), rnd.choice((1, 1, 1, 2)), 0, vpp, rnd.choice((0, 1, 0x10, 0x3800, 0x3A00, 0x3A01, 0x3C00)),
                 rnd.choice(bytes_), 0)


def recorded(rnd, before):
    """The lines of a recording that follows the rules, and the array that it leaves."""
    state, array, lines = FRESH, bytearray(before), []
    most = rnd.choice((0, 1, 3, 10, 25, 40))
    for _ in range(400):
        if len(lines) >= most and (state.phase == "F" or rnd.random() < 0.03):
            break
        c = host(rnd, state)
        answer, after, part = made(state, array, c)
        if answer[0] == "X":
            continue
        busy = rnd.choice((0, 7, 65536, 99999)) if rnd.random() < 0.05 else None
        if starts(state, after):
            busy = rnd.choice((1, 2, 3, 5))
            after = after._replace(left=busy)
        lines.append(line_of(c, answer, busy))
        state, array = after, part
    return lines, bytes(array)


ANYWHERE = -1
SPOILT = [(20, (b"D 00", b"D 80", b"N --", b"D FF", b"D 5A")), (25, (b"00000", b"65536", b"99999", b"-----", b"65535", b"00001")),
          (2, (b"0", b"3")), (6, (b"05000", b"07000", b"00000", b"12601")), (17, (b"00", b"D0", b"B0", b"FF")),
          (ANYWHERE, (b"x", b"X", b" ", b"9", b"-", b"\n"))]


def spoil(rnd, lines, promised, before):
    """One thing that is wrong, or nothing."""
    how = rnd.randrange(12)
    if lines and how < len(SPOILT):
        column, texts = SPOILT[how]
        column = rnd.randrange(31) if column == ANYWHERE else column
        at, text = rnd.randrange(len(lines)), rnd.choice(texts)
        line = lines[at]
        lines = lines[:at] + [line[:column] + text + line[column + len(text):]] + lines[at + 1:]
    text = b"".join(lines)
    if how == 6:
        text = text[:rnd.randrange(len(text) + 1)]
    if how == 7:
        text = b"".join(lines[:rnd.randrange(len(lines) + 1)])
    if how == 8:
        at = rnd.randrange(SIZE)
        promised = promised[:at] + bytes([promised[at] ^ 1 << rnd.randrange(8)]) + promised[at + 1:]
    if how == 9:
        promised = rnd.choice((promised[:-1], promised + b"\xff", promised[:512], b""))
    if how == 10 and rnd.random() < 0.3:
        before = rnd.choice((before[:-1], before + b"\xff", b""))
    return text, promised, before


def compare(runs, seed):
    rnd, met = random.Random(seed), collections.Counter()
    with tempfile.TemporaryDirectory() as folder:
        names = {name: pathlib.Path(folder) / name for name in ("before", "promised")}
        for run in range(runs):
            before = bytearray(BLANK)
            for _ in range(rnd.randrange(4)):
                before[rnd.choice((0x10, 0x3800, 0x3A00, 0x3A01, 0x3C00, 0x3FFF))] = rnd.randrange(256)
            text, promised, before = spoil(rnd, *recorded(rnd, before), bytes(before))
            names["before"].write_bytes(before)
            names["promised"].write_bytes(promised)
            want = said(text, before, promised)
            call = [ROOT / "torfbarke", "recording", "--before", names["before"], "--promised", names["promised"]]
            got = subprocess.run(call, input=text, capture_output=True, check=False)
            if got.stdout.decode() != want or got.returncode != (0 if want.startswith("accepted") else 1):
                print(f"recording_said: run {run}, seed {seed}: {want!r} was expected, {got.stdout!r} came, status {got.returncode}")
                return 1
            met[re.sub(r"\b[0-9A-F]{4}\b|\b[0-9]+\b|D [0-9A-F]{2}", "..", want.strip())] += 1
    print(f"recording_said: {runs} recordings, seed {seed}, {len(met)} kinds of line: no mismatch")
    return 0


def main():
    if sys.argv[1:2] == ["say"]:
        text, before, promised = (BLANK if name == "-" else pathlib.Path(name).read_bytes() for name in sys.argv[2:5])
        print(said(text, before, promised), end="")
        return 0
    return compare(*(int(word) for word in (sys.argv[1:] + ["1000", "28001"][len(sys.argv) - 1:])))


if __name__ == "__main__":
    sys.exit(main())
