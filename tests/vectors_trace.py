#!/usr/bin/env python3
"""The sample trace, the cases of the program `vectors_trace`, and what the programs must print.

    python3 tests/vectors_trace.py sample       the sample, as in crates/desk/stdin
    python3 tests/vectors_trace.py answers      its answers, as in crates/desk/stdout
    python3 tests/vectors_trace.py expected     the lines of the cases, as in crates/vectors_trace/stdout
    python3 tests/vectors_trace.py write        writes these files
    python3 tests/vectors_trace.py check        whether they are what the script prints
    python3 tests/vectors_trace.py against crates/desk/out/desk trace COUNT SEED
                                                whether the program's word trace, or table, answers COUNT random traces as the script does

The program `vectors_trace` runs every case by the rules and then every case by the table: the same lines twice. A line shows: the
case, the refusal (0 for none), the bytes of output, a digest of the 80,000 bytes lent for the output and of the array, and the last
seven bytes of the output.

The reading of a trace below is written from document 01's section 'Trace program'; the chip behind it is the model of
tests/vectors_model.py, written from the same page. Neither shares anything with the crates.
"""
import pathlib
import random
import re
import subprocess
import sys

from vectors_model import FRESH, Cycle, Device, cycle

# ---------------------------------------------------------------- a trace, as the page has it

BENCH_T = Device(3, 2, 3)
FORM = re.compile(rb"([RWI]) ([0-9]) ([0-9]) ([0-9]{5}) ([0-9A-F]{4}) ([0-9A-F]{2})\n", re.DOTALL)
LAST = 9999


def printed(answer, state):  # R-trace-2
    letter, value = answer
    seen = {"D": f"D {value:02X}", "N": "N --", "X": f"X {value:02d}"}[letter]
    return f"{seen} {state.status:02X}\n".encode()


def replay(text):
    """The output of a whole input, and the array it leaves. (R-trace-3, R-trace-1)"""
    array, residue = bytearray(b"\xff" * 16384), b"\xff" * 16384
    state, number = FRESH, 1
    lines = []
    while text:
        line, text = text[:20], text[20:]
        form = FORM.fullmatch(line)
        if number == LAST or form is None:
            lines.append(b"? %04d\n" % number)
            break
        kind, rp, oe, vpp, address, byte = (part.decode() for part in form.groups())
        c = Cycle(kind, int(rp), int(oe), int(vpp), int(address, 16), int(byte, 16))
        answer, state = cycle(BENCH_T, state, c, array, residue)
        lines.append(printed(answer, state))
        number += 1
    return b"".join(lines), array


# ---------------------------------------------------------------- the sample

EXAMPLE = """\
W 1 0 12000 0010 40      N -- 80
W 1 0 12000 0010 5A      N -- 00
R 1 0 12000 0010 00      D 00 00
R 1 0 12000 0010 00      D 80 80
W 1 0 12000 0000 FF      N -- 80
R 1 0 12000 0010 00      D 5A 80
W 1 0 12000 0000 00      X 07 80
R 1 0 05000 4000 00      X 05 80
"""

SAMPLE = """\
W 1 0 12000 0010 40  a program of 0FH over 5AH
W 1 0 12000 0010 0F
I 1 0 12000 0000 00
I 1 0 12000 0000 00
W 1 0 12000 0000 FF
R 1 0 12000 0010 00
W 1 0 12000 0010 20  an erase of block 3: three cycles
W 1 0 12000 0010 D0
R 1 0 12000 0010 00
R 1 0 12000 0010 00
R 1 0 12000 0010 00
W 1 0 12000 0000 FF
R 1 0 12000 0010 00
R 3 0 12000 0010 00  pin levels that are no levels: RP# 3 and 9, OE# 2, OE# 1 on a read and on an idle cycle
R 9 0 12000 0010 00
W 1 2 12000 0010 FF
R 1 1 12000 0010 00
I 1 1 12000 0010 00
R 1 0 06500 0010 00  supply: 6,500, 11,400 and 12,600 mV are levels, what lies beside them is none
R 1 0 06501 0010 00
R 1 0 11399 0010 00
R 1 0 11400 0010 00
R 1 0 12600 0010 00
R 1 0 12601 0010 00
R 1 0 99999 0010 00
R 1 0 12000 3FFF 00  the last address, and the first past it
R 1 0 12000 4000 00
W 1 0 12000 FFFF FF
I 1 0 12000 FFFF 00
W 1 0 12000 0000 D0  with nothing awaited D0H is no command, and B0H sets read array
W 1 0 12000 0000 B0
W 1 0 12000 0000 90  identifier
R 1 0 12000 0000 00
R 1 0 12000 0001 00
R 1 0 12000 0002 00
W 1 0 12000 0000 FF
W 1 0 12000 3A00 20  a suspend in block 1, an array read inside it and beside it, a resume
W 1 0 12000 3A00 D0
W 1 0 12000 3A00 B0
R 1 0 12000 3A00 00
W 1 0 12000 0000 FF
R 1 0 12000 3A00 00
R 1 0 12000 3BFF 00
R 1 0 12000 3C00 00
W 1 0 12000 0000 20
W 1 0 12000 0000 D0
R 1 0 12000 3A00 00
R 1 0 12000 3A00 00
R 1 0 12000 3A00 00
W 1 0 12000 0000 20  20H, then a byte that is not D0H
W 1 0 12000 0000 FF
W 1 0 12000 0000 50
W 1 0 12000 3C00 20  the boot block is locked; RP# or OE# at V_HH opens it
W 1 0 12000 3C00 D0
W 1 0 12000 0000 50
W 1 0 12000 3C00 40
W 1 1 12000 3C00 12
R 1 0 12000 3C00 00
R 1 0 12000 3C00 00
W 2 0 12000 3C00 20
W 2 0 12000 3C00 D0
R 2 0 12000 3C00 00
R 2 0 12000 3C00 00
R 2 0 12000 3C00 00
W 1 0 12000 0020 40  a program cut by VPP
W 1 0 12000 0020 00
R 1 0 05000 0020 00
W 1 0 12000 0000 40  SR.3 bars a program until 50H
W 1 0 12000 0020 00
W 1 0 12000 0000 50
W 1 0 12000 0020 40  a program cut by RP#, with an address past the array on that cycle
W 1 0 12000 0020 00
R 0 0 12000 FFFF 00
R 1 0 12000 0020 00
W 1 0 12000 0020 20  an erase cut by RP#
W 1 0 12000 0020 D0
I 0 0 00000 0000 00
W 1 0 12000 0020 20  an erase cut by VPP on a write that is a command; then the error bits cleared
W 1 0 12000 0020 D0
W 1 0 00000 0000 70
R 1 0 00000 0000 00
W 1 0 00000 0000 50
W 1 0 06500 0020 40  a program confirmed at 6,500 mV
W 1 0 06500 0020 00
W 1 0 06500 0000 50
W 1 0 12000 0030 40  with one cycle to go a bad byte is refused and counts nothing
W 1 0 12000 0030 3C
W 1 0 12000 0030 00
W 1 0 12000 0030 00
R 1 0 12000 0030 00
W 1 0 12000 0000 FF
R 1 0 12000 0030 00
"""


def sample():
    """The whole example of the page, the sample above, and a bad line, after which nothing is read. (R-trace-4)"""
    lines = [row[:19] + "\n" for row in (EXAMPLE + SAMPLE).splitlines()]
    return "".join(lines).encode() + b"R 1 0 12000 0030 3c\n" + lines[0].encode()


# ---------------------------------------------------------------- the cases of `vectors_trace`

# four lines, repeated: a program is asked for, given, and polled twice
FOUR = b"W 1 0 12000 0010 40\nW 1 0 12000 0010 5A\nR 1 0 12000 0010 00\nR 1 0 12000 0010 00\n"
TEXT = 200100
NOWHERE = 300000

# what the case shows; bytes of input; a place in it, and the byte put there; bytes of room
CASES = [
    ("empty input", 0, NOWHERE, 0, 79991),
    ("one line", 20, NOWHERE, 0, 79991),
    ("9,998 lines", 199960, NOWHERE, 0, 79991),
    ("9,998 lines and a byte", 199961, NOWHERE, 0, 79991),
    ("9,999 lines", 199980, NOWHERE, 0, 79991),
    ("10,001 lines", 200020, NOWHERE, 0, 79991),
    ("9,999 lines, the last one bad", 199980, 199960, ord("?"), 79991),
    ("9,998 lines, the last one bad", 199960, 199959, ord(" "), 79991),
    ("a line cut off by its newline", 59, NOWHERE, 0, 79991),
    ("a line of one byte", 61, NOWHERE, 0, 79991),
    ("a lower-case address digit", 80, 54, ord("a"), 79991),
    ("a lower-case data digit", 80, 38, ord("f"), 79991),
    ("a lower-case kind", 80, 40, ord("r"), 79991),
    ("a carriage return for the newline", 80, 39, 13, 79991),
    ("a carriage return for the last digit", 80, 38, 13, 79991),
    ("RP# 3", 80, 22, ord("3"), 79991),
    ("RP# 9", 80, 22, ord("9"), 79991),
    ("OE# 7", 80, 24, ord("7"), 79991),
    ("RP# no digit: A", 80, 22, ord("A"), 79991),
    ("OE# no digit: a space", 80, 24, ord(" "), 79991),
    ("a byte over 127 in the data", 80, 37, 0xC3, 79991),
    ("a byte over 127 for the space", 80, 1, 0xA0, 79991),
    ("a byte of 255 for the newline", 80, 79, 255, 79991),
    ("a tab for a space", 80, 5, 9, 79991),
    ("a letter past F", 80, 53, ord("G"), 79991),
    ("the byte before 0", 80, 26, ord("/"), 79991),
    ("the byte after 9", 80, 26, ord(":"), 79991),
    ("the byte before A", 80, 52, ord("@"), 79991),
    ("capital F", 80, 52, ord("F"), 79991),
    ("a kind that is none", 80, 20, ord("X"), 79991),
    ("room exactly: four answers", 80, NOWHERE, 0, 32),
    ("room short by one: four answers", 80, NOWHERE, 0, 31),
    ("room exactly: three answers and a mark", 79, NOWHERE, 0, 31),
    ("room short by one: three answers and a mark", 79, NOWHERE, 0, 30),
    ("no room, nothing to write", 0, NOWHERE, 0, 0),
    ("no room, a byte of input", 1, NOWHERE, 0, 0),
    ("room short by one at 9,999 lines", 199980, NOWHERE, 0, 79990),
]


def digest(part):
    h = 0
    for b in part:
        h = (31 * h + b) % 65521
    return h


def line_of(number, case):
    _, n, at, byte, room = case
    text = bytearray((FOUR * (TEXT // len(FOUR) + 1))[:TEXT])
    if at < len(text):
        text[at] = byte
    out, array = replay(bytes(text[:n]))
    held = bytearray(b"." * 80000)
    refusal, used = 0, len(out)
    if room < len(out):
        refusal, used, array = 37, 0, bytearray(b"\xff" * 16384)
    else:
        held[: len(out)] = out
    last = bytes(held[used - 7 : used]) if used >= 7 else b"\n"
    return b"%d %d %d %04x %04x " % (number, refusal, used, digest(held), digest(array)) + last


# ---------------------------------------------------------------- random traces


def random_line(r):
    """A line that is mostly a plausible cycle: a command, a poll, an array read; now and then odd pins or a bad byte."""
    kind = r.choice("RRWWWI")
    rp = r.choice("1111111111222039")
    oe = r.choice("00000000011127") if kind == "W" else r.choice("000000000001")
    vpp = r.choice(["12000"] * 12 + ["11400", "12600", "06500", "00000", "05000", "06501", "11399", "12601", "99999"])
    address = r.choice(["0010"] * 5 + ["0011", "3A00", "3A01", "3BFF", "3C00", "3FFF", "3800", "39FF", "37FF", "0000", "0001", "0002",
                                       "4000"])
    byte = r.choice(["FF", "20", "D0", "40", "40", "70", "50", "B0", "90", "D0", "00", "5A", f"{r.randrange(256):02X}"])
    line = bytearray(f"{kind} {rp} {oe} {vpp} {address} {byte}\n".encode())
    if r.randrange(400) == 0:
        line[r.randrange(20)] = r.randrange(256)
    return bytes(line)


def against(program, word, count, seed):
    r = random.Random(seed)
    for _ in range(count):
        text = b"".join(random_line(r) for _ in range(r.choice([1, 7, 60, 400])))
        text = text[: len(text) - r.choice([0, 0, 0, 1, 19])]
        told = subprocess.run([program, word], input=text, stdout=subprocess.PIPE, check=True).stdout
        if told != replay(text)[0]:
            sys.stdout.buffer.write(text)
            sys.exit("the program and the script answer this trace differently")
    print(f"{count} random traces answered alike")


FILES = {
    "sample": (["desk/stdin"], sample),
    "answers": (["desk/stdout"], lambda: replay(sample())[0]),
    "expected": (["vectors_trace/stdout"], lambda: 2 * b"".join(line_of(i + 1, case) for i, case in enumerate(CASES))),
}


def main():
    crates = pathlib.Path(__file__).resolve().parent.parent / "crates"
    # the page's own answers to its example, before anything else is believed
    example = [row.split("      ") for row in EXAMPLE.splitlines()]
    told = replay("".join(left + "\n" for left, _ in example).encode())[0].decode().splitlines()
    assert told == [right for _, right in example], told
    if sys.argv[1:] == ["write"]:
        for names, text in FILES.values():
            for name in names:
                (crates / name).write_bytes(text())
    elif sys.argv[1:] == ["check"]:
        wrong = [name for names, text in FILES.values() for name in names if (crates / name).read_bytes() != text()]
        sys.exit("these files are not what the script prints: " + ", ".join(wrong) if wrong else 0)
    elif len(sys.argv) == 6 and sys.argv[1] == "against":
        against(sys.argv[2], sys.argv[3], int(sys.argv[4]), int(sys.argv[5]))
    elif len(sys.argv) == 2 and sys.argv[1] in FILES:
        sys.stdout.buffer.write(FILES[sys.argv[1]][1]())
    else:
        sys.exit(__doc__)


if __name__ == "__main__":
    main()
