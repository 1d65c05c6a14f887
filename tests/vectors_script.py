#!/usr/bin/env python3
"""The sample script, the cases of the program `vectors_script`, and what is printed of both.

    python3 tests/vectors_script.py sample       the sample, as in samples/script.txt
    python3 tests/vectors_script.py answers      its answers, as in tests/samples/script.stdout
    python3 tests/vectors_script.py cases        the cases, as in crates/vectors_script/stdin
    python3 tests/vectors_script.py expected     their lines, as in crates/vectors_script/stdout
    python3 tests/vectors_script.py write        writes the four files
    python3 tests/vectors_script.py check        whether the four files are what the script prints
    python3 tests/vectors_script.py against crates/desk/out/desk COUNT SEED
                                                 whether the program answers COUNT random scripts as the script does: its word script
                                                 the script, its word trace the lines written out

A case is a text put together from pieces, and the room lent for its output. On standard input a piece is `* nnnnn mmm`, a newline and
mmm bytes, to be put nnnnn times; `= rrrrr 000` and a newline runs what was put together, in rrrrr bytes of room. A line of
`vectors_script` shows: the case, the refusal (0 for none), the bytes of output, a digest of the 80,000 bytes lent for the output and
of the array, and the last seven bytes of the output.

The reading of a script below is written from document 02's request (iv): it looks for the first line at fault, and apart from that
makes a tree of the lines and writes it out. The trace written out is replayed by tests/vectors_trace.py. Nothing is shared with
the crates.
"""
import pathlib
import random
import re
import subprocess
import sys

import vectors_trace

# ---------------------------------------------------------------- a script, as the request has it

OPENING = re.compile(rb"\( ([0-9]{3})\n")
MOST_LINES, MOST_WRITTEN, DEEPEST = 3000, 9998, 8


def next_line(text, at):
    """The line at a place: what it is, its count or itself, and where the next begins; None where it is no line of a script.
    (R-script-1)"""
    if text.startswith(b")\n", at):
        return "close", None, at + 2
    opening = OPENING.match(text, at)
    if opening:
        return "open", int(opening.group(1)), at + 6
    if vectors_trace.FORM.fullmatch(text[at : at + 20]):
        return "line", text[at : at + 20], at + 20
    return None


def first_fault(text):
    """The number of the first line at fault, 0 where the script is allowed. (R-script-3)"""
    at, number, total = 0, 1, 0
    counts, items = [], []  # of the groups that are open: their counts, and how many items each has so far
    while at < len(text):
        line = next_line(text, at)
        if number > MOST_LINES or line is None:
            return number
        kind, value, at = line
        if kind == "open":
            if value == 0 or len(counts) == DEEPEST:
                return number
            if items:
                items[-1] += 1
            counts.append(value)
            items.append(0)
        elif kind == "close":
            if not counts or items[-1] == 0:
                return number
            counts.pop()
            items.pop()
        else:
            product = 1
            for count in counts:
                product *= count
            total += product
            if total > MOST_WRITTEN:
                return number
            if items:
                items[-1] += 1
        number += 1
    return number if counts else 0


def tree(text, at=0):
    """The items from a place on, to a closing line or the end: lines, and pairs of a count and items; and where they end. (R-script-1)"""
    items = []
    while at < len(text):
        kind, value, at = next_line(text, at)
        if kind == "close":
            break
        if kind == "open":
            inner, at = tree(text, at)
            items.append((value, inner))
        else:
            items.append(value)
    return items, at


def written_out(items):  # R-script-2
    lines = []
    for item in items:
        if isinstance(item, tuple):
            count, inner = item
            lines += count * written_out(inner)
        else:
            lines.append(item)
    return lines


def run(text):
    """The output of a whole script, and the array that it leaves. (R-script-2)"""
    fault = first_fault(text)
    if fault:
        return b"? %04d\n" % fault, bytearray(b"\xff" * 16384)
    return vectors_trace.replay(b"".join(written_out(tree(text)[0])))


# ---------------------------------------------------------------- the sample

SAMPLE = b"""\
( 003
W 1 0 12000 0010 40
W 1 0 12000 0010 5A
( 002
R 1 0 12000 0010 00
)
W 1 0 12000 0000 FF
R 1 0 12000 0010 00
)
W 1 0 12000 3A00 20
W 1 0 12000 3A00 D0
( 003
I 1 0 12000 0000 00
)
W 1 0 12000 0000 FF
R 9 0 12000 3A00 00
"""

# ---------------------------------------------------------------- the cases

IDLE = b"I 1 0 12000 0000 00\n"
ASK = b"W 1 0 12000 0010 40\n"
DATA = b"W 1 0 12000 0010 5A\n"
POLL = b"R 1 0 12000 0010 00\n"
BACK = b"W 1 0 12000 0000 FF\n"
CLOSE = b")\n"
ROOM = 79984


def opens(n):
    return b"( %03d\n" % n


def nest(depth, count, inside):
    return [(depth, opens(count)), (1, inside), (depth, CLOSE)]


CASES = [
    ("the empty script", [], ROOM),
    ("one line", [(1, IDLE)], ROOM),
    ("the sample", [(1, SAMPLE)], ROOM),
    ("a group of one line, once", [(1, opens(1) + IDLE + CLOSE)], ROOM),
    ("a group of one line, 999 times", [(1, opens(999) + IDLE + CLOSE)], ROOM),
    ("a program, asked for and polled, 20 times", [(1, opens(20) + ASK + DATA + POLL + POLL + BACK + POLL + CLOSE)], ROOM),
    ("a poll that goes on in the next round", [(1, opens(7) + ASK + DATA + POLL + CLOSE + POLL)], ROOM),
    ("two groups side by side", [(1, opens(2) + ASK + DATA + CLOSE + opens(3) + POLL + CLOSE)], ROOM),
    ("a group between lines", [(1, ASK + DATA + opens(2) + POLL + CLOSE + BACK + POLL)], ROOM),
    ("groups in a group", [(1, opens(2) + opens(3) + ASK + CLOSE + DATA + opens(4) + POLL + CLOSE + CLOSE + POLL)], ROOM),
    ("a wrong pin digit is a good line", [(1, opens(2) + b"R 9 7 99999 FFFF FF\n" + CLOSE)], ROOM),
    # counts and forms
    ("count 000", [(1, IDLE + opens(0) + IDLE + CLOSE)], ROOM),
    ("a count of two digits", [(1, b"( 01\n" + IDLE + CLOSE)], ROOM),
    ("a count of four digits", [(1, b"( 0001\n" + IDLE + CLOSE)], ROOM),
    ("a letter in the count", [(1, b"( 0A1\n" + IDLE + CLOSE)], ROOM),
    ("the byte before 0 in the count", [(1, b"( /01\n" + IDLE + CLOSE)], ROOM),
    ("the byte after 9 in the count", [(1, b"( 0:1\n" + IDLE + CLOSE)], ROOM),
    ("no space before the count", [(1, b"(001\n" + IDLE + CLOSE)], ROOM),
    ("two spaces before the count", [(1, b"(  01\n" + IDLE + CLOSE)], ROOM),
    ("a space behind the count", [(1, b"( 001 \n" + IDLE + CLOSE)], ROOM),
    ("a carriage return behind the count", [(1, b"( 001\r\n" + IDLE + CLOSE)], ROOM),
    ("a carriage return behind a closing line", [(1, opens(1) + IDLE + b")\r\n")], ROOM),
    ("a space before a closing line", [(1, opens(1) + IDLE + b" )\n")], ROOM),
    ("a space behind a closing line", [(1, opens(1) + IDLE + b") \n")], ROOM),
    ("a blank line", [(1, opens(1) + IDLE + b"\n" + CLOSE)], ROOM),
    ("a byte of zero", [(1, IDLE + b"\0" + IDLE)], ROOM),
    ("a byte over 127", [(1, IDLE + b"\xc3( 001\n")], ROOM),
    ("a byte of 255 alone", [(1, b"\xff")], ROOM),
    ("a lower-case digit in a group", [(1, opens(2) + b"W 1 0 12000 0010 5a\n" + CLOSE)], ROOM),
    ("a square bracket", [(1, b"[ 002\n" + IDLE + b"]\n")], ROOM),
    # cut off
    ("a trace line without its newline", [(1, IDLE + IDLE[:19])], ROOM),
    ("a closing line without its newline", [(1, opens(2) + IDLE + b")")], ROOM),
    ("an opening line without its newline", [(1, IDLE + b"( 001")], ROOM),
    ("an opening line cut off behind its bracket", [(1, IDLE + b"(")], ROOM),
    ("one byte of a trace line", [(1, IDLE + b"I")], ROOM),
    # empty groups and nesting
    ("an empty group", [(1, opens(1) + CLOSE)], ROOM),
    ("an empty group behind a line", [(1, IDLE + opens(3) + CLOSE + IDLE)], ROOM),
    ("an empty group in a group", [(1, opens(2) + IDLE + opens(3) + CLOSE + CLOSE)], ROOM),
    ("a group of a group is not empty", [(1, opens(2) + opens(2) + IDLE + CLOSE + CLOSE)], ROOM),
    ("a closing line first", [(1, CLOSE)], ROOM),
    ("a closing line too many", [(1, opens(1) + IDLE + CLOSE + CLOSE)], ROOM),
    ("a group that stays open", [(1, opens(1) + IDLE)], ROOM),
    ("two groups that stay open", [(1, opens(1) + opens(1) + IDLE + CLOSE + IDLE + opens(4))], ROOM),
    ("an opening line alone", [(1, opens(1))], ROOM),
    # levels
    ("eight levels", nest(8, 2, ASK + DATA), ROOM),
    ("nine levels", nest(9, 1, IDLE), ROOM),
    ("eight levels, twice", nest(8, 1, IDLE) + nest(8, 1, POLL), ROOM),
    ("a ninth level beside a line", [(8, opens(1)), (1, IDLE + opens(1) + IDLE + CLOSE), (8, CLOSE)], ROOM),
    ("an opening line of 000 as the ninth level", [(8, opens(1)), (1, opens(0))], ROOM),
    # lines written out
    ("9,998 written out", [(1, opens(999) + 10 * IDLE + CLOSE), (8, IDLE)], ROOM),
    ("9,999 written out", [(1, opens(999) + 10 * IDLE + CLOSE), (9, IDLE)], ROOM),
    ("9,998 written out by nested groups", [(1, opens(999) + opens(10) + POLL + CLOSE + CLOSE), (1, opens(8) + POLL + CLOSE)], ROOM),
    ("9,999 written out by nested groups", [(1, opens(999) + opens(10) + POLL + CLOSE + CLOSE), (1, opens(9) + POLL + CLOSE)], ROOM),
    ("9,998 written out: 2 times 4,999", [(1, opens(2) + 4 * (opens(999) + IDLE + CLOSE) + opens(500) + IDLE + CLOSE), (503, IDLE), (1, CLOSE)],
     ROOM),
    ("too many in a group, not in its first round", [(1, opens(999) + 11 * IDLE + CLOSE)], ROOM),
    ("too many by a nested product", [(1, opens(999) + opens(11) + IDLE + CLOSE + CLOSE)], ROOM),
    ("two counts of 999: the line is at fault, not the second count", [(1, opens(999) + opens(999) + IDLE + CLOSE + CLOSE)], ROOM),
    ("eight counts of 999: a product past 64 bits", nest(8, 999, IDLE), ROOM),
    ("eight counts of 256: a product of 2 to the 64", nest(8, 256, IDLE), ROOM),
    ("a line too many behind a product past 64 bits", [(1, 10 * IDLE)] + nest(8, 999, IDLE), ROOM),
    ("seven counts of 512 and one of 2", [(7, opens(512)), (1, opens(2) + IDLE + CLOSE), (7, CLOSE)], ROOM),
    # lines of the script
    ("3,000 lines", [(3000, POLL)], ROOM),
    ("3,001 lines", [(3001, POLL)], ROOM),
    ("3,000 lines and a byte", [(3000, POLL), (1, b"\n")], ROOM),
    ("3,000 lines in 1,000 groups", [(1000, opens(9) + IDLE + CLOSE)], ROOM),
    ("3,000 lines, then an opening line", [(1000, opens(1) + IDLE + CLOSE), (1, opens(1))], ROOM),
    ("3,000 lines in a group that closes on line 3,000", [(1, opens(3)), (2998, IDLE), (1, CLOSE)], ROOM),
    ("a group that would close on line 3,001", [(1, opens(3)), (2999, IDLE), (1, CLOSE)], ROOM),
    ("a group open behind 3,000 lines", [(1, opens(3)), (2999, IDLE)], ROOM),
    ("line 3,000 is bad", [(2999, IDLE), (1, b"X\n")], ROOM),
    # two faults: the first is told
    ("a bad line in a group that stays open", [(1, opens(2) + b"?\n" + IDLE)], ROOM),
    ("an empty group, then a bad line", [(1, opens(2) + CLOSE + b"?\n")], ROOM),
    ("a ninth level, then a closing line too many", nest(9, 2, IDLE) + [(1, CLOSE)], ROOM),
    ("too many written out, then a bad line", [(1, opens(999) + 11 * IDLE + CLOSE + b"?\n")], ROOM),
    ("a bad line, then too many written out", [(1, b"( 1\n" + opens(999) + 11 * IDLE + CLOSE)], ROOM),
    ("a count of 000 and an empty group", [(1, opens(0) + CLOSE)], ROOM),
    ("a closing line too many, then line 3,001", [(1, CLOSE), (3001, IDLE)], ROOM),
    ("good lines, then a fault: nothing is answered", [(500, POLL), (1, b"oops\n")], ROOM),
    # room
    ("room exactly", [(1, opens(4) + IDLE + CLOSE)], 32),
    ("room short by one", [(1, opens(4) + ASK + CLOSE)], 31),
    ("room exactly: a mark", [(1, opens(4) + CLOSE)], 7),
    ("room short by one: a mark", [(1, opens(4) + CLOSE)], 6),
    ("no room, nothing to write", [], 0),
    ("no room, a line", [(1, ASK)], 0),
    ("room short by one at 9,998 lines written out", [(1, opens(999) + 10 * IDLE + CLOSE), (8, IDLE)], ROOM - 1),
]


def text_of(case):
    return b"".join(n * piece for n, piece in case[1])


def rows_of(case):
    return b"".join(b"* %05d %03d\n" % (n, len(piece)) + piece for n, piece in case[1]) + b"= %05d 000\n" % case[2]


def line_of(number, case):
    out, array = run(text_of(case))
    held = bytearray(b"." * 80000)
    refusal, used = 0, len(out)
    if case[2] < len(out):
        refusal, used, array = 37, 0, bytearray(b"\xff" * 16384)
    else:
        held[: len(out)] = out
    last = bytes(held[used - 7 : used]) if used >= 7 else b"\n"
    return b"%d %d %d %04x %04x " % (number, refusal, used, vectors_trace.digest(held), vectors_trace.digest(array)) + last


# ---------------------------------------------------------------- random scripts


def random_items(r, depth, room):
    """Items whose lines written out are few, mostly; now and then a rule is broken."""
    out = b""
    for _ in range(r.choice([1, 1, 2, 3, 5])):
        if depth and room > 3 and r.randrange(3) == 0:
            count = r.choice([1, 1, 2, 2, 3, min(7, room)])
            out += opens(count) + random_items(r, depth - 1, room // count) + CLOSE
        else:
            out += vectors_trace.random_line(r)
    if r.randrange(40) == 0:
        out += r.choice([CLOSE, opens(1), opens(0), opens(2) + CLOSE, b"\n", b"( 1\n", opens(999) + 11 * IDLE + CLOSE])
    return out


def told(program, word, text):
    return subprocess.run([program, word], input=text, stdout=subprocess.PIPE, check=True).stdout


def against(program, count, seed):
    r = random.Random(seed)
    fine = 0
    for _ in range(count):
        text = b"".join(random_items(r, r.choice([0, 2, 8]), 400) for _ in range(r.choice([1, 3, 12])))
        text = text[: len(text) - r.choice([0] * 9 + [1])]
        want = run(text)[0]
        same = told(program, "script", text) == want
        if not first_fault(text):
            fine += 1
            same = same and told(program, "trace", b"".join(written_out(tree(text)[0]))) == want
        if not same:
            sys.stdout.buffer.write(text)
            sys.exit("the program and the script answer this script differently")
    print(f"{count} random scripts answered alike, {fine} of them without a fault")


FILES = {
    "sample": ("samples/script.txt", lambda: SAMPLE),
    "answers": ("tests/samples/script.stdout", lambda: run(SAMPLE)[0]),
    "cases": ("crates/vectors_script/stdin", lambda: b"".join(rows_of(case) for case in CASES)),
    "expected": ("crates/vectors_script/stdout", lambda: b"".join(line_of(i + 1, case) for i, case in enumerate(CASES))),
}


def main():
    root = pathlib.Path(__file__).resolve().parent.parent
    if sys.argv[1:] == ["write"]:
        for name, text in FILES.values():
            (root / name).write_bytes(text())
    elif sys.argv[1:] == ["check"]:
        wrong = [name for name, text in FILES.values() if (root / name).read_bytes() != text()]
        sys.exit("these files are not what the script prints: " + ", ".join(wrong) if wrong else 0)
    elif len(sys.argv) == 5 and sys.argv[1] == "against":
        against(sys.argv[2], int(sys.argv[3]), int(sys.argv[4]))
    elif len(sys.argv) == 2 and sys.argv[1] in FILES:
        sys.stdout.buffer.write(FILES[sys.argv[1]][1]())
    else:
        sys.exit(__doc__)


if __name__ == "__main__":
    main()
