#!/usr/bin/env python3
"""The vectors of the readings, worked out from document 02 (i), (vi), (viii) and document 01 alone.

    python3 tests/vectors_reading.py table      the rows: what crates/vectors_reading reads (its file stdin)
    python3 tests/vectors_reading.py expected   what it must print (its file stdout)
    python3 tests/vectors_reading.py check      whether both files, and those of the three programs, are what the script makes
    python3 tests/vectors_reading.py store      writes them
    python3 tests/vectors_reading.py text K     a table as text, for `torfbarke table write`: K or S

A row is a letter, eight hex digits (x) and four (y). It changes what is held: a payload, a file, and how much of the file and of
the room counts.

    N   the payload is emptied             K   a knot is added: x microvolts, y tenths
    B   the byte x is added                W   the payload is written as a file under the letter x; told: W and its length, or ! and 36
    C   byte x of the file becomes y, and its block gets the check that fits
    E   the file's buffer becomes FFH
    L   x bytes of the file count          M   x bytes of the room count
    J   told: J and the judgement of the payload as a table
    S   told: S and the lower knot of the pair for x
    R   told: the reading of x by the payload, judged or not: T, B or A and the bits of its temperature in tenths, in hex; or ! and 40 or 41
    F   told: the same straight from the file under the letter y, or ! and the refusal; then D and a digest of the room

The tables are those of types K and S, from the reference functions of commands/lib/reference.py: knots at whole degrees, microvolts
rounded to whole ones. Temperatures are worked out in Python's floats, which are IEEE 754 doubles, each operation rounded once.
"""
import math
import pathlib
import struct
import sys

from vectors_file import check as check_of, digest, judge, write
from vectors_model import files_differ

sys.path.insert(0, str(pathlib.Path(__file__).resolve().parent.parent / "commands" / "lib"))
sys.dont_write_bytecode = True
from reference import microvolts  # noqa: E402

ROOM = 4040


def knots(letter, degrees):
    """Knots of whole microvolts and tenths of a degree."""
    return [(round(microvolts(letter, t)), 10 * t) for t in degrees]


TABLE_K = knots("K", list(range(-270, 1372, 4)) + [1372])
TABLE_S = knots("S", range(-50, 1769, 3))
FULL_K = knots("K", range(-270, 1076, 2))


def payload_of(table):
    return b"".join(struct.pack(">ih", x, t) for x, t in table)


def table_of(payload):
    return [struct.unpack(">ih", payload[i:i + 6]) for i in range(0, len(payload) - 5, 6)]


def judged(payload):  # R-reading-1, R-number-40, R-number-41
    table = table_of(payload)
    if len(payload) % 6 or len(table) < 2:
        return 40
    if any(not -10000 <= x <= 80000 for x, _ in table):
        return 41
    if any(a >= b for (a, _), (b, _) in zip(table, table[1:])):
        return 41
    return 0


def pair_of(table, x):
    """The lower knot of the pair that holds x, in a table; -1 below it and above it."""
    if not table[0][0] <= x <= table[-1][0]:
        return -1
    return next(i for i in range(len(table) - 1) if x < table[i + 1][0] or i + 2 == len(table))


def reading(table, x):
    """The case and the temperature in tenths, as a float, by a table that was judged. (R-reading-3)"""
    if x < table[0][0]:
        return "B", float(table[0][1])
    if x > table[-1][0]:
        return "A", float(table[-1][1])
    return by_pair(table, pair_of(table, x), x)


def by_pair(table, i, x):  # R-reading-2
    x0, t0, x1, t1 = map(float, table[i] + table[i + 1])
    return "T", t0 + (t1 - t0) * (float(x) - x0) / (x1 - x0)


def rises(low, high):
    """Both knots in range, and the second above the first."""
    return -10000 <= low[0] < high[0] <= 80000


def unjudged(payload, x):
    """The reading by a payload that nobody judged: 40 by its length; 41 where the first and the last knot are out of range or do not
    rise, or the pair that halving ends with; else the reading, by these knots alone. (R-number-40, R-number-41)"""
    table = table_of(payload)
    if len(payload) % 6 or len(table) < 2:
        return "!", 40
    if not rises(table[0], table[-1]):
        return "!", 41
    if not table[0][0] <= x <= table[-1][0]:
        return reading(table, x)
    low, high = 0, len(table) - 1
    while high - low > 1:
        middle = low + (high - low) // 2
        low, high = (middle, high) if table[middle][0] <= x else (low, middle)
    return by_pair(table, low, x) if rises(table[low], table[high]) else ("!", 41)


def told(answer):  # R-reading-3
    if answer[0] == "!":
        return f"! {answer[1]}"
    return f"{answer[0]} {struct.pack('>d', answer[1]).hex()}"


def degrees(tenths):
    """In degrees with one decimal: the nearest whole tenth, a half away from zero."""
    n = math.floor(2 * abs(tenths))
    n = (n + 1) // 2
    return f"{'-' if tenths <= -0.5 else ''}{n // 10}.{n % 10}"


class Rows:
    """Rows, and what the program must tell of them."""

    def __init__(self):
        self.rows, self.lines = [], []
        self.payload, self.file, self.length, self.room = b"", bytearray(4608), 0, ROOM

    def row(self, letter, x=0, y=0):
        self.rows.append(f"{letter} {x & 0xFFFFFFFF:08X} {y & 0xFFFF:04X}")

    def table(self, table, more=b""):
        self.row("N")
        self.payload = payload_of(table) + more
        for x, t in table:
            self.row("K", x, t)
        for b in more:
            self.row("B", b)

    def judge(self):
        self.row("J")
        self.lines.append(f"J {judged(self.payload)}")

    def read(self, *xs):
        for x in xs:
            self.row("R", x)
            answer = unjudged(self.payload, x)
            # a table that the judgement lets through is read as it always was
            assert judged(self.payload) or answer == reading(table_of(self.payload), x)
            # and what is refused, the judgement refuses by the same number
            assert answer[0] != "!" or judged(self.payload) == answer[1]
            self.lines.append(told(answer))

    def seek(self, *xs):
        for x in xs:
            self.row("S", x)
            self.lines.append(f"S {pair_of(table_of(self.payload), x)}")

    def write(self, letter):
        self.row("W", ord(letter))
        number, made = write(ord(letter), self.payload)
        if number:
            self.length = 0
            self.lines.append(f"! {number}")
        else:
            self.length = len(made)
            self.file[:len(made)] = made
            self.lines.append(f"W {len(made)}")

    def forge(self, at, b):
        self.row("C", at, b)
        self.file[at] = b
        k = at // 512
        self.file[512 * k + 510:512 * k + 512] = check_of(self.file[512 * k:512 * k + 510]).to_bytes(2, "big")

    def erase(self):
        self.row("E")
        self.file[:] = b"\xff" * len(self.file)

    def cut(self, length):
        self.row("L", length)
        self.length = length

    def lend(self, room):
        self.row("M", room)
        self.room = room

    def ask(self, letter, *xs):
        for x in xs:
            self.row("F", x, ord(letter))
            room = bytearray(b"\x5a" * self.room)
            number, payload = judge(bytes(self.file[:self.length]), ord(letter))
            if not number and len(payload) > self.room:
                number = 37
            if not number:
                room[:len(payload)] = payload
                number = judged(payload)
            self.lines.append(f"! {number}" if number else told(reading(table_of(payload), x)))
            self.lines.append(f"D {digest(room)}")


def around(table, step=1):
    """Voltages at, before and behind knots, and between them."""
    xs = set()
    for (a, _), (b, _) in list(zip(table, table[1:]))[::step]:
        xs |= {a, a + 1, b - 1, b} | {a + k * (b - a) // 7 for k in range(1, 7)}
    return sorted(xs | {table[0][0] - 1, table[-1][0], table[-1][0] + 1})


FAR = (-2147483648, -80001, -10001, -10000, -1, 0, 1, 80000, 80001, 2147483647)
# where a quotient taken before the product shows in the last bit
UNEVEN = [(0, -32768), (49, 32767), (147, -3), (588, 10000), (1117, 9999), (3041, -20011), (9973, 31013), (49999, -1), (79999, 7)]
EDGES = [(-10000, -32768), (-1, 0), (0, -1), (1, 32767), (7, 32766), (80000, -32768)]
THIRDS = [(0, 0), (3, 1), (7, -1), (10, 9), (21, 0), (1000, 7), (1001, 7)]


def all_rows():
    r = Rows()
    # small tables: thirds and sevenths of a tenth, falling temperatures, the ends of the ranges
    for table in (THIRDS, UNEVEN, EDGES, [(0, 0), (1, 0)], [(-10000, 5), (80000, -5)]):
        r.table(table)
        r.judge()
        r.seek(*[x for x in around(table) if table[0][0] <= x <= table[-1][0]])
        r.read(*around(table), *FAR)
    # payloads that no judgement lets through, read all the same: no table by its length
    for table, more in (([], b""), ([], b"\xff" * 5), ([(5, -7)], b""), ([(5, -7)], b"\0"), ([(5, -7)], b"\0\0\0"), (THIRDS, b"\0"),
                        (THIRDS, b"\0" * 5)):
        r.table(table, more)
        r.read(4, 5, 0, FAR[0], FAR[-1])
    # .. by its ends: equal, falling, out of range
    for ends in ((5, 5), (5, 4), (80000, -10000), (-10001, 4), (-10001, -10000), (0, 80001), (80000, 80001), (2147483647, -2147483648),
                 (-2147483648, 2147483647), (80001, 90000), (-20000, -10001)):
        for between in ([], [(1, 3), (2, 4)]):
            r.table([(ends[0], 0), *between, (ends[1], 1)])
            r.read(ends[0], ends[1], 3, FAR[0], FAR[-1])
    # .. by a pair: equal, falling, its lower or its upper knot out of range; where the search does not meet it, the reading is given
    for inner in ([(5, 1), (5, 2)], [(5, 1), (4, 2)], [(-10001, 1), (6, 2)], [(5, 1), (80001, 2)], [(-2147483648, 1), (2147483647, 2)],
                  [(5, 1), (5, 2), (5, 3)], [(9, 9), (7, 8), (5, 7), (3, 6), (1, 5)], [(80001, 4), (5, 3)], [(3, 1), (-10001, 2)]):
        for table in ([(0, 0), *inner, (10, 9)], [(-30, 0), (-20, 5), (-10, 7), (0, 0), *inner, (10, 9)]):
            r.table(table)
            r.read(-25, -1, 0, 4, 5, 6, 9, 10, 11)
    # 40 and 41
    for table, more in (([], b""), ([(0, 0)], b""), (THIRDS, b"\0"), (THIRDS, b"\0" * 5), ([(5, 0), (5, 1)], b""), ([(5, 0), (4, 1)], b""),
                        ([(-10001, 0), (4, 1)], b""), ([(0, 0), (80001, 1)], b""), ([(0, 0), (4, 1), (4, 2)], b""),
                        ([(5, 0), (4, 1)], b"\0"),
                        ([(2147483647, 0), (-2147483648, 1)], b""), ([(0, 0), (1, 1), (2, 2), (1, 3)], b"")):
        r.table(table, more)
        r.judge()
        if table or more:
            r.write("T")
            r.ask("T", 3)
    # type K: the whole table, from the payload and from the file
    r.table(TABLE_K)
    r.judge()
    r.read(*around(TABLE_K, 23), *FAR)
    r.write("K")
    r.ask("K", *around(TABLE_K, 71), 4096, 41276)
    # the mishap: the file of S under the letter K; and a table of K whose letter was forged to S, read with an S probe's voltage
    s_probe = round(microvolts("S", 1000))
    for k in range((6 * len(TABLE_K) + 504) // 505):
        r.forge(512 * k, ord("S"))
    r.ask("K", s_probe)
    r.ask("S", s_probe)
    r.table(TABLE_S)
    r.judge()
    r.read(*around(TABLE_S, 37))
    r.write("S")
    r.ask("K", s_probe)
    r.ask("S", s_probe, *around(TABLE_S, 101))
    # room: exactly enough, one short, none; a file cut short, a wrong check, another letter before a wrong table
    for room in (6 * len(TABLE_S), 6 * len(TABLE_S) - 1, 0, ROOM):
        r.lend(room)
        r.ask("S", s_probe)
    r.cut(512)
    r.ask("S", s_probe)
    r.cut(511)
    r.ask("S", s_probe)
    # blank: one block, eight, a file with one behind it, and one whose check was put right
    r.erase()
    for length in (512, 4096):
        r.cut(length)
        r.ask("S", s_probe)
    r.write("S")
    r.cut(r.length + 512)
    r.ask("S", s_probe)
    r.erase()
    r.cut(512)
    r.forge(5, 255)
    r.ask("S", s_probe)
    # the longest table of eight blocks, and one knot more: nine
    r.table(FULL_K)
    r.judge()
    r.write("K")
    r.ask("K", *around(FULL_K, 97))
    longer = FULL_K + [(80000, 0)]
    r.table(longer)
    r.judge()
    r.write("K")
    r.ask("K", 0)
    r.lend(6 * len(longer))
    r.ask("K", *around(longer, 336))
    assert 16 * len(r.rows) <= 65536, "the program takes no more than 65,536 bytes"
    return r


def stored():
    """The samples of three words of the command: their calls, what they read and what they must print."""
    text = lambda table: "".join(f"{x} {t}\n" for x, t in table).encode()
    file_k, file_s = write(ord("K"), payload_of(TABLE_K))[1], write(ord("S"), payload_of(TABLE_S))[1]
    x = 20218
    answer = reading(TABLE_K, x)
    return {
        "read.args": f"read\ntests/samples/k.load\nK\n{x}\n".encode(),
        "k.load": file_k,
        "read.stdout": f"{degrees(answer[1])}\n".encode(),
        "write.args": b"table\nwrite\nS\n",
        "write.stdin": text(TABLE_S),
        "write.stdout": file_s,
        "print.args": b"table\nprint\ntests/samples/k.load\nK\n",
        "print.stdout": text(TABLE_K),
    }


def differ():
    """The stored files that are not what this script makes."""
    samples = pathlib.Path(__file__).resolve().parent / "samples"
    wrong = [f"vectors_reading/{name}" for name in files_differ("vectors_reading", all_rows())]
    return wrong + [name for name, data in stored().items() if (samples / name).read_bytes() != data]


def store():
    crates = pathlib.Path(__file__).resolve().parent.parent / "crates"
    rows = all_rows()
    (crates / "vectors_reading" / "stdin").write_text("\n".join(rows.rows) + "\n")
    (crates / "vectors_reading" / "stdout").write_text("\n".join(rows.lines) + "\n")
    for name, data in stored().items():
        (crates.parent / "tests" / "samples" / name).write_bytes(data)


def main(asked):
    if asked == ["table"]:
        print("\n".join(all_rows().rows))
    elif asked == ["expected"]:
        print("\n".join(all_rows().lines))
    elif asked == ["check"]:
        wrong = differ()
        if wrong:
            sys.exit("not what the script makes: " + ", ".join(wrong))
        print("vectors_reading: stdin and stdout, and the files of the reading programs, are what the script makes")
    elif asked == ["store"]:
        store()
    elif asked[:1] == ["text"] and asked[1:] in (["K"], ["S"]):
        print("\n".join(f"{x} {t}" for x, t in (TABLE_K if asked[1] == "K" else TABLE_S)))
    else:
        sys.exit(__doc__)


if __name__ == "__main__":
    main(sys.argv[1:])
