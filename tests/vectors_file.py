#!/usr/bin/env python3
"""The vectors of the load file, worked out from documents 01 and 02 alone.

    python3 tests/vectors_file.py table      the cases, one a line: what crates/vectors_file reads (its file stdin)
    python3 tests/vectors_file.py expected   what it must print (its file stdout)
    python3 tests/vectors_file.py check      whether both files are what the script prints
    python3 tests/vectors_file.py told       the cases and lines, with what each case is about

A case: a payload is written under a letter into the front of a buffer of one byte (A5H; FFH where blank blocks are
wanted), some bytes of the buffer are changed (up to two), up to two blocks get the check that fits them, some bytes
are changed after that (up to two), and the front of the buffer is judged and read for a letter into the front of a
buffer of 5AH.
"""
import sys

from vectors_model import called

LETTERS = b"BEJKNRST"
MOST, OLD = 224, 8  # blocks, now and before
FILE, BACK, NONE = (5200, 115300), (4200, 113600), 999999  # of a short file, and of a long one


def check(first):  # R-file-2
    return (1 + sum((i + 1) * b for i, b in enumerate(first[:510]))) % 65521


def write(letter, payload):  # R-file-1, R-number-32, R-number-36
    if letter not in LETTERS:
        return 32, None
    if not 1 <= len(payload) <= 505 * MOST:
        return 36, None
    parts = [payload[i:i + 505] for i in range(0, len(payload), 505)]
    out = b""
    for i, part in enumerate(parts):
        head = bytes([letter, i, len(parts), len(part) >> 8, len(part) & 255])
        first = head + part + b"\xff" * (505 - len(part))
        out += first + check(first).to_bytes(2, "big")
    return 0, out


def judge(data, asked, most=MOST):  # R-number-30 to R-number-35, R-number-38, R-order-6
    if len(data) == 0 or len(data) > 512 * most or len(data) % 512:
        return 30, None
    count = len(data) // 512
    payload = b""
    for i in range(count):
        b = data[512 * i:512 * i + 512]
        if b == b"\xff" * 512:
            return 38, None
        if check(b) != b[510] * 256 + b[511]:
            return 31, None
        if b[0] not in LETTERS or b[0] != data[0]:
            return 32, None
        if b[1] != i or b[2] != count:
            return 33, None
        used = b[3] * 256 + b[4]
        if i + 1 < count and used != 505 or not 1 <= used <= 505:
            return 34, None
        if any(x != 255 for x in b[5 + used:510]):
            return 34, None
        payload += b[5:5 + used]
    if data[0] != asked:
        return 35, None
    return 0, payload


def pattern(size):
    return bytes((7 * i + 3) % 251 for i in range(size))


def digest(data):
    d = 0
    for b in data:
        d = (31 * d + b) % 65521
    return d


CASES = []


def row_of(letter="B", size=1, room=None, before=(), seal=(), after=(), length=None, asked=None, back=None, fill=0xA5):
    """The eighteen numbers of a case; the last two: whether its buffers are those of a long file, what they hold before."""
    letter = letter if isinstance(letter, int) else ord(letter)
    asked = letter if asked is None else asked if isinstance(asked, int) else ord(asked)
    if length is None:
        length = max(512, 512 * ((min(size, 505 * MOST) + 504) // 505))
    long = int(max(size, length) > 4200)
    room, back = FILE[long] if room is None else room, BACK[long] if back is None else back
    two = lambda pairs: [x for pair in (list(pairs) + [(NONE, 0)] * 2)[:2] for x in pair]
    seals = (list(seal) + [NONE] * 2)[:2]
    return [letter, size, room] + two(before) + seals + two(after) + [length, asked, back, long, fill]


def case(told, *about, **more):
    CASES.append((told, row_of(*about, **more)))


def spoiled(row, payload):
    """The writer's refusal and length, and the buffer once the case's changes are made in it."""
    letter, _, room, p1, v1, p2, v2, s1, s2, q1, w1, q2, w2 = row[:13]
    whole = FILE[row[16]]
    file = bytearray([row[17]] * whole)
    number, made = write(letter, payload)
    if not number and len(made) > room:
        number = 37
    if not number:
        file[:len(made)] = made
    for p, v in (p1, v1), (p2, v2):
        if p < whole:
            file[p] = v
    for s in s1, s2:
        if s < MOST and 512 * s + 512 <= whole:
            file[512 * s + 510:512 * s + 512] = check(file[512 * s:512 * s + 510]).to_bytes(2, "big")
    for p, v in (q1, w1), (q2, w2):
        if p < whole:
            file[p] = v
    return number, 0 if number else len(made), file


def run(row):  # R-file-3, R-file-4, R-number-37
    length, asked, back, long = row[13:17]
    out = bytearray(b"\x5a" * BACK[long])
    number, made, file = spoiled(row, pattern(row[1]))
    said = f"W!{number}" if number else f"W={made}"
    data = bytes(file[:length])
    number, payload = judge(data, asked)
    # under the limit from before: the same up to eight blocks, and 30 for more
    assert judge(data, asked, OLD) == ((number, payload) if length <= 512 * OLD else (30, None))
    said += f" J!{number}" if number else f" J={len(payload)}"
    if not number and len(payload) > back:
        number = 37
    if number:
        said += f" R!{number}"
    else:
        out[:len(payload)] = payload
        said += f" R={len(payload)}"
    return f"{said} F {digest(file)} B {digest(out)}"


def fill():  # R-card-14, R-number-30 to R-number-37, R-order-6
    blocks = lambda size: 512 * ((size + 504) // 505)
    for size in (0, 1, 504, 505, 506, 1010, 1011, 4039, 4040, 4041, 4545, 4546, 113119, 113120, 113121):
        case(f"payload of {size}", size=size)
    for letter in "BEJKNRST":
        case(f"letter {letter}", letter, 20)
    for size in (1, 505, 506, 1011, 4040, 4041, 113120):
        case(f"{size}: writer's room exact", size=size, room=blocks(size))
        case(f"{size}: writer's room one short", size=size, room=blocks(size) - 1)
        case(f"{size}: reader's room exact", size=size, back=size)
        case(f"{size}: reader's room one short", size=size, back=size - 1)
    case("no room for the writer", size=1, room=0)
    for letter in (0, 65, 67, 98, 85, 255):
        case(f"letter {letter}: 32", letter, 20)
    case("32 before 36 and 37", 65, 0, 0)
    case("36 before 37, none", "B", 0, 0)
    case("36 before 37, too many", "B", 113121, 0)
    for length in (0, 1, 511, 513):
        case(f"one block read at length {length}: 30", length=length)
    for length in (4095, 4097, 4609):
        case(f"eight blocks read at length {length}: 30", size=4040, length=length)
    for length in (4608, 5120):
        case(f"eight blocks read at length {length}: 33", size=4040, length=length)
    for length in (114687, 114689, 115200):
        case(f"224 blocks read at length {length}: 30", size=113120, length=length)
    case("nine blocks: 30 under the old limit, read now", "K", 4041)
    case("nine blocks, of which eight are read: 33", size=4041, length=4096)
    case("31: block 223 of 224 damaged", size=113120, before=[(114176 + 300, 9)], asked="T")
    case("31: block 223 of 224, its check", size=113120, before=[(114687, 1), (114686, 1)])
    case("33: block 223 of 224 says 222", size=113120, before=[(114177, 222)], seal=[223])
    case("33: block 223 of 224 counts 223", size=113120, before=[(114178, 223)], seal=[223])
    case("34: block 222 of 224 uses 504", size=113120, before=[(113664 + 4, 248)], seal=[222])
    case("35: 224 blocks", size=113120, asked="T")
    case("37: 224 blocks, no room", size=113120, back=0)
    case("30 before 31", before=[(0, 1)], length=1023)
    case("one block of two: 33", size=506, length=512)
    case("a block too many: 33", size=505, length=1024)
    for p in (0, 1, 2, 3, 4, 5, 6, 509, 510, 511):
        case(f"31: byte {p} of the only block", size=1, before=[(p, 17)])
        case(f"31: byte {p} of the last block of eight", size=4040, before=[(3584 + p, 17)], asked="T")
    case("31: byte 700, in block 1 of 3", size=1011, before=[(700, 0)])
    case("two changes that cancel out", size=505, before=[(5, 5), (11, 44)])
    # a block whose check is small, with 65,521 added to what it carries
    data = bytearray(write(66, pattern(400))[1])
    found = None
    for a in range(256):
        for b in range(256):
            data[5], data[404] = a, b
            if check(data) < 15:
                found = (a, b, check(data))
                break
        if found:
            break
    a, b, c = found
    case("a small check, as it is", size=400, before=[(5, a), (404, b)], seal=[0])
    case("65,521 more than the check: 31", size=400, before=[(5, a), (404, b)], seal=[0],
         after=[(510, (c + 65521) >> 8), (511, (c + 65521) & 255)])
    case("32: block 0 with no letter, asked for", size=20, before=[(0, 65)], seal=[0], asked="A")
    case("32: block 0 with no letter", size=20, before=[(0, 65)], seal=[0])
    case("32: last block of eight with another letter", size=4040, before=[(3584, ord("T"))], seal=[7])
    case("32: last block of eight with no letter", size=4040, before=[(3584, 0)], seal=[7])
    case("32: block 0 with another letter than block 1", size=506, before=[(0, ord("T"))], seal=[0], asked="T")
    case("another letter in the only block", size=20, before=[(0, ord("T"))], seal=[0], asked="T")
    case("33: block 0 says 1", size=20, before=[(1, 1)], seal=[0])
    case("33: block 0 says 255", size=20, before=[(1, 255)], seal=[0])
    case("33: count 0", size=20, before=[(2, 0)], seal=[0])
    case("33: count 2", size=20, before=[(2, 2)], seal=[0])
    case("33: last block of eight says 6", size=4040, before=[(3585, 6)], seal=[7])
    case("33: last block of eight counts 7", size=4040, before=[(3586, 7)], seal=[7])
    case("34: uses 0", size=1, before=[(4, 0)], seal=[0])
    case("34: uses 506", size=505, before=[(3, 1), (4, 250)], seal=[0])
    case("34: uses 65,535", size=505, before=[(3, 255), (4, 255)], seal=[0])
    case("34: block 0 of two uses 504", size=506, before=[(4, 248)], seal=[0])
    case("34: block 0 of two uses 506", size=506, before=[(4, 250)], seal=[0])
    case("34: block 0 of two uses 0", size=506, before=[(3, 0), (4, 0)], seal=[0])
    case("34: last block of eight uses 0", size=3536, before=[(3588, 0)], seal=[7])
    case("34: last block of eight uses 506", size=4040, before=[(3588, 250)], seal=[7])
    case("34: last block of eight uses 65,535", size=4040, before=[(3587, 255), (3588, 255)], seal=[7])
    case("34: uses one less than it holds", size=10, before=[(4, 9)], seal=[0])
    case("one byte FFH more is used", size=10, before=[(4, 11)], seal=[0])
    case("34: first padding byte", size=1, before=[(6, 254)], seal=[0])
    case("34: last padding byte", size=1, before=[(509, 0)], seal=[0])
    case("34: last padding byte of the last block", size=3536, before=[(4093, 254)], seal=[7])
    for asked in (0, 65, 69, 84, 98, 255):
        case(f"35: asked {asked}", size=20, asked=asked)
    case("35: eight blocks", size=4040, asked="T")
    case("35 before 37", size=20, asked="T", back=0)
    case("31 before 32, one block", size=20, before=[(0, 65)])
    case("32 before 33, one block", size=20, before=[(0, 65), (1, 1)], seal=[0])
    case("33 before 34, one block", size=20, before=[(2, 3), (4, 0)], seal=[0])
    case("33 before 34, padding", size=20, before=[(1, 3), (500, 0)], seal=[0])
    case("32 in block 0 before 31 in block 1", size=506, before=[(0, 65), (600, 0)], seal=[0])
    case("33 in block 0 before 31 in block 1", size=506, before=[(1, 9), (600, 0)], seal=[0])
    case("34 in block 0 before 31 in block 1", size=506, before=[(4, 1), (600, 0)], seal=[0])
    case("31 in block 0 before 34 in block 1", size=506, before=[(9, 200), (516, 0)], seal=[1])
    case("34 in block 0 before 33 in block 1", size=506, before=[(4, 1), (513, 9)], seal=[0, 1])
    case("33 in block 6 before 32 in block 7", size=4040, before=[(3073, 9), (3584, 65)], seal=[6, 7])
    case("34 in the last block before 35", size=4040, before=[(3588, 0)], seal=[7], asked="T")
    case("31 in the last block before 35 and 37", size=4040, before=[(4095, 0), (4094, 0)], asked="T", back=0)
    case("37 after all", size=4040, back=0)
    blank_blocks()


def blank_blocks():
    """Blocks of FFH. Under the letter A nothing is written, so that the buffer stays blank. (R-number-38)"""
    blank = {"letter": "A", "size": 20, "fill": 255}
    for count in (1, 2, 8, 9, 223, 224):
        case(f"38: blank, {count} blocks", length=512 * count, asked="K", **blank)
    for length in (0, 511, 513, 1023, 114687, 115200):
        case(f"30: blank, length {length}", length=length, **blank)
    case("38 before 35 and 37", length=512, asked=255, back=0, **blank)
    for p in (0, 1, 4, 255, 509, 510, 511):
        case(f"31: 511 bytes FFH, byte {p} is FEH", length=512, before=[(p, 254)], **blank)
    case("31: 511 bytes FFH, byte 0 is a letter", length=512, before=[(0, ord("B"))], asked="B", **blank)
    case("32: 510 bytes FFH and the check that fits", length=512, seal=[0], **blank)
    case("31: 510 bytes FFH and another check", length=512, before=[(510, 0), (511, 0)], **blank)
    two = {"size": 505, "before": [(2, 2)], "length": 1024, "fill": 255}
    case("38: good, then blank", seal=[0], **two)
    case("38: good, then blank, before 35", seal=[0], asked="T", **two)
    case("31: wrong, then blank", **two)
    case("31: good, then 511 bytes FFH and another", seal=[0], after=[(1023, 0)], **two)
    case("38: two good, then blank", size=1010, before=[(2, 3), (514, 3)], seal=[0, 1], length=1536, fill=255)
    case("38: blank, then wrong", length=1024, before=[(700, 0)], **blank)
    case("33: one block, a blank one behind it", size=1, length=1024, fill=255)
    case("33: 505 bytes, a blank one behind it", size=505, length=1024, fill=255)
    case("one block, blank behind it, not read", size=1, length=512, fill=255)


class All:
    """The rows of the table, and the line that each must print."""

    def __init__(self):
        fill()
        self.rows = [" ".join(f"{n:06}" for n in row) for told, row in CASES]
        self.lines = [run(row) for told, row in CASES]


if __name__ == "__main__":
    if sys.argv[1:] == ["told"]:
        cases = All()
        for (told, row), line, answer in zip(CASES, cases.rows, cases.lines):
            print(f"{told}\n  {line}\n  {answer}")
    else:
        called("vectors_file", All, __doc__)
