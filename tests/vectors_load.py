#!/usr/bin/env python3
"""The cases of the program `vectors_load`, a load or a verify from a file, and the lines that it must print.

    python3 tests/vectors_load.py table        the cases, as in crates/vectors_load/stdin
    python3 tests/vectors_load.py expected     the lines, as in crates/vectors_load/stdout
    python3 tests/vectors_load.py check        whether both files are what the script prints

The load here is written from documents 01 and 02. It stands on the scripts' own loader and device (vectors_run.py, vectors_model.py) and
on their own writer and reader of a load file (vectors_file.py), and shares nothing with the crates. Every case says beforehand
how it must end and how many cycles it makes, and the load is held to that.

A case is a name of 24 bytes, 46 numbers of six digits and seven of ten:
    0, 1       the file's letter and its payload bytes
    2 to 13    six changes of the file as it was written, place and byte (999999 for none)
    14, 15     how much of it is used, and the letter asked
    16 to 21   device, P, E, RP#, VPP, block
    22 to 26   the state: mode (as a letter), status, phase (as a letter), cycles to go, address
    27 to 29   how many bytes are lent of array, wanted and scratch
    30 to 35   what they hold: first byte and step of a pattern, for each
    36         where the file lies in the array before the load; 999999 for nowhere
    37 to 40   two bytes of the array, byte address and byte
    41         S
    42         1 for a verify, 0 for a load
    43         what the file's buffer holds before
    44, 45     1 for word mode, 0 for byte mode; WP#
    46 to 52   the state's counts of erases begun, by block

A line shows: the name; the end E, its address A and the count N; status, mode and phase S; then for array a, wanted w and scratch s
a digest, the first byte and the last; the erases begun by block, before and after.
"""
import functools

from vectors_file import judge, row_of, spoiled
from vectors_model import ALL, BLOCKS, FRESH, SIZE, SOME, STOP, Device, State, called, digest, near, pattern, tally
from vectors_run import Pins, block_length, formula, run, run_number, worn_by

NOWHERE = 999999
NAME = 23


# ---------------------------------------------------------------- the load


def file_number(data, asked, n):
    """The reader's 30 to 35 and 38; 30 also for a file longer than a flash block of n bytes. (R-order-3)"""
    if len(data) > n:
        return 30
    return judge(data, asked)[0]


def load(device, state, pins, block, array, wanted, scratch, data, asked, op="R"):
    """A run's tests, then the file's; only then wanted is filled, with the file and FFH, and the run made. (R-order-3)"""
    number = run_number(device, state, pins, block, array, wanted, scratch)
    if number == 0:
        number = file_number(data, asked, len(wanted))
    if number:
        return number, 0, 0, state
    wanted[:] = data + b"\xff" * (len(wanted) - len(data))
    return run(device, state, pins, block, array, wanted, scratch, op)


# ---------------------------------------------------------------- the cases


def file_of(row):
    """The changes that a case makes in the file as it was written, and the file."""
    payload = bytes(pattern(3, 7, row[1]))
    written = spoiled(row_of(letter=row[0], size=row[1], length=row[13], fill=row[17]), payload)[2]
    file = spoiled(row, payload)[2]
    return [(i, b) for i, b in enumerate(file) if b != written[i]], bytes(file[: row[13]])


def pairs(given, count):
    """So many pairs of numbers."""
    assert len(given) <= count
    return [x for pair in list(given) + [(NOWHERE, 0)] * (count - len(given)) for x in pair]


def ends(part):
    """A digest, the first byte and the last."""
    return f"{digest(part)} {part[0] if part else 0:02X} {part[-1] if part else 0:02X}"


class Table:
    def __init__(self):
        self.rows, self.lines = [], []

    def case(self, name, end, count=None, address=0, about=(), number=3, block=1, times=(2, 3), suspend=1, rp=None, vpp=12000, state=FRESH,
             lent=(None, None, None), held=(255, 0), laid=False, spots=(), op="R", word=0, wp=0, wear=SOME):
        """One load. `about` is the file; `count` is told by the case where the end is not 0, and by the formula where it is."""
        assert len(name) <= NAME, name
        row, state = row_of(**dict(about)), state._replace(wear=wear)
        changes, data = file_of(row)
        there = number in BLOCKS and block < len(BLOCKS[number])
        first, n = (BLOCKS[number][block][0], block_length(number, block)) if there else (0, 512)
        rp = (2 if block == 0 else 1) if rp is None else rp
        given = [want if want is not None else fit for want, fit in zip(lent, (SIZE.get(number, 16384), n, n))]
        marks = [held, (91, 5), (17, 2)]
        numbers = row[:2] + pairs(changes, 6) + row[13:15] + [number, *times, rp, vpp, block]
        numbers += [ord(state.mode), state.status, ord(state.phase), state.left, state.address]
        numbers += given + [x for pair in marks for x in pair] + [first if laid else NOWHERE] + pairs(spots, 2)
        numbers += [suspend, int(op == "V"), row[17], word, wp]
        assert len(numbers) == 46 and all(0 <= x <= 999999 for x in numbers)
        self.rows.append(f"{name:{NAME + 1}}" + " ".join([f"{x:06d}" for x in numbers] + [f"{n:010d}" for n in wear]))
        array, wanted, scratch = (pattern(*mark, k) for mark, k in zip(marks, given))
        if laid:
            array[first : first + len(data)] = data
        for at, byte in spots:
            array[at] = byte
        told, device = (end, count, address), Device(number, *times, suspend, word)
        self.lines.append(self.line(name, told, device, state, Pins(rp, vpp, wp), block, first, array, wanted, scratch, data, row[14], op))

    def line(self, name, told, device, state, pins, block, first, array, wanted, scratch, data, asked, op):
        """The load or verify, held to what the case says, and its line."""
        before, held = (bytes(array), bytes(wanted), bytes(scratch)), array[first : first + len(wanted)]
        end, count, place = told
        if end == 0:
            count = formula(device, held, data + b"\xff" * (len(wanted) - len(data)), op)
        got, cycles, address, after = load(device, state, pins, block, array, wanted, scratch, data, asked, op)
        assert (got, cycles, address) == (end, 0 if count is None else count, place), (name, got, cycles, count, address)
        if cycles == 0:
            assert before == (array, wanted, scratch) and after == state, name
        else:
            assert wanted[: len(data)] == data and set(wanted[len(data) :]) <= {255}, name
        assert after.wear == worn_by(state.wear, block, end, cycles, held, wanted, op), name
        told = f"E {got} A {address} N {cycles} S {after.status:02X} {after.mode} {after.phase}"
        slices = f"a {ends(array)} w {ends(wanted)} s {ends(scratch)}"
        return f"{name:{NAME + 1}}{told} {slices} {tally(state.wear)} > {tally(after.wear)}"


def file_refused(t):
    """The file is refused before wanted is filled: array, wanted and scratch stay, no cycle counts.
    (R-order-3, R-number-30 to R-number-35, R-number-38)"""
    two = {"number": 3, "block": 0, "held": (40, 3)}
    eight = {"number": 4, "block": 3, "held": (9, 11)}
    for length in (0, 1, 511, 513, 1023):
        t.case(f"30 of {length} bytes", 30, about={"size": 900, "length": length}, **two)
    for length in (4095, 4097):
        t.case(f"30 of {length} bytes", 30, about={"size": 4040, "length": length}, **eight)
    t.case("33 nine, one is none", 33, about={"size": 4040, "length": 4608}, **eight)
    t.case("30 of 225 blocks", 30, about={"size": 113120, "length": 115200}, number=2, block=3, held=(1, 1))
    t.case("30 nine into 4 KB", 30, about={"size": 4041}, number=1, block=1, held=(1, 1))
    t.case("30 two into 512", 30, about={"size": 506}, number=3, block=1, held=(1, 1))
    t.case("30 two into 512 B", 30, about={"size": 506}, number=4, block=2, held=(1, 1))
    t.case("30 three into 1024", 30, about={"size": 1011}, number=4, block=0, held=(1, 1))
    t.case("30 too long before 31", 30, about={"size": 506, "before": [(9, 0)]}, number=3, block=2, held=(1, 1))
    t.case("30 too long before 35", 30, about={"size": 506, "asked": "T"}, number=3, block=2, held=(1, 1))
    for at in (0, 5, 509, 510, 511):
        t.case(f"31 byte {at}", 31, about={"size": 505, "before": [(at, 18)]}, number=3, block=1, held=(7, 7))
    t.case("31 in the second", 31, about={"size": 900, "before": [(700, 0)]}, **two)
    t.case("31 in the eighth", 31, about={"size": 4040, "before": [(4095, 0), (4094, 0)]}, **eight)
    t.case("31 before 35", 31, about={"size": 900, "before": [(1000, 0)], "asked": "T"}, **two)
    t.case("32 no letter", 32, about={"size": 20, "before": [(0, 65)], "seal": [0], "asked": "A"}, **two)
    t.case("32 not the first's", 32, about={"size": 900, "before": [(512, 84)], "seal": [1]}, **two)
    t.case("32 first, then 31", 32, about={"size": 900, "before": [(0, 65), (600, 0)], "seal": [0]}, **two)
    t.case("33 number", 33, about={"size": 900, "before": [(513, 0)], "seal": [1]}, **two)
    t.case("33 count", 33, about={"size": 20, "before": [(2, 2)], "seal": [0]}, **two)
    t.case("33 one block of two", 33, about={"size": 900, "length": 512}, **two)
    t.case("33 a block too many", 33, about={"size": 505, "length": 1024}, **two)
    t.case("34 none used", 34, about={"size": 1, "before": [(4, 0)], "seal": [0]}, **two)
    t.case("34 506 used", 34, about={"size": 505, "before": [(3, 1), (4, 250)], "seal": [0]}, **two)
    t.case("34 first one not full", 34, about={"size": 900, "before": [(4, 248)], "seal": [0]}, **two)
    t.case("34 padding", 34, about={"size": 900, "before": [(1021, 254)], "seal": [1]}, **two)
    t.case("34 before 35", 34, about={"size": 900, "before": [(1021, 254)], "seal": [1], "asked": "T"}, **two)
    for asked in (84, 98, 0, 255):
        t.case(f"35 asked {asked}", 35, about={"size": 900, "asked": asked}, **two)
    blank = {"letter": "A", "size": 20, "length": 512, "fill": 255}
    good = {"size": 505, "before": [(2, 2)], "length": 1024, "fill": 255}
    t.case("38 blank", 38, about=blank, **two)
    t.case("38 blank, eight", 38, about={**blank, "length": 4096}, **eight)
    t.case("38 blank, main block", 38, about={**blank, "length": 114688}, number=1, block=3, held=(255, 0))
    t.case("38 blank, boot unlocked", 38, about=blank, number=1, block=0, held=(255, 0))
    t.case("38 good, then blank", 38, about={**good, "seal": [0]}, **two)
    t.case("31 wrong, then blank", 31, about=good, **two)
    t.case("31 last byte not FFH", 31, about={**blank, "before": [(511, 254)]}, **two)
    t.case("31 first byte not FFH", 31, about={**blank, "before": [(0, 66)], "asked": "B"}, **two)
    t.case("33 blank behind", 33, about={"size": 505, "length": 1024, "fill": 255}, **two)
    t.case("30 before 38", 30, about={**blank, "length": 1024}, number=3, block=1, held=(1, 1))
    t.case("35 eight blocks", 35, about={"letter": "T", "size": 4040, "asked": "S"}, **eight)


def run_refused(t):
    """A run's refusals come before the file's. (R-order-3)"""
    bar = functools.partial(t.case, held=(40, 3))
    bad = {"size": 900, "before": [(9, 0)], "asked": "T"}
    none = {"length": 0}
    good = {"size": 505}
    for number in (0, 9, 255):
        bar(f"1 device {number}", 1, about=bad, number=number)
    bar("1 P 0", 1, about=none, times=(0, 3))
    bar("1 E 0", 1, about=good, times=(2, 0))
    for suspend in (0, 101, 255):
        bar(f"1 S {suspend}", 1, about=bad, suspend=suspend)
    for length, about in ((16383, bad), (16385, none), (0, good)):
        bar(f"2 array of {length}", 2, about=about, lent=(length, None, None))
    bar("2 another's array", 2, about=bad, number=1, block=0, lent=(16384, None, None))
    bar("3 status 81", 3, about=bad, state=State("A", 0x81, "F", 0, 0, 0))
    bar("3 busy and ready", 3, about=none, state=State("S", 0x80, "E", 0, 2, 0x3A00))
    bar("3 cycles over P", 3, about=good, state=State("S", 0x00, "P", 0, 3, 16))
    for rp, vpp, about in ((0, 12000, bad), (3, 12000, none), (1, 6501, bad), (1, 11399, good), (1, 12601, none)):
        bar(f"4 RP {rp} VPP {vpp}", 4, about=about, rp=rp, vpp=vpp)
    for block, about in ((4, bad), (255, none)):
        bar(f"10 block {block}", 10, about=about, block=block)
    for wanted, scratch, about in ((511, 512, bad), (513, 512, none), (512, 511, bad), (512, 0, good), (0, 512, none),
                                   (1024, 1024, {"size": 900})):
        bar(f"11 lent {wanted} {scratch}", 11, about=about, lent=(None, wanted, scratch))
    bar("12 confirm awaited", 12, about=bad, state=State("S", 0x80, "C", 0, 0, 0))
    bar("12 data awaited", 12, about=none, state=State("S", 0xB8, "D", 0, 0, 0))
    bar("12 programming", 12, about=good, state=State("S", 0x00, "P", 0, 2, 16))
    bar("12 erasing", 12, about=bad, state=State("S", 0x00, "E", 0, 3, 0x3A00))
    bar("12 being suspended", 12, about=good, suspend=100, state=State("S", 0x00, "U", 1, 1, 0))
    bar("12 suspended", 12, about=none, state=State("A", 0xC0, "S", 0, 1, 0))
    bar("4 before 10, 11, 12, 31", 4, about=bad, rp=0, block=9, lent=(None, 1, 2), state=State("S", 0x80, "C", 0, 0, 0))
    bar("10 before 11, 12, 30", 10, about=none, block=9, lent=(None, 1, 2), state=State("S", 0x80, "C", 0, 0, 0))
    bar("11 before 12, 30", 11, about=none, lent=(None, 1, 2), state=State("S", 0x80, "C", 0, 0, 0))
    bar("1 before all", 1, about=bad, number=9, times=(0, 0), rp=7, vpp=7000, block=9, lent=(1, 2, 3), state=State("I", 0x07, "S", 0, 9, 9))


def loaded(t):
    """Loads that end well; each count is that of the formula. (R-load-5, R-load-8)"""
    for letter in "BEJKNRST":
        t.case(f"well letter {letter}", 0, about={"letter": letter, "size": 40}, number=3, block=1)
    t.case("well block filled", 0, about={"size": 505}, number=3, block=1, held=(5, 9))
    t.case("well part of a block", 0, about={"size": 100}, number=3, block=0, held=(5, 9))
    t.case("well two of two", 0, about={"size": 1010}, number=4, block=0, held=(5, 9))
    t.case("well erased before", 0, about={"size": 300}, number=4, block=1)
    t.case("well all zero before", 0, about={"size": 300}, number=4, block=2, held=(0, 0))
    t.case("well eight, main", 0, about={"size": 4040}, number=3, block=3, held=(5, 9))
    t.case("well eight, main B", 0, about={"letter": "K", "size": 3536}, number=4, block=3, held=(0, 0), times=(1, 7))
    t.case("well eight, 8 KB boot", 0, about={"size": 4040}, number=1, block=0, held=(5, 9))
    t.case("well eight, 8 KB boot B", 0, about={"letter": "R", "size": 4040}, number=2, block=0)
    t.case("well eight fill 4 KB", 0, about={"letter": "N", "size": 4040}, number=2, block=1, held=(0, 0), times=(1, 1))
    t.case("well eight, long main", 0, about={"letter": "E", "size": 4040}, number=2, block=3, held=(5, 9), times=(1, 9))
    t.case("well nine, main", 0, about={"letter": "S", "size": 4041}, number=3, block=3, held=(5, 9))
    t.case("well nine, 8 KB boot", 0, about={"size": 4041}, number=2, block=0, held=(0, 0), times=(1, 1))
    t.case("well one, long main", 0, about={"letter": "J", "size": 1}, number=1, block=3)
    for number, block, size in ((3, 1, 505), (3, 0, 100), (4, 3, 4040), (1, 2, 4040), (1, 3, 113120)):
        t.case(f"held already, {number} {block}", 0, about={"size": size}, number=number, block=block, laid=True)
    first = BLOCKS[3][0][0]
    half = {"about": {"size": 100}, "number": 3, "block": 0, "laid": True}
    t.case("falls: first byte", 0, spots=[(first, 0xFF)], **half)
    t.case("falls: last of the file", 0, spots=[(first + 511, 0xFF), (first + 510, 0xFF)], **half)
    t.case("falls: a count byte", 0, spots=[(first + 4, 0xFF)], **half)
    t.case("rises: first byte", 0, spots=[(first, 0x00)], **half)
    t.case("rises: padding", 0, spots=[(first + 509, 0xFE)], **half)
    t.case("rises: past the file", 0, spots=[(first + 512, 0x7F)], **half)
    t.case("rises: last of block", 0, spots=[(first + 1023, 0x00), (first, 0xFF)], **half)
    t.case("neighbour differs only", 0, spots=[(first - 1, 0x00)], **half)
    t.case("other idle start", 0, about={"size": 60}, state=State("I", 0xB8, "F", 0, 0, 0), held=(5, 9))
    t.case("SR.3 at the start", 0, about={"size": 60}, state=State("S", 0x88, "F", 0, 0, 0))
    t.case("VPP 11400", 0, about={"size": 60}, vpp=11400, held=(5, 9))
    t.case("VPP 12600", 0, about={"size": 60}, vpp=12600, held=(5, 9))
    t.case("RP V_HH, no boot", 0, about={"size": 60}, rp=2)
    t.case("P 65535", 0, about={"size": 100}, number=3, block=0, laid=True, times=(65535, 1), spots=[(first + 5, 0xFF)])
    t.case("E 65535", 0, about={"size": 1}, times=(1, 65535), held=(0, 0))
    t.case("P and E 1", 0, about={"size": 505}, times=(1, 1), held=(0, 0))


def ended(t):
    """Wanted is filled, and the run ends otherwise: 50H, FFH, n reads, two writes and a poll. (R-order-5)"""
    file = {"about": {"size": 100}}
    for vpp in (0, 6500):
        t.case(f"21 program, VPP {vpp}", 21, 512 + 5, vpp=vpp, **file)
    t.case("21 erase", 21, 512 + 5, vpp=5000, held=(0, 0), **file)
    t.case("VPP low, nothing to do", 0, vpp=5000, laid=True, **file)
    t.case("23 locked", 23, 1024 + 5, block=0, rp=1, held=(0, 0), **file)
    t.case("23 locked B", 23, 8192 + 5, number=2, block=0, rp=1, held=(0, 0), **file)
    t.case("24 locked", 24, 1024 + 5, block=0, rp=1, **file)
    t.case("24 locked B", 24, 1024 + 5, number=4, block=0, rp=1, **file)
    t.case("locked, nothing to do", 0, block=0, rp=1, laid=True, **file)
    t.case("21 locked, VPP low", 21, 1024 + 5, block=0, rp=1, vpp=6500, **file)
    t.case("21 unlocked, VPP low", 21, 1024 + 5, block=0, rp=2, vpp=6500, held=(0, 0), **file)


def verified(t):
    """Verifies against a file: wanted is filled, the array stays. At a difference the count is its place and 2. (R-load-4, R-number-25)"""
    check = functools.partial(t.case, op="V")
    half = {"about": {"size": 100}, "number": 3, "block": 0, "laid": True}
    first = BLOCKS[3][0][0]
    for number, block, size in ((3, 1, 505), (3, 0, 100), (4, 3, 4040), (1, 2, 4040), (2, 3, 1), (1, 3, 113120)):
        check(f"verify well, {number} {block}", 0, about={"size": size}, number=number, block=block, laid=True)
    check("verify locked, VPP low", 0, rp=1, vpp=0, **half)
    check("verify VPP 6500", 0, rp=1, vpp=6500, **half)
    check("verify other idle start", 0, state=State("I", 0xB8, "F", 0, 0, 0), **half)
    check("verify 25 first byte", 25, 2, first, spots=[(first, 0x00)], **half)
    check("verify 25 in the file", 25, 511 + 2, first + 511, spots=[(first + 511, 0xFF), (first + 1023, 0x00)], **half)
    check("verify 25 past the file", 25, 512 + 2, first + 512, spots=[(first + 512, 0x7F)], **half)
    check("verify 25 last byte", 25, 1023 + 2, first + 1023, spots=[(first + 1023, 0x00)], **half)
    check("verify neighbour", 0, spots=[(first - 1, 0x00)], **half)
    check("verify 25 erased block", 25, 2, BLOCKS[4][2][0], about={"size": 100}, number=4, block=2)
    check("verify 30", 30, about={"size": 506}, number=3, block=1, held=(1, 1))
    check("verify 31", 31, about={"size": 505, "before": [(5, 18)]}, number=3, block=1, held=(7, 7))
    check("verify 38", 38, about={"letter": "A", "size": 20, "length": 512, "fill": 255}, number=3, block=1, held=(255, 0))
    check("verify 35", 35, about={"size": 100, "asked": "T"}, number=3, block=0, laid=True)
    bad = {"size": 900, "before": [(9, 0)], "asked": "T"}
    check("verify 1", 1, about=bad, number=9)
    check("verify 2", 2, about=bad, lent=(16383, None, None))
    check("verify 3", 3, about=bad, state=State("A", 0x81, "F", 0, 0, 0))
    check("verify 4", 4, about=bad, rp=0)
    check("verify 10", 10, about=bad, block=4)
    check("verify 11", 11, about=bad, lent=(None, 511, 512))
    check("verify 12", 12, about=bad, state=State("S", 0x80, "C", 0, 0, 0))


# ---------------------------------------------------------------- the cases of devices 5 to 8

NEW = tuple((number, word) for number in (5, 6, 7, 8) for word in (0, 1))


def tag(number, word):
    return f"{number}{'w' if word else 'b'}"


def large_refused(t):
    """A run's refusals on devices 5 to 8, and then the file's, in both widths."""
    bad = {"size": 900, "before": [(9, 0)], "asked": "T"}
    for number in (0, 1, 2, 3, 4, 9, 255):
        t.case(f"1 words on {number}", 1, about=bad, number=number, word=1, held=(40, 3))
    for number, word in NEW:
        bar = functools.partial(t.case, number=number, word=word, held=(40, 3))
        me, size, count = tag(number, word), SIZE[number], len(BLOCKS[number])
        bar(f"1 {me} P 0", 1, about=bad, times=(0, 3))
        for length in (size - 1, size + 1, size // 2):
            bar(f"2 {me} array {length}", 2, about=bad, lent=(length, None, None))
        bar(f"3 {me}", 3, about=bad, state=State("S", 0x00, "E", 0, 2, size // (1 + word)))
        for vpp in (1501, 4499, 5501, 6500, 11399, 12601):
            bar(f"4 {me} VPP {vpp}", 4, about=bad, vpp=vpp)
        bar(f"4 {me} WP 2", 4, about=bad, wp=2)
        bar(f"4 {me} RP 0", 4, about=bad, rp=0)
        bar(f"10 {me} block {count}", 10, about=bad, block=count)
        for wanted, scratch in ((8191, 8192), (8193, 8193), (4096, 4096), (2, 11)):
            bar(f"11 {me} {wanted} {scratch}", 11, about=bad, lent=(None, wanted, scratch))
        bar(f"12 {me}", 12, about=bad, state=State("S", 0x00, "E", 0, 3, size // (1 + word) - 1))
        bar(f"30 {me} 17 blocks", 30, about={"size": 8081})
        bar(f"31 {me}", 31, about={"size": 8080, "before": [(8191, 0), (8190, 0)]})
        bar(f"35 {me}", 35, about={"size": 8080, "asked": "T"})
        bar(f"38 {me}", 38, about={"letter": "A", "size": 20, "length": 512, "fill": 255})


def large_loaded(t):
    """Loads that end well on devices 5 to 8 in both widths; each count is that of the formula, in units."""
    for number, word in NEW:
        me, ends_at = tag(number, word), BLOCKS[number][1][1]
        well = functools.partial(t.case, number=number, word=word)
        well(f"well {me} VPP 5 V", 0, about={"size": 100}, vpp=5000)
        well(f"well {me} erased first", 0, about={"letter": "K", "size": 506}, block=2, held=(0, 0), vpp=4500 + 1000 * word)
        well(f"well {me} last byte rises", 0, about={"size": 900}, laid=True, spots=[(ends_at, 0xFE)])
        well(f"well {me} fills 8 KB", 0, about={"size": 8080}, laid=True, spots=[(ends_at, 0xFF), (ends_at - 8191, 0xFF)], vpp=11400)
        if word == number % 2:
            well(f"well {me} boot by WP", 0, about={"size": 40}, block=0, rp=1, wp=1, vpp=5500, times=(1, 1))
            well(f"well {me} error bits", 0, about={"size": 1}, state=State("I", 0xB8, "F", 0, 0, 0), vpp=5000)
        else:
            well(f"well {me} boot by RP", 0, about={"size": 40}, block=0, rp=2, vpp=12600)
    t.case("well 6w all of 8 KB", 0, about={"size": 8080}, number=6, word=1, block=2, held=(5, 9), times=(1, 9), vpp=5000)
    t.case("well 7b 4 KB of 8", 0, about={"size": 4040}, number=7, word=0, block=2, held=(5, 9), times=(1, 9), vpp=5000)
    t.case("well 5w fills 96 KB", 0, about={"letter": "S", "size": 96960}, number=5, word=1, block=3, laid=True, spots=[(0x20001, 0xFF)])
    longest = {"letter": "E", "size": 113120}
    t.case("well 8w longest file", 0, about=longest, number=8, word=1, block=6, laid=True, spots=[(0x60000, 0xFF)], vpp=5000)


def large_ended(t):
    """Wanted is filled, and the run ends otherwise: 50H, FFH, n reads, two writes and a poll."""
    file = {"about": {"size": 100}}
    for number, word in NEW:
        me, n, boot = tag(number, word), 8192 // (1 + word), 16384 // (1 + word)
        end = functools.partial(t.case, number=number, word=word, **file)
        end(f"21 {me} program", 21, n + 5, vpp=1500)
        end(f"21 {me} erase", 21, n + 5, vpp=0, held=(0, 0))
        end(f"{me} VPP low, well", 0, vpp=1500, laid=True)
        end(f"23 {me} locked", 23, boot + 5, block=0, rp=1, held=(0, 0), vpp=5000)
        end(f"24 {me} locked", 24, boot + 5, block=0, rp=1, vpp=5000)
    t.case("5w locked, well", 0, number=5, word=1, block=0, rp=1, laid=True, **file)


def large_verified(t):
    """Verifies against a file on devices 5 to 8: 25 gives the byte address, of a low byte or of a high one."""
    for number, word in NEW:
        me, first, unit = tag(number, word), BLOCKS[number][2][0], 1 + word
        check = functools.partial(t.case, op="V", number=number, word=word, block=2, laid=True, about={"size": 900})
        check(f"verify {me} well", 0, vpp=0)
        for at in (0, 1, 10, 11, 1023, 1024, 1025, 8190, 8191):
            check(f"verify {me} 25 at {at}", 25, at // unit + 2, first + at, spots=[(first + at, 0x7E)], vpp=5000)
        check(f"verify {me} 25 both", 25, 100 // unit + 2, first + 100, spots=[(first + 100, 0x00), (first + 101, 0x00)])
        check(f"verify {me} neighbour", 0, spots=[(first - 1, 0x00), (first + 8192, 0x00)])
        check(f"verify {me} 35", 35, about={"size": 900, "asked": "T"})
    t.case("verify 8w boot locked", 0, op="V", about={"size": 40}, number=8, word=1, block=0, rp=1, vpp=0, laid=True)
    t.case("verify 4 words", 1, op="V", about={"size": 40}, number=4, word=1)
    t.case("verify 5w block 5", 10, op="V", about={"size": 40}, number=5, word=1, block=5)
    t.case("verify 7w 131,072", 0, op="V", about={"size": 113120}, number=7, word=1, block=6, vpp=0, laid=True)


# ---------------------------------------------------------------- the cases of wear


def worn(t):
    """A load that erases adds one at its block, up to the stop; a verify, a load that does not erase and a refused one keep all counts.
    (R-wear-1)"""
    file = {"about": {"size": 100}}
    for number, word in ALL:
        me, n = tag(number, word), block_length(number, 1) // (1 + word)
        for count in (STOP - 1, STOP):
            t.case(f"wear {me} erased {count % 1000}", 0, number=number, word=word, held=(0, 0), wear=near(1, count), **file)
        t.case(f"wear {me} program", 0, number=number, word=word, wear=near(1, STOP - 1), **file)
        t.case(f"wear {me} verify", 0, number=number, word=word, op="V", laid=True, wear=near(1, STOP - 1), **file)
        t.case(f"wear {me} 21", 21, n + 5, number=number, word=word, held=(0, 0), vpp=0, wear=near(1, STOP - 1), **file)
        t.case(f"wear {me} 31", 31, number=number, word=word, about={"size": 505, "before": [(5, 18)]}, held=(0, 0), wear=near(1, STOP - 1))


OLD_PARTS = (file_refused, run_refused, loaded, ended, verified)
NEW_PARTS = (large_refused, large_loaded, large_ended, large_verified)
WEAR_PARTS = (worn,)


def all_cases():
    t = Table()
    for part in OLD_PARTS + NEW_PARTS + WEAR_PARTS:
        part(t)
    assert len({row[:NAME] for row in t.rows}) == len(t.rows)
    return t


if __name__ == "__main__":
    called("vectors_load", all_cases, __doc__)
