#!/usr/bin/env python3
"""The rows of the program `vectors_store`, several files in the main block, and the lines that it must print.

    python3 tests/vectors_store.py table        the rows, as in crates/vectors_store/stdin
    python3 tests/vectors_store.py expected     the lines, as in crates/vectors_store/stdout
    python3 tests/vectors_store.py check        whether both files are what the script prints

The store in the first half is written from document 02 (ix) and document 01 alone. It stands on the scripts' own reader of a load file
(vectors_file.py), readings (vectors_reading.py), loader (vectors_run.py) and device (vectors_model.py), and shares nothing with the
crates. The second half is the list of cases; each says beforehand how it must end.

A line of an add (I) or a drop (Z) shows: group and number; the end; the cycles made; the end's address; the status register, mode and
phase that are left; digests of what was lent of the array, of memory and of scratch; the erases begun by block, before and after; then
what a find gives for each of the letters B E J K N R S T: its number, or the file's length and a digest of it. A line of a find (Q) shows
its number, the length and a digest of room; a line of a read (R) its case (T, B, A, or X and the number), the bits of the temperature
in tenths, and a digest of room.
"""
import functools
import random
import struct
import sys

import vectors_run
from vectors_file import LETTERS, check, judge, write
from vectors_model import BLOCKS, FRESH, SIZE, SOME, STOP, Device, called, digest, is_device, is_part, near, pattern, tally
from vectors_reading import TABLE_K, TABLE_S, judged, payload_of, reading, table_of
from vectors_run import block_length, formula, run, run_number, worn_by

PLACE = 512  # bytes of a place
MAIN = 3  # the main block
BLANK = b"\xff" * PLACE

# ---------------------------------------------------------------- the store


@functools.lru_cache(maxsize=64)
def files_in(block):
    """The files of a main block, lowest place first: place, letter, count of places. None where its places are not a proper store.
    (R-store-1, R-number-44)"""
    files, at, places = [], 0, len(block) // PLACE
    while at < places:
        here = block[PLACE * at : PLACE * at + PLACE]
        if here == BLANK or here[0] == 0:
            at += 1
            continue
        letter, count = here[0], here[2]
        if count == 0 or at + count > places or judge(block[PLACE * at : PLACE * (at + count)], letter)[0]:
            return None
        if letter in [other for _, other, _ in files]:
            return None
        files.append((at, letter, count))
        at += count
    return files


def has_store(device):
    """Devices 1 to 4 hold a store. (R-store-1, R-number-1)"""
    return device.number <= 4


def main_of(device, array):
    first, last = BLOCKS[device.number][MAIN]
    return bytes(array[first : last + 1])


def found(device, array, letter):
    """1, 2, 44, 42, or 0 and the file's bytes. (R-number-42, R-number-44)"""
    if not is_part(device) or not has_store(device):
        return 1, None
    if len(array) != SIZE[device.number]:
        return 2, None
    block = main_of(device, array)
    files = files_in(block)
    if files is None:
        return 44, None
    for at, other, count in files:
        if other == letter:
            return 0, block[PLACE * at : PLACE * (at + count)]
    return 42, None


def find(device, array, letter, room):
    """The number and the length; the file goes into the front of room."""
    number, data = found(device, array, letter)
    if number == 0 and len(data) > len(room):
        number = 37
    if number:
        return number, 0
    room[: len(data)] = data
    return 0, len(data)


def read(device, array, letter, room, x):
    """A find, then the reading program on the file for that letter: its refusals 37, 40, 41."""
    number, data = found(device, array, letter)
    if number:
        return "X", number
    payload = judge(data, letter)[1]
    if len(payload) > len(room):
        return "X", 37
    room[: len(payload)] = payload
    number = judged(payload)
    return ("X", number) if number else reading(table_of(payload), x)


def dropped(block, at, count):
    """00H over the first byte of each of a file's blocks. (R-store-1)"""
    new = bytearray(block)
    for place in range(at, at + count):
        new[PLACE * place] = 0
    return new


def first_run(block, count):
    """The place where the first long enough run of blank places begins; None where there is none. (R-store-2)"""
    length = 0
    for place in range(len(block) // PLACE):
        length = length + 1 if block[PLACE * place : PLACE * place + PLACE] == BLANK else 0
        if length == count:
            return place + 1 - count
    return None


def slid(block, others, data):
    """The live files in their order from the lowest place on, the new one right behind them, FFH after. (R-store-2)"""
    new = b"".join(block[PLACE * at : PLACE * (at + count)] for at, _, count in others) + data
    return bytearray(new + b"\xff" * (len(block) - len(new)))


def after_drop(block, letter):
    """44 or 42, or the block's new contents. (R-store-5)"""
    files = files_in(block)
    if files is None:
        return 44, None
    for at, other, count in files:
        if other == letter:
            return 0, dropped(block, at, count)
    return 42, None


def after_add(block, data, letter):
    """44 or 43, or the block's new contents. (R-store-2, R-store-3, R-number-43)"""
    files = files_in(block)
    if files is None:
        return 44, None
    others, count = [f for f in files if f[1] != letter], len(data) // PLACE
    if sum(f[2] for f in others) + count > len(block) // PLACE:
        return 43, None
    place = first_run(block, count)
    if place is None:
        return 0, slid(block, others, data)
    new = bytearray(block)
    for at, other, of in files:
        if other == letter:
            new = dropped(block, at, of)
    new[PLACE * place : PLACE * (place + count)] = data
    return 0, new


def change(device, state, pins, array, memory, scratch, letter, data=None):
    """An add of a file, or without one a drop: the end, the count, the address and the state. A run's refusals, the reader's, then 44
    and 42 or 43; only then memory becomes the new contents, and the block is loaded with them. (R-store-5)"""
    number = run_number(device, state, pins, MAIN, array, memory, scratch) if not is_device(device) or has_store(device) else 1
    if number == 0 and data is not None:
        number = judge(data, letter)[0]
    if number == 0:
        block = main_of(device, array)
        number, new = after_drop(block, letter) if data is None else after_add(block, data, letter)
    if number:
        return number, 0, 0, state
    memory[:] = new
    return run(device, state, pins, MAIN, array, memory, scratch)


# ---------------------------------------------------------------- the bench on which the cases are run

FILE_ROOM = 115300
ROOM = 131073

# ROWS. I adds the file, Z drops a letter, Q finds one, R reads a temperature by one; these print a line. The others prepare.
#   G name                                    the group's four letters
#   D number word program erase suspend array memory scratch     the device, and how many bytes of each slice are lent
#   L rp wp vpp 003                           the levels
#   E and seven counts                        erases begun by block, for the states of the rows S that follow
#   S status mode phase left address, F       the state; a fresh one
#   A first step, W first step, C first step  fill the array, memory, scratch, as far as they are lent
#   X address byte                            one byte of the array
#   J address count byte                      so many bytes of the array from an address on
#   N letter size first step                  the file: a payload of so many bytes of a pattern, written over FFH; it is lent whole
#   B place byte, H place knot                one byte of the file; six bytes of it
#   K block                                   that block of the file gets the check that fits
#   U length                                  so much of the file is lent
#   Y address                                 what is lent of the file is laid into the array
#   I letter, Z letter                        the add, the drop
#   Q letter room, R letter room microvolts   the find, the read, with so much room of 5AH


class Bench(vectors_run.Bench):
    def __init__(self):
        super().__init__()
        self.file, self.used, self.block = bytearray(FILE_ROOM), 0, MAIN

    def new(self, number, program=1, erase=1, vpp=12000, rp=1, fill=None):
        """A fresh device whose main block is erased, with lengths that fit; its other blocks hold a pattern."""
        n = block_length(number, MAIN)
        self.fresh()
        self.use(number, program, erase, SIZE[number], n, n)
        self.levels(rp, vpp, MAIN)
        self.fill("A", *(fill or (7 * number, 11)))
        self.fill("W", 91, 5)
        self.fill("C", 17, 2)
        self.stretch(0, block_length(number, MAIN) // PLACE, 0xFF)

    def first(self):
        return BLOCKS[self.device.number][MAIN][0]

    def stretch(self, place, count, byte, note=""):
        """So many places are filled with a byte."""
        at, n = self.first() + PLACE * place, PLACE * count
        self.array[at : at + n] = bytes([byte]) * n
        self.row(f"J {at:08X} {n:06d} {byte:02X}", note)

    def spot(self, place, at, byte, note=""):
        """A byte of a place."""
        self.hold(self.first() + PLACE * place + at, byte, note)

    def made(self, letter, size, first=3, step=7, note=""):
        """The file at hand: written as document 01 says."""
        letter = ord(letter)
        number, data = write(letter, bytes(pattern(first, step, size)))
        assert number == 0, (letter, size)
        self.file[:] = b"\xff" * FILE_ROOM
        self.file[: len(data)] = data
        self.used = len(data)
        self.row(f"N {letter:02X} {size:06d} {first:03d} {step:03d}", note)

    def blocks(self, letter, count, first=3, step=7, note=""):
        """A file of so many blocks, the last not full."""
        self.made(letter, 505 * count - 13, first, step, note)

    def byte(self, place, byte, note=""):
        self.file[place] = byte
        self.row(f"B {place:08X} {byte:02X}", note)

    def seal(self, block=0):
        at = PLACE * block
        self.file[at + 510 : at + 512] = check(self.file[at : at + 510]).to_bytes(2, "big")
        self.row(f"K {block:03d}")

    def table(self, letter, table):
        """The file at hand: a table of knots, written as a pattern, knot by knot, and sealed."""
        payload = payload_of(table)
        self.made(letter, len(payload))
        for i, (x, t) in enumerate(table):
            at = 6 * i
            place = PLACE * (at // 505) + 5 + at % 505
            assert at % 505 <= 499, "a knot that goes over two blocks"
            self.file[place : place + 6] = struct.pack(">ih", x, t)
            self.row(f"H {place:08X} {x & 0xFFFFFFFF:08X}{t & 0xFFFF:04X}")
        for block in range(self.used // PLACE):
            self.seal(block)
        assert bytes(self.file[: self.used]) == write(ord(letter), payload)[1]

    def lent_file(self, length, note=""):
        self.used = length
        self.row(f"U {length:06d}", note)

    def lay(self, place, note=""):
        """The file at hand stands in the array from a place on; what is past the array is not laid."""
        at = self.first() + PLACE * place
        n = min(self.used, self.lent[0] - at)
        self.array[at : at + n] = self.file[:n]
        self.row(f"Y {at:08X}", note)

    def laid(self, letter, place, count, first=3, step=7):
        self.blocks(letter, count, first, step)
        self.lay(place)

    def finds(self, array):
        """What a find gives for each letter."""
        told = []
        for letter in LETTERS:
            number, data = found(self.device, array, letter)
            told.append(str(number) if number else f"{len(data)}/{digest(data):04X}")
        return " ".join(told)

    def changed(self, op, letter, data, note, expected):
        letter = ord(letter) if isinstance(letter, str) else letter
        a, w, k = self.lent
        array, memory, scratch, had = self.array[:a], self.wanted[:w], self.scratch[:k], self.state.wear
        before, held = (bytes(array), bytes(memory), bytes(scratch), self.state), self.held()
        end, count, address, self.state = change(self.device, self.state, self.pins, array, memory, scratch, letter, data)
        assert (end, address) == (expected, 0), (note, end, address)
        if count == 0:
            assert end and before == (array, memory, scratch, self.state), note
        if end == 0:
            assert count == formula(self.device, held, memory), note
            first = self.first()
            assert array[:first] == before[0][:first] and array[first + w :] == before[0][first + w :], note
            assert array[first : first + w] == memory == scratch and files_in(bytes(memory)) is not None, note
            assert found(self.device, array, letter) == ((42, None) if data is None else (0, data)), note
        assert self.state.wear == worn_by(had, MAIN, end, count, held, memory, "R"), note
        assert self.state.wear == had or (data is not None and first_run(bytes(held), len(data) // PLACE) is None), note
        self.array[:a], self.wanted[:w], self.scratch[:k] = array, memory, scratch
        s, sums = self.state, f"{digest(array):04X} {digest(memory):04X} {digest(scratch):04X}"
        self.row(f"{op} {letter:02X}", note)
        self.say(f"{op} {end:03d} {count:010d} {address:08X} {s.status:02X} {s.mode} {s.phase} {sums} {tally(had)} > {tally(s.wear)} : "
                 f"{self.finds(array)}")

    def add(self, letter, note, end=0):
        self.changed("I", letter, bytes(self.file[: self.used]), note, end)

    def drop(self, letter, note, end=0):
        self.changed("Z", letter, None, note, end)

    def find(self, letter, note, end=0, room=ROOM):
        letter, rest = ord(letter) if isinstance(letter, str) else letter, bytearray(b"\x5a" * room)
        number, length = find(self.device, self.array[: self.lent[0]], letter, rest)
        assert number == end, (note, number)
        self.row(f"Q {letter:02X} {room:06d}", note)
        self.say(f"Q {number:03d} {length:06d} {digest(rest):04X}")

    def read(self, letter, x, note, end=None, room=ROOM):
        letter, rest = ord(letter) if isinstance(letter, str) else letter, bytearray(b"\x5a" * room)
        case, value = read(self.device, self.array[: self.lent[0]], letter, rest, x)
        assert end is None or (case, value) == (("X", end) if isinstance(end, int) else end), (note, case, value)
        told = f"{value:03d}" if case == "X" else struct.pack(">d", value).hex()
        self.row(f"R {letter:02X} {room:06d} {x & 0xFFFFFFFF:08X}", note)
        self.say(f"R {case} {told} {digest(rest):04X}")


# ---------------------------------------------------------------- the cases

ALL_LETTERS = LETTERS.decode()
BENCH = (3, 4)


def empty(b):  # R-store-1
    b.group("none", "the empty store: an erased block")
    for number in (3, 4, 1, 2):
        b.new(number)
        b.find("K", "42", 42)
        b.drop("K", "42", 42)
        b.stretch(0, 1, 0x00)
        b.find("K", "a dead place, and no file: 42", 42)
    b.new(3)
    for letter in (0, 65, 98, 255):
        b.find(letter, "a letter that is none of the eight: 42", 42)
        b.drop(letter, "the same: 42", 42)
    b.stretch(0, 28, 0x00)
    b.find("K", "all dead: 42", 42)
    b.blocks("K", 28)
    b.add("K", "all dead, the file fills the block: a slide")


def single(b):
    b.group("one ", "one file, at every letter, at each end of the block")
    for number in BENCH:
        for letter in ALL_LETTERS if number == 3 else "K":
            b.new(number)
            b.made(letter, 40)
            b.add(letter, "into the empty store")
            b.drop(letter, "and dropped")
    b.new(4)
    b.laid("S", 0, 1)
    b.find("S", "at the first place")
    b.new(4)
    b.laid("S", 27, 1)
    b.find("S", "at the last place")
    b.made("K", 505)
    b.add("K", "the first place is free")
    b.new(3)
    b.laid("T", 20, 8)
    b.find("T", "eight blocks that end with the block")
    b.blocks("T", 20)
    b.add("T", "replaced by twenty, in the run before it")
    b.new(3)
    b.blocks("R", 28)
    b.add("R", "a file that fills the block")
    b.drop("R", "dropped: all places are dead")
    b.made("R", 1)
    b.add("R", "one block: a slide")
    b.new(3)
    b.laid("N", 0, 8)
    b.find("N", "what a load of one file leaves")
    b.add("N", "the same file again goes behind it")


def full(b):
    b.group("full", "28 places on the bench devices")
    counts = (3, 4, 4, 4, 4, 4, 3, 2)
    for number in BENCH:
        b.new(number)
        for i, (letter, count) in enumerate(zip(ALL_LETTERS, counts)):
            b.blocks(letter, count, i, 7 + i)
            b.add(letter, "one behind the other")
        b.blocks("T", 3, 90, 3)
        b.add("T", "one block more than there is room for: 43", 43)
        b.blocks("T", 2, 90, 3)
        b.add("T", "as long as the one it replaces: a slide")
        b.blocks("B", 1, 91, 3)
        b.add("B", "shorter, the first of the files: a slide, it goes behind the others")
        b.blocks("B", 3, 92, 3)
        b.add("B", "28 again")
        b.blocks("B", 4, 92, 3)
        b.add("B", "29: 43", 43)
        b.drop("K", "four places dead")
        b.blocks("K", 4, 93, 3)
        b.add("K", "dead places are not used: a slide")


def dead(b):  # R-store-1
    b.group("dead", "dead places between files; they are not read and not used")
    b.new(3)
    b.laid("B", 0, 2)
    b.stretch(2, 3, 0x00)
    b.laid("E", 5, 1)
    b.find("E", "behind dead places")
    b.spot(3, 1, 0x5A)
    b.spot(4, 511, 0xFF)
    b.find("E", "dead places with any bytes behind their first")
    b.laid("J", 2, 1)
    b.spot(2, 0, 0x00, "a file dropped by hand: its check does not fit")
    b.find("J", "is not there: 42", 42)
    b.blocks("J", 3)
    b.add("J", "three: the first run, behind E")
    b.blocks("K", 20)
    b.add("K", "20: the first run is 19 long, a slide")
    b.new(4)
    b.laid("K", 10, 1)
    b.spot(10, 0, 0x00)
    b.laid("K", 11, 1, 9)
    b.find("K", "the letter stands once, and once dead")
    b.drop("K", "now twice dead")
    b.new(4)
    b.stretch(9, 1, 0x00)
    b.blocks("S", 10)
    b.add("S", "ten: nine blank, one dead, then eighteen")
    b.new(4)
    b.stretch(0, 1, 0xFF)
    b.spot(0, 0, 0x00, "dead by its first byte alone")
    b.made("S", 5)
    b.add("S", "behind it")
    b.new(4)
    b.laid("R", 0, 3)
    b.spot(0, 0, 0x00, "the first block of a file dropped, the others not")
    b.find("R", "44", 44)
    b.spot(512 // 512, 0, 0x00)
    b.find("R", "44 still", 44)
    b.spot(2, 0, 0x00)
    b.find("R", "all three: 42", 42)


def improper(b):  # R-store-1, R-number-44
    b.group("junk", "places that are not a proper store: 44, before any cycle")

    def all_44(note):
        b.find("B", note, 44)
        b.find("T", "44 before 42", 44)
        b.find(0, "44 before 42, no letter", 44)
        b.drop("T", "44 before 42", 44)
        b.made("S", 30)
        b.add("S", "44", 44)
        b.blocks("S", 29)
        b.add("S", "44 before 43", 44)

    def with_file(note, changes, seals=(), letter="B", count=2, place=4):
        b.new(3)
        b.laid("K", 0, 1)
        b.blocks(letter, count)
        for at, byte in changes:
            b.byte(at, byte)
        for block in seals:
            b.seal(block)
        b.lay(place, note)
        all_44(note)

    for count, place in ((3, 26), (2, 27), (8, 21)):
        b.new(3)
        b.laid("B", place, count)
        all_44("half a file at the end of the block")
    b.new(4)
    b.laid("B", 20, 9)
    all_44("a file that goes past the array")
    b.new(3)
    b.laid("B", 0, 2)
    b.laid("B", 9, 2)
    all_44("two of one letter, the same file")
    b.new(4)
    b.laid("B", 1, 1)
    b.laid("K", 3, 2)
    b.laid("B", 27, 1, 5)
    all_44("two of one letter, another file")
    for place in (0, 27):
        for byte in (0xFE, 0x01, 0x42, 0x41, 0x5A):
            b.new(3)
            b.spot(place, 0, byte, "a blank place but for its first byte")
            b.find("K", "44", 44)
    for at in (1, 2, 255, 509, 510, 511):
        b.new(4)
        b.spot(13, at, 0x00, "a blank place but for one byte")
        all_44("44")
    with_file("31: a byte in the second block", [(700, 0)])
    with_file("31: a check", [(511, 1), (510, 1)])
    with_file("32: no letter", [(0, 65)], [0], count=1)
    with_file("32: another letter in the second block", [(512, ord("E"))], [1])
    with_file("32: lower case", [(0, ord("b"))], [0], count=1)
    with_file("33: a first block that says 1", [(1, 1)], [0], count=1)
    with_file("33: a count of 0", [(2, 0)], [0], count=1)
    with_file("33: a count one too high", [(2, 2)], [0], count=1)
    with_file("33: a count one too low", [(2, 1)], [0])
    with_file("33: the second block's count", [(514, 3)], [1])
    with_file("33: a count of 255", [(2, 255)], [0], count=1)
    with_file("34: none used", [(3, 0), (4, 0)], [0], count=1)
    with_file("34: padding", [(509, 0)], [0], count=1)
    with_file("34: the first block not full", [(4, 0)], [0])
    b.new(3)
    b.laid("B", 4, 2)
    b.stretch(5, 1, 0xFF, "38: its second block blank")
    all_44("38")
    b.new(3)
    b.laid("B", 4, 3)
    b.lent_file(1024)
    b.spot(6, 0, 0x00, "31: the last of three dead")
    all_44("31")
    b.new(3)
    b.laid("B", 4, 2)
    b.laid("K", 5, 1)
    all_44("another file over its second block")
    b.new(3, fill=(1, 1))
    b.stretch(0, 28, 0x42)
    all_44("every byte B")
    b.new(2)
    b.spot(223, 511, 0x7F, "the last byte of the long main block")
    all_44("44")


def border(b):  # R-store-3, R-number-43
    b.group("brim", "43 exactly where live blocks, without the replaced file, and the new ones exceed 28")
    for number in BENCH:
        b.new(number)
        b.laid("B", 3, 12)
        b.stretch(15, 4, 0x00)
        b.laid("E", 19, 9)
        b.blocks("J", 8)
        b.add("J", "21 and 8: 43", 43)
        b.blocks("E", 17)
        b.add("E", "12 and 17, E replaced: 43", 43)
        b.blocks("E", 16)
        b.add("E", "12 and 16, E replaced: a slide")
        b.blocks("J", 1)
        b.add("J", "28 and 1: 43", 43)
        b.blocks("B", 13)
        b.add("B", "16 and 13: 43", 43)
        b.blocks("B", 12)
        b.add("B", "16 and 12: a slide")
        b.drop("E", "16 dead")
        b.blocks("J", 17)
        b.add("J", "12 and 17: 43", 43)
        b.blocks("J", 16)
        b.add("J", "12 and 16: a slide")
    b.new(3)
    for count, end in ((29, 43), (30, 43), (224, 43), (28, 0)):
        b.blocks("N", count)
        b.add("N", "into the empty store", end)
    b.blocks("N", 29)
    b.add("N", "longer than the block in place of itself: 43", 43)
    b.blocks("N", 28, 9)
    b.add("N", "28 in place of 28: a slide")


def replaced(b):  # R-store-2
    b.group("repl", "a letter already there: the old file is dropped, and left out of the sum")
    b.new(3)
    b.laid("K", 0, 5)
    b.laid("S", 5, 5)
    b.blocks("K", 5, 40)
    b.add("K", "behind S; the old one is dead")
    b.blocks("K", 2, 41)
    b.add("K", "shorter")
    b.blocks("S", 11, 42)
    b.add("S", "fills what is blank")
    b.blocks("K", 17, 43)
    b.add("K", "17 and 11 are 28: a slide, K behind S")
    b.blocks("K", 18, 43)
    b.add("K", "43", 43)
    b.blocks("S", 11, 44)
    b.add("S", "11 and 17: a slide, S behind K")
    b.drop("K", "K out")
    b.drop("K", "K is not there: 42", 42)
    b.blocks("K", 6, 45)
    b.add("K", "a slide, the run is gone")
    b.add("K", "the same again, in the run behind it")


def slides(b):  # R-store-2
    b.group("down", "a slide keeps the order of the live files")
    for number in BENCH:
        b.new(number)
        for letter, place, count in (("T", 1, 3), ("B", 6, 4), ("S", 12, 2), ("E", 15, 5), ("R", 22, 4)):
            b.laid(letter, place, count, place)
        b.blocks("K", 4, 50)
        b.add("K", "no run of four: T B S E R, then K")
        b.drop("B", "B out of the middle")
        b.blocks("S", 9, 51)
        b.add("S", "T E R K, then S")
        b.blocks("N", 4, 52)
        b.add("N", "29: 43", 43)
        b.blocks("N", 3, 52)
        b.add("N", "28: in the run that the slide left")
        b.blocks("T", 3, 53)
        b.add("T", "E R K S N, then T")
    b.new(3)
    b.laid("K", 2, 9)
    b.laid("S", 14, 9)
    b.blocks("K", 10, 60)
    b.add("K", "the only other file stands above: S goes to place 0")
    b.new(3)
    b.laid("K", 9, 10)
    b.blocks("K", 10, 60)
    b.add("K", "nothing else: the file alone, from place 0 on")


def runs(b):  # R-store-2
    b.group("runs", "the first run that is long enough, not the longest and not the best")
    b.new(3)
    for letter, place, count in (("B", 2, 1), ("E", 8, 2), ("J", 22, 2)):
        b.laid(letter, place, count, place)
    b.blocks("K", 3, 70)
    b.add("K", "runs of 2, 5, 12, 4: the second, from its first place on")
    b.blocks("N", 1, 71)
    b.add("N", "one: the first")
    b.blocks("R", 2, 72)
    b.add("R", "two: what is left of the second")
    b.blocks("S", 4, 73)
    b.add("S", "four: the third though the last fits it")
    b.blocks("S", 9, 74)
    b.add("S", "nine, S replaced: no run, a slide")
    b.new(4)
    b.laid("B", 5, 1)
    b.laid("E", 11, 1)
    b.laid("J", 17, 1)
    b.blocks("K", 5, 75)
    b.add("K", "three runs of five, one of ten: the first")
    b.blocks("K", 10, 76)
    b.add("K", "ten: the last, exactly")
    b.blocks("T", 5, 77)
    b.add("T", "five: the second run, since the first is dead")
    b.blocks("S", 6, 78)
    b.add("S", "six: none, a slide")


def refused(b):  # R-store-5
    b.group("bars", "the refusals of a run, then the reader's, then 44, 42, 43; nothing is touched")

    def both(note, end, bad_file=True):
        b.add("K", note, end)
        b.drop("K", note, end)

    for wrong in (False, True):
        b.new(3)
        b.laid("K", 2, 2)
        b.blocks("K", 2)
        if wrong:
            b.spot(9, 9, 9, "not a proper store")
            b.lent_file(513, "not a file")
        n = block_length(3, MAIN)
        for number, word in ((0, 0), (9, 0), (255, 0), (3, 1), (5, 0), (5, 1), (6, 0), (6, 1), (7, 0), (7, 1), (8, 0), (8, 1)):
            m = block_length(number, MAIN) if number in BLOCKS else n
            b.use(number, 1, 1, SIZE.get(number, 16384), m, m, word=word)
            both("1", 1)
            b.find("K", "1", 1)
            b.read("K", 5, "1", 1)
        for program, erase, suspend in ((0, 1, 1), (1, 0, 1), (1, 1, 0), (1, 1, 101)):
            b.use(3, program, erase, 16384, n, n, suspend)
            both("1: no such times", 1)
        b.find("K", "a find needs no times", 44 if wrong else 0)
        for array in (0, 16383, 16385, 131072):
            b.use(3, 1, 1, array, n, n)
            both("2", 2)
            b.find("K", "2", 2)
            b.read("K", 5, "2", 2)
        b.use(3, 1, 1, 16384, n, n)
        b.put("A", 0x81, "F")
        both("3", 3)
        b.put("S", 0x80, "E", 2, 0x3A00)
        both("3: busy and ready", 3)
        b.fresh()
        for rp, vpp in ((0, 12000), (3, 12000), (1, 6501), (1, 11399), (2, 12601)):
            b.levels(rp, vpp, MAIN)
            both("4", 4)
        b.levels(1, 12000, MAIN)
        for memory, scratch in ((n - 1, n), (n + 1, n), (n, n - 1), (n, n + 1), (0, n), (n, 0), (0, 0), (512, 512)):
            b.use(3, 1, 1, 16384, memory, scratch)
            both("11", 11)
        b.use(3, 1, 1, 16384, n, n)
        for mode, status, phase, left, address in (("S", 0x80, "C", 0, 0), ("S", 0x80, "D", 0, 0), ("S", 0x00, "P", 1, 16),
                                                   ("S", 0x00, "E", 1, 16), ("A", 0xC0, "S", 1, 16)):
            b.put(mode, status, phase, left, address)
            both("12", 12)
            b.find("K", "a find needs no state", 44 if wrong else 0)
        b.put("S", 0x00, "U", 1, 16, 1)
        both("12, being suspended", 12)
        b.levels(0, 12000, MAIN)
        both("4 before 12", 4)
        b.use(3, 1, 1, 16384, 1, 2)
        both("4 before 11", 4)
        b.levels(1, 12000, MAIN)
        both("11 before 12", 11)
        b.use(9, 0, 1, 7, 1, 2)
        both("1 before all", 1)
        b.use(8, 1, 1, 7, 1, 2)
        both("1 before all, device 8", 1)


def read_refused(b):  # R-store-5
    b.group("file", "the reader's refusals, before 44 and 43")

    def each(expected, note, build, asked="K"):
        for number, wrong in ((3, False), (3, True), (4, False)):
            b.new(number)
            b.laid("B", 2, 20)
            if wrong:
                b.spot(27, 0, 0x11)
            build()
            b.add(asked, note, expected)

    def of(size, changes=(), seals=(), length=None):
        def build():
            b.made("K", size)
            for at, byte in changes:
                b.byte(at, byte)
            for block in seals:
                b.seal(block)
            if length is not None:
                b.lent_file(length)
        return build

    for length in (0, 1, 511, 513, 114689, 115200):
        each(30, f"30: a file of {length} bytes", of(900, length=length))
    each(31, "31", of(900, [(700, 0)]))
    each(31, "31: before 43", of(505 * 9, [(4109, 0)]))
    each(32, "32: no letter", of(40, [(0, 65)], [0]), "A")
    each(32, "32: another in the second block", of(900, [(512, ord("S"))], [1]))
    each(33, "33: number", of(40, [(1, 1)], [0]))
    each(33, "33: one block of two", of(900, length=512))
    each(33, "33: count", of(40, [(2, 3)], [0]))
    each(34, "34: padding", of(40, [(509, 1)], [0]))
    each(34, "34: none used", of(40, [(3, 0), (4, 0)], [0]))
    each(35, "35: another letter asked", of(900), "S")
    each(35, "35: a letter that is none asked", of(900), "A")
    each(35, "35: before 43", of(505 * 9), "S")
    each(38, "38: a second block blank", of(505, [(2, 2)], [0], 1024))
    b.new(3)
    b.made("K", 40)
    b.lent_file(1024)
    b.add("K", "33: a count of one for two blocks", 33)
    b.new(3)
    b.made("K", 20)
    for at in (0, 1, 2, 3, 4, *range(5, 25), 510, 511):
        b.byte(at, 255)
    b.add("K", "38: blank", 38)
    b.add("A", "38: blank, before 35", 38)


def ends(b):
    b.group("ends", "levels, other starts and other ends of the run")
    b.new(3, vpp=6500)
    b.laid("K", 2, 2)
    b.find("K", "a find needs no supply")
    b.drop("K", "VPP low: 21, the file stays", 21)
    b.blocks("K", 3, 80)
    b.add("K", "VPP low: 21", 21)
    b.levels(1, 0, MAIN)
    b.blocks("K", 28, 81)
    b.add("K", "VPP low, an erase: 21", 21)
    b.levels(2, 12600, MAIN)
    b.add("K", "RP# at V_HH, VPP 12,600")
    b.levels(1, 11400, MAIN)
    b.put("I", 0xB8, "F")
    b.drop("K", "identifier mode and all error bits at the start")
    b.put("S", 0x88, "F")
    b.made("S", 30)
    b.add("S", "status mode and SR.3 at the start")
    b.use(3, 65535, 1, 16384, 14336, 14336)
    b.drop("S", "P 65,535")
    b.use(3, 1, 65535, 16384, 14336, 14336, 100)
    b.blocks("S", 28, 82)
    b.add("S", "E 65,535, S 100: a slide")
    b.new(3, vpp=5000)
    b.laid("K", 0, 2)
    b.stretch(2, 26, 0x00)
    b.blocks("K", 2)
    b.add("K", "VPP low, a slide to what is there but for dead places: 21", 21)


def worn(b):  # R-wear-1
    b.group("wear", "a drop erases nothing, an add only where it slides; counts up to the stop")
    for wear in (SOME, near(MAIN, STOP - 1), near(MAIN, STOP), near(MAIN, 99999), (STOP,) * 7):
        b.worn(wear)
        b.new(3)
        b.put("A", 0x80, "F")
        b.blocks("K", 15, 255, 0)
        b.add("K", "into the empty store: no erase")
        b.drop("K", "no erase")
        b.add("K", "a slide: one erase")
        b.blocks("S", 13, 255, 0)
        b.add("S", "no erase")
        b.blocks("S", 14, 9)
        b.add("S", "43: no erase", 43)
        b.made("S", 505 * 12 + 9, 10)
        b.add("S", "a slide: one erase")


def long_block(b):
    b.group("long", "the 28F001BX, 224 places; most payloads are FFH, so that little is programmed")
    ones = (255, 0)
    b.new(1)
    b.blocks("K", 29)
    b.add("K", "29 blocks")
    b.blocks("K", 224, *ones)
    b.add("K", "224 in place of 29: a slide")
    b.made("S", 1)
    b.add("S", "225: 43", 43)
    b.blocks("K", 223, *ones)
    b.add("K", "223 in place of 224: a slide")
    b.made("S", 1)
    b.add("S", "224: the last place")
    b.blocks("S", 2)
    b.add("S", "225: 43", 43)
    b.new(2)
    for i, (letter, place, count) in enumerate(zip(ALL_LETTERS, (0, 20, 60, 61, 110, 150, 200, 220), (9, 40, 1, 30, 40, 30, 20, 4))):
        b.laid(letter, place, count, *((i, 7) if count < 10 else ones))
    b.drop("J", "one place in the middle")
    b.blocks("J", 20, 9)
    b.add("J", "the run at 180 is long enough, the first at 9 is not")
    b.blocks("J", 50, *ones)
    b.add("J", "223 blocks: a slide")
    b.blocks("J", 52, 9)
    b.add("J", "225: 43", 43)
    b.made("J", 505 * 50 + 1, *ones)
    b.add("J", "224: a slide")
    b.drop("T", "four dead among the others")


def rooms(b):
    b.group("room", "finds with room that is short, exact or more")
    for number in (3, 4, 2):
        b.new(number)
        b.laid("K", 3, 3)
        b.laid("S", 7, 1)
        for room, end in ((0, 37), (1535, 37), (1536, 0), (1537, 0)):
            b.find("K", f"room {room}", end, room)
        for room, end in ((511, 37), (512, 0), (5000, 0)):
            b.find("S", f"room {room}", end, room)
        b.find("T", "42 before 37", 42, 0)
        b.spot(0, 5, 5)
        b.find("K", "44 before 37", 44, 0)


def readings(b):
    b.group("read", "a temperature straight from the store")
    k = [knot for i, knot in enumerate(TABLE_K) if i % 50 == 0]
    s = [knot for i, knot in enumerate(TABLE_S) if i % 60 == 0]
    for number in (3, 4, 1):
        b.new(number)
        b.table("K", k)
        b.add("K", "a table of type K")
        b.table("S", s)
        b.add("S", "a table of type S")
        for letter, table in (("K", k), ("S", s)):
            low, high = table[0][0], table[-1][0]
            for x in (low - 1, low, table[3][0] - 1, table[3][0], table[3][0] + 1, 0, 1234, high, high + 1, -(1 << 31), (1 << 31) - 1):
                b.read(letter, x, "by its own table")
        b.read("T", 5, "42", 42)
        b.read(0, 5, "42, no letter", 42)
        b.read("K", 5, "37", 37, 6 * len(k) - 1)
        b.read("K", 5, "room exact", room=6 * len(k))
        b.read("T", 5, "42 before 37", 42, 0)
        b.drop("K", "K out")
        b.read("K", 5, "42, never by another's table", 42)
    b.table("K", [(5, 1), (5, 2)])
    b.add("K", "no table: not rising")
    b.read("K", 5, "41", 41)
    b.read("K", 5, "37 before 41", 37, 11)
    b.table("K", [(5, 1), (80001, 2)])
    b.add("K", "no table: out of range")
    b.read("K", 5, "41", 41)
    b.made("K", 13)
    b.add("K", "no table: no multiple of six")
    b.read("K", 5, "40", 40)
    b.made("K", 6)
    b.add("K", "no table: one knot")
    b.read("K", 5, "40", 40)
    b.spot(200, 0, 0x11)
    b.read("K", 5, "44 before 40", 44)
    b.read("T", 5, "44 before 42", 44)


def many(b):
    """Adds and drops in no order; a find gives the file last added and not dropped. (R-store-4)"""
    b.group("many", "adds and drops in no order")
    chosen = random.Random(9)
    for number, steps in ((3, 40), (4, 40)):
        b.new(number)
        held = {}
        for step in range(steps):
            letter = chosen.choice(ALL_LETTERS)
            if chosen.random() < 0.3:
                b.drop(letter, "drop", 0 if letter in held else 42)
                held.pop(letter, None)
                continue
            count = chosen.choice((1, 1, 2, 2, 3, 4, 5, 7, 9))
            b.blocks(letter, count, step, 1 + 2 * step)
            rest = sum(len(data) for other, data in held.items() if other != letter) // PLACE
            b.add(letter, f"{count} blocks", 43 if rest + count > 28 else 0)
            if rest + count <= 28:
                held[letter] = bytes(b.file[: b.used])
            for other in ALL_LETTERS:
                wanted = (0, held[other]) if other in held else (42, None)
                assert found(b.device, b.array[: b.lent[0]], ord(other)) == wanted


PARTS = (empty, single, full, dead, improper, border, replaced, slides, runs, refused, read_refused, ends, worn, long_block, rooms,
         readings, many)


def all_cases():
    b = Bench()
    for part in PARTS:
        part(b)
    return b


if __name__ == "__main__":
    called("vectors_store", all_cases, __doc__)
