#!/usr/bin/env python3
"""The rows of the program `vectors_run`, and the lines that it must print.

    python3 tests/vectors_run.py table        the rows, as in crates/vectors_run/stdin
    python3 tests/vectors_run.py expected     the lines, as in crates/vectors_run/stdout
    python3 tests/vectors_run.py check        whether both files are what the script prints

The loader in the first half is written from documents 01 and 02 alone, as one pass over the block that hands out its cycles; the device
is the model of vectors_model.py. Both share nothing with the crates. The second half is the list of cases.

A line of a run (R), of a load alone (O) or of a verify alone (V) shows: group and number; the end; the cycles made; the end's address;
the status register, mode and phase that are left; digests of what was lent of the array and of scratch; the erases begun by block, for
each of seven, before and after. A line of a step shows what the loader gave: a cycle (its kind, RP#, WP#, VPP, address, data), an end
(E, its number and address) or a refusal (X); and a digest of scratch. Addresses of cycles count units; the address of an end is that of
a byte.
"""
from collections import namedtuple

from vectors_model import (
    ALL, ARRAY_ROOM, BLOCKS, FRESH, ROOM, SIZE, SOME, STOP, UNWORN, Cycle, Device, State,
    bad_levels, called, carried, counted, cycle, digest, is_device, is_part, near, pattern, proper, put_unit, read, shown, tally, width,
)

# ---------------------------------------------------------------- the loader

Pins = namedtuple("Pins", "rp vpp wp", defaults=(0,))  # the levels that a run keeps fixed


def fault(status, erase):
    """Judging a ready status: 0 for none. (R-number-21 to R-number-24)"""
    if status & 0x08:
        return 21
    if status & 0x30 == 0x30:
        return 22
    if erase and status & 0x20:
        return 23
    if not erase and status & 0x10:
        return 24
    return 0


def poll(address, erase):
    """Status reads until SR.7, 65,535 at most. The status is in the low eight bits. (R-load-6, R-number-20)"""
    for _ in range(65535):
        status = (yield ("R", address, 0)) & 0xFF
        if status & 0x80:
            return fault(status, erase)
    return 20


def all_units(device, part):
    """The units of lent bytes, low byte first."""
    return [h << 8 | l for l, h in zip(part[::2], part[1::2])] if device.word else list(part)


def load(device, first, wanted, scratch):
    """Loading a block of n units, without the verify. Hands out cycles, takes what is read, returns the end and its address.
    (R-load-1 to R-load-3)"""
    wants, holds = all_units(device, wanted), []
    n = len(wants)
    yield ("W", first, 0x50)
    yield ("W", first, 0xFF)
    for i in range(n):
        holds.append(carried(device, (yield ("R", first + i, 0))))
        put_unit(device, scratch, i, holds[i])
    if any(w & ~h for w, h in zip(wants, holds)):
        yield ("W", first, 0x20)
        yield ("W", first, 0xD0)
        bad = yield from poll(first, True)
        if bad:
            return bad, 0
        scratch[:] = b"\xff" * len(scratch)
        holds = [carried(device, 0xFFFF)] * n
    for i in range(n):
        if holds[i] != wants[i]:
            yield ("W", first + i, 0x40)
            yield ("W", first + i, wants[i])
            bad = yield from poll(first + i, False)
            if bad:
                return bad, 0
            put_unit(device, scratch, i, wants[i])
    return 0, 0


def verify(device, first, wanted, scratch):
    """Verifying a block of n units: FFH, and the reads up to a difference. The address told is that of the first byte that differs.
    (R-load-4, R-number-25)"""
    w = width(device)
    yield ("W", first, 0xFF)
    for i in range(len(wanted) // w):
        put_unit(device, scratch, i, carried(device, (yield ("R", first + i, 0))))
        for k in range(w * i, w * i + w):
            if scratch[k] != wanted[k]:
                return 25, w * first + k
    return 0, 0


def both(device, first, wanted, scratch):
    """A load and, where it ended well, the verify after it. (R-load-5)"""
    over = yield from load(device, first, wanted, scratch)
    if over[0]:
        return over
    return (yield from verify(device, first, wanted, scratch))


WORK = {"R": both, "O": load, "V": verify}


def begun(op, device, block, wanted, scratch):
    """A run, a load alone or a verify alone of a block, from its first unit on."""
    return WORK[op](device, BLOCKS[device.number][block][0] // width(device), wanted, scratch)


def block_length(number, block):
    """A block's bytes."""
    first, last = BLOCKS[number][block]
    return last - first + 1


def loader_number(device, pins, block, wanted, scratch):
    """The tests that start, step and run share; lengths in bytes. (R-number-4, R-number-10, R-number-11)"""
    if bad_levels(device, Cycle("R", pins.rp, 0, pins.vpp, 0, 0, pins.wp)) or pins.rp == 0:
        return 4
    if block >= len(BLOCKS[device.number]):
        return 10
    if not wanted == scratch == block_length(device.number, block):
        return 11
    return 0


def run_number(device, state, pins, block, array, wanted, scratch):
    """The refusals of a run, 0 for none. (R-order-2, R-number-12)"""
    if not is_device(device):
        return 1
    if len(array) != SIZE[device.number]:
        return 2
    if not proper(device, state):
        return 3
    number = loader_number(device, pins, block, len(wanted), len(scratch))
    if number == 0 and state.phase != "F":
        return 12
    return number


def run(device, state, pins, block, array, wanted, scratch, op="R"):
    """A run, a load alone or a verify alone: the end, the count, the address and the state. Array and scratch are changed in place.
    (R-form-7)"""
    number = run_number(device, state, pins, block, array, wanted, scratch)
    if number:
        return number, 0, 0, state
    work, count, value, at_rest = begun(op, device, block, wanted, scratch), 0, None, None
    try:
        while True:
            kind, address, data = work.send(value)
            if kind == "R" and state is at_rest:  # as the read before, at another address of the block
                letter, value = read(device, state, address, array)
            else:
                c, before = Cycle(kind, pins.rp, 0, pins.vpp, address, data, pins.wp), state
                (letter, value), state = cycle(device, state, c, array, b"")
                at_rest = state if kind == "R" and state == before else None
            assert letter != "X"
            count += 1
    except StopIteration as over:
        return over.value[0], count, over.value[1], state


def formula(device, held, wanted, op="R"):
    """The count of a good run, 2n + 3 + e(2 + E) + p(2 + P); of a load alone, n + 2 and the same; of a verify alone, n + 1. In units.
    (R-load-5)"""
    wants, holds = all_units(device, wanted), all_units(device, held)
    n = len(wants)
    if op == "V":
        return n + 1
    rises = any(w & ~h for w, h in zip(wants, holds))
    if rises:
        holds = [carried(device, 0xFFFF)] * n
    programs = sum(w != h for w, h in zip(wants, holds))
    return n + 2 + (n + 1 if op == "R" else 0) + rises * (2 + device.erase) + programs * (2 + device.program)


def worn_by(wear, block, end, count, held, wanted, op):
    """The counts after a run: one more at its block where it erased, up to the stop; else as they were. An erase that cannot start ends
    the run with 21 or 23. (R-wear-1)"""
    rises = count and op != "V" and any(w & ~h for w, h in zip(wanted, held))
    return counted(wear, block) if rises and end not in (21, 23) else wear


class Stepped:
    """A loader stepped by hand. `place` and `polls` are kept only where a row hands them back."""

    def __init__(self, device, pins, block):
        self.device, self.pins, self.block = device, pins, block
        self.place, self.polls, self.work, self.given = 0, 0, None, None

    def start(self, wanted, scratch, op):
        bad = loader_number(self.device, self.pins, self.block, len(wanted), len(scratch)) if is_part(self.device) else 1
        if bad:
            self.given = ("E", bad, 0)
            return ("X", bad)
        self.work = begun(op, self.device, self.block, wanted, scratch)
        self.given = next(self.work)
        return self.given

    def past(self):
        """The place is past the block."""
        number = self.device.number
        return self.block < len(BLOCKS[number]) and self.place * width(self.device) >= block_length(number, self.block)

    def step(self, value, wanted, scratch):
        if not is_part(self.device):
            return ("X", 1)
        if self.polls > 65534 or self.past():
            return ("X", 3)
        bad = loader_number(self.device, self.pins, self.block, len(wanted), len(scratch))
        if bad:
            return ("X", bad)
        if self.given[0] != "E":
            try:
                self.given = self.work.send(value)
            except StopIteration as over:
                self.given = ("E",) + over.value
        return self.given


# ---------------------------------------------------------------- the bench on which the cases are run

# ROWS. R makes a run, O a load alone, V a verify alone; Q, P and U start the stepped loader for each of the three, N steps it; these
# print a line. The others prepare.
#   G name                                    the group's four letters
#   D number word program erase suspend array wanted scratch     the device, and how many bytes of each slice are lent
#   L rp wp vpp block                         the levels and the block
#   E and seven counts                        erases begun by block, for the states of the rows S that follow
#   S status mode phase left address, F       the state; a fresh one
#   A first step, W first step, C first step  fill the array, wanted, scratch, as far as they are lent
#   B place byte, X address byte              one byte of wanted, of the array
#   K place polls                             the record as a host may hand it back, with the bench's part, levels and block
#   N data times                              steps with these 16 bits


class Bench:
    def __init__(self):
        self.device, self.state, self.lent = Device(0, 0, 0), FRESH, (0, 0, 0)
        self.pins, self.block, self.stepped, self.wear = Pins(0, 0), 0, None, UNWORN
        self.array, self.wanted, self.scratch = bytearray(ARRAY_ROOM), bytearray(ROOM), bytearray(ROOM)
        self.name, self.number, self.rows, self.lines = "    ", 0, [], []

    def row(self, text, note=""):
        self.rows.append(f"{text:40}{note}".rstrip())

    def say(self, text):
        self.number += 1
        self.lines.append(f"{self.name} {self.number:04d} {text}")

    def group(self, name, note):
        self.name = name
        self.row(f"G {name}", note)

    def use(self, number, program, erase, array, wanted, scratch, suspend=1, word=0):
        self.device, self.lent = Device(number, program, erase, suspend, word), (array, wanted, scratch)
        self.row(f"D {number:03d} {word} {program:05d} {erase:05d} {suspend:03d} {array:06d} {wanted:06d} {scratch:06d}")

    def fit(self, number, block, program=2, erase=3, rp=None, vpp=12000, wp=0, word=0):
        """A device and a block of it, with lengths that fit; RP# as the block needs it."""
        n = block_length(number, block)
        self.use(number, program, erase, SIZE[number], n, n, word=word)
        self.levels((2 if block == 0 else 1) if rp is None else rp, vpp, block, wp)

    def levels(self, rp, vpp, block, wp=0):
        self.pins, self.block = Pins(rp, vpp, wp), block
        self.row(f"L {rp:03d} {wp:03d} {vpp:010d} {block:03d}")

    def worn(self, wear):
        """The counts of the states that are put from here on."""
        self.wear = tuple(wear)
        self.row("E " + " ".join(f"{n:010d}" for n in wear))

    def put(self, mode, status, phase, left=0, address=0, data=0):
        self.state = State(mode, status, phase, data, left, address, self.wear)
        self.row(f"S {shown(self.state)}")

    def fresh(self):
        self.state = FRESH
        self.row("F")

    def fill(self, letter, first, step):
        slice_, n = {"A": (self.array, self.lent[0]), "W": (self.wanted, self.lent[1]), "C": (self.scratch, self.lent[2])}[letter]
        slice_[:n] = pattern(first, step, n)
        self.row(f"{letter} {first:03d} {step:03d}")

    def want(self, place, byte, note=""):
        self.wanted[place] = byte
        self.row(f"B {place:08X} {byte:02X}", note)

    def hold(self, address, byte, note=""):
        self.array[address] = byte
        self.row(f"X {address:08X} {byte:02X}", note)

    def held(self):
        """What the block holds, none where there is no such block."""
        blocks = BLOCKS.get(self.device.number, ())
        first, last = blocks[self.block] if self.block < len(blocks) else (0, -1)
        return self.array[first : last + 1]

    def run(self, note, expected=None, op="R"):
        """One run, load alone or verify alone. Where the documents tell end, count and address, they are given, and it is held to them."""
        a, w, k = self.lent
        array, scratch, had, held = self.array[:a], self.scratch[:k], self.state.wear, self.held()
        end, count, address, self.state = run(self.device, self.state, self.pins, self.block, array, self.wanted[:w], scratch, op)
        assert expected is None or (end, count, address)[: len(expected)] == expected, (note, end, count, address)
        assert self.state.wear == worn_by(had, self.block, end, count, held, self.wanted[:w], op), (note, had, self.state.wear)
        self.array[:a], self.scratch[:k] = array, scratch
        s, sums = self.state, f"{digest(array):04X} {digest(scratch):04X}"
        self.row(op, note)
        self.say(f"{op} {end:03d} {count:010d} {address:08X} {s.status:02X} {s.mode} {s.phase} {sums} {tally(had)} > {tally(s.wear)}")

    def tell(self, given, scratch):
        if given[0] == "X":
            told = f"X {given[1]:03d}"
        elif given[0] == "E":
            told = f"E {given[1]:03d} {given[2]:08X}"
        else:
            pins = self.stepped.pins
            told = f"{given[0]} {pins.rp:03d} {pins.wp:03d} {pins.vpp:010d} {given[1]:08X} {given[2]:04X}"
        self.say(f"{told} {digest(scratch):04X}")

    def load(self, note, expected=None):
        self.run(note, expected, "O")

    def verify(self, note, expected=None):
        self.run(note, expected, "V")

    def start(self, note, op="R"):
        self.stepped = Stepped(self.device, self.pins, self.block)
        w, k = self.lent[1:]
        self.hand = self.scratch[:k]
        given = self.stepped.start(bytes(self.wanted[:w]), self.hand, op)
        self.row({"R": "Q", "O": "P", "V": "U"}[op], note)
        self.tell(given, self.hand)

    def step(self, value, times, note, expected=None):
        w, k = self.lent[1:]
        short = k != len(self.hand)
        for _ in range(times):
            given = self.stepped.step(value, bytes(self.wanted[:w]), self.scratch[:k] if short else self.hand)
        assert expected is None or given[: len(expected)] == expected, (note, given)
        if not short:
            self.scratch[:k] = self.hand
        self.row(f"N {value:04X} {times:05d}", note)
        self.tell(given, self.scratch[:k])

    def handed(self, place, polls, note=""):
        s = self.stepped
        s.device, s.pins, s.block, s.place, s.polls = self.device, self.pins, self.block, place, polls
        self.row(f"K {place:06d} {polls:010d}", note)


# ---------------------------------------------------------------- the cases


def cards(b):  # R-card-10, R-card-11
    b.group("card", "bench cards 10 and 11")
    b.fresh()
    b.fit(3, 1)
    b.fill("A", 255, 0)
    b.fill("W", 255, 0)
    b.want(0, 0x5A)
    b.run("held FFH, wanted 5AH then FFH", (0, 1031))
    b.run("held as wanted", (0, 1027))
    b.fill("A", 0, 0)
    b.fill("W", 255, 0)
    b.run("held 00H, wanted FFH", (0, 1032))
    b.run("held as wanted", (0, 1027))


def blocks(b):  # R-load-2, R-load-3, R-demand-3
    b.group("each", "each block of each device, with bits that rise and bytes that differ")
    for number in (3, 4, 1, 2):
        for block in (0, 1, 2):
            b.fit(number, block, 1, 1)
            b.fill("A", 10 * number + block, 7)
            b.fill("W", 91, 5)
            b.run("an erase, and nearly every byte programmed")
    for number in (3, 4):
        b.fit(number, 3, 1, 4)
        b.fill("A", 3 * number, 11)
        b.fill("W", 200, 3)
        b.run("the main block")
    for number in (1, 2):
        b.fit(number, 3, 3, 4)
        b.fill("A", 255, 0)
        b.fill("W", 255, 0)
        b.want(114687, 0x00)
        b.run("the main block: its last byte is programmed", (0, 2 * 114688 + 3 + 5))


def ways(b):  # R-demand-3
    b.group("ways", "bits that fall, bits that rise, first and last byte, and any idle start")
    b.fit(4, 2)
    b.fill("A", 255, 0)
    b.fill("W", 255, 0)
    b.want(0, 0xFE)
    b.want(511, 0x7F)
    b.run("bits fall in the first and the last byte: two programs", (0, 1027 + 8))
    b.want(511, 0x3F)
    b.run("and one bit more in the last", (0, 1027 + 4))
    b.want(0, 0xFF)
    b.run("the first bit rises: an erase, then the last byte", (0, 1027 + 5 + 4))
    b.hold(0x07FF, 0xFF)
    b.put("I", 0xB8, "F")
    b.run("identifier mode and all error bits at the start", (0, 1027 + 4))
    b.put("S", 0x88, "F")
    b.want(1, 0x00)
    b.run("status mode and SR.3 at the start", (0, 1027 + 4))
    b.use(4, 65535, 65535, 16384, 512, 512)
    b.want(2, 0x0F)
    b.run("P 65,535: the last poll is ready", (0, 1027 + 65537))
    b.want(2, 0xFF)
    b.want(1, 0xFF)
    b.want(511, 0xFF)
    b.run("E 65,535: the last poll is ready", (0, 1027 + 65537))


def other_ends(b):  # R-number-21, R-number-23, R-number-24, R-order-5
    b.group("ends", "low supply, and the boot block locked")
    b.fit(3, 2, vpp=5000)
    b.fill("A", 255, 0)
    b.fill("W", 255, 0)
    b.run("VPP low, nothing to do: well", (0, 1027))
    b.want(7, 0x70)
    b.run("VPP low, a program: 21", (21, 517))
    b.hold(0x3800, 0x00)
    b.run("VPP low, an erase: 21", (21, 517))
    b.fit(3, 0, rp=1)
    b.fill("W", 255, 0)
    b.run("locked boot block, nothing to do: well", (0, 2051))
    b.want(1023, 0x01)
    b.run("locked, a program: 24", (24, 1029))
    b.hold(0x3C00, 0x00)
    b.run("locked, an erase: 23", (23, 1029))
    b.levels(1, 6500, 0)
    b.run("locked and VPP low: 21", (21, 1029))
    b.levels(2, 11400, 0)
    b.run("RP# at unlock level: well", (0, 2051 + 5 + 4))


def refusals(b):  # R-order-2, R-number-1 to R-number-4, R-number-10 to R-number-12
    b.group("bars", "each refusal of a run; nothing is touched and no cycle counted")
    b.fresh()
    b.fit(3, 1)
    b.fill("A", 5, 3)
    b.fill("W", 9, 1)
    b.fill("C", 17, 2)
    for number, program, erase in ((0, 2, 3), (9, 2, 3), (255, 2, 3), (3, 0, 3), (3, 2, 0)):
        b.use(number, program, erase, 16384, 512, 512)
        b.run("1", (1, 0))
    for suspend in (0, 101, 255):
        b.use(3, 2, 3, 16384, 512, 512, suspend)
        b.run("1", (1, 0))
    for array in (16383, 16385, 0):
        b.use(3, 2, 3, array, 512, 512)
        b.run("2", (2, 0))
    b.fit(3, 1)
    for status in (0x81, 0x00, 0xC0):
        b.put("A", status, "F")
        b.run("3", (3, 0))
    b.fresh()
    for rp, vpp in ((0, 12000), (3, 12000), (1, 6501), (1, 11399), (2, 12601)):
        b.levels(rp, vpp, 1)
        b.run("4", (4, 0))
    for block in (4, 255):
        b.levels(1, 12000, block)
        b.run("10", (10, 0))
    b.levels(1, 12000, 1)
    for wanted, scratch in ((511, 512), (512, 511), (513, 513), (0, 0)):
        b.use(3, 2, 3, 16384, wanted, scratch)
        b.run("11", (11, 0))
    b.fit(3, 1)
    for mode, status, phase, left, address in (
            ("S", 0x80, "C", 0, 0), ("S", 0x80, "D", 0, 0), ("S", 0x00, "P", 1, 16), ("S", 0x00, "E", 3, 16), ("A", 0xC0, "S", 2, 16)):
        b.put(mode, status, phase, left, address)
        b.run("12", (12, 0))
    b.use(3, 2, 3, 16384, 512, 512, 100)
    b.put("S", 0x00, "U", 2, 16, 100)
    b.run("12, being suspended", (12, 0))
    b.put("S", 0x00, "U", 2, 16, 101)
    b.run("3, its count wrong", (3, 0))
    b.put("A", 0xC0, "S", 2, 16)
    b.levels(0, 12000, 4)
    b.run("4 before 10 and 12", (4, 0))
    b.use(9, 0, 3, 7, 1, 2)
    b.run("1 before all", (1, 0))


def by_hand(b):  # R-load-6, R-load-7
    b.group("hand", "the loader stepped by hand")
    b.fit(3, 1)
    b.fill("W", 255, 0)
    b.want(0, 0x5A)
    b.fill("C", 3, 1)
    b.start("write 50H")
    b.step(0x00, 1, "write FFH")
    b.step(0x00, 1, "the first read")
    b.step(0xFF, 511, "the last read")
    b.step(0xFF, 1, "40H at the first byte")
    b.step(0x00, 1, "its data")
    b.step(0x00, 1, "the first poll")
    b.step(0x7F, 65534, "the last poll")
    b.step(0x7F, 1, "20", ("E", 20))
    b.step(0xFF, 3, "20 again", ("E", 20))
    for status, end in ((0xB8, 21), (0xB0, 22), (0x90, 24), (0xFF, 21)):
        b.start("again")
        b.step(0xFF, 514, "40H")
        b.step(0x00, 2, "a poll")
        b.step(status, 1, "ready with an error", ("E", end))
        b.step(0x80, 1, "repeated", ("E", end))
    b.start("SR.5 alone does not end a program")
    b.step(0xFF, 514, "40H")
    b.step(0x00, 2, "a poll")
    b.step(0xA0, 1, "write FFH")
    b.step(0x00, 1, "the first read of the verify")
    b.step(0x5A, 1, "the second")
    b.step(0xFF, 9, "the eleventh")
    b.step(0xFE, 1, "25 at its address", ("E", 25))
    b.step(0xFF, 2, "repeated", ("E", 25))
    b.start("an erase")
    b.step(0x00, 514, "20H")
    b.step(0x00, 1, "D0H")
    b.step(0x00, 1, "a poll")
    b.step(0x00, 1, "another")
    b.step(0xA0, 1, "23", ("E", 23))
    b.step(0xA0, 1, "repeated", ("E", 23))
    for status, end in ((0x88, 21), (0xB0, 22)):
        b.start("an erase")
        b.step(0x00, 517, "polls")
        b.step(status, 1, "ready with an error", ("E", end))
    b.start("an erase that ends well with SR.4 set")
    b.step(0x00, 517, "polls")
    b.step(0x90, 1, "40H at the first byte: scratch is ones")
    b.step(0x00, 2, "a poll")
    b.step(0x80, 1, "write FFH")
    b.step(0x00, 1, "the first read of the verify")
    b.step(0x5A, 1, "the second")
    b.step(0xFF, 510, "the last")
    b.use(3, 2, 3, 16384, 512, 511)
    b.step(0xFF, 1, "scratch too short: 11, nothing moves", ("X", 11))
    b.use(3, 2, 3, 16384, 513, 512)
    b.step(0xFF, 1, "wanted too long: 11", ("X", 11))
    b.use(3, 2, 3, 16384, 512, 512)
    b.step(0xFF, 1, "well", ("E", 0))
    b.step(0x00, 2, "repeated", ("E", 0))


def barred(b):  # R-order-4, R-number-3
    b.group("held", "refusals of start and step, and records that a host hands back")
    b.fit(3, 1)
    b.fill("W", 255, 0)
    b.fill("C", 4, 1)
    b.use(9, 0, 0, 0, 512, 512)
    b.start("1")
    b.use(3, 0, 0, 0, 512, 512)
    b.start("no busy times and no array are tested: write 50H")
    for rp, vpp in ((0, 12000), (3, 12000), (1, 6501)):
        b.levels(rp, vpp, 1)
        b.start("4")
        b.step(0xFF, 1, "4 again", ("X", 4))
    b.levels(1, 12000, 4)
    b.start("10")
    b.step(0xFF, 2, "10 again", ("X", 10))
    b.levels(1, 12000, 1)
    b.use(3, 2, 3, 0, 511, 511)
    b.start("11")
    b.use(3, 2, 3, 0, 512, 512)
    b.start("a good start")
    b.handed(512, 0)
    b.step(0xFF, 1, "a place past the block: 3", ("X", 3))
    b.handed(511, 65535)
    b.step(0xFF, 1, "65,535 polls: 3", ("X", 3))
    b.handed(0, 4294967295)
    b.levels(0, 12000, 1)
    b.step(0xFF, 1, "polls again: 3", ("X", 3))
    b.handed(0, 0)
    b.step(0xFF, 1, "RP# low: 4", ("X", 4))
    b.levels(1, 12000, 9)
    b.handed(999999, 0)
    b.step(0xFF, 1, "no such block, and then no place is past it: 10", ("X", 10))
    b.use(10, 2, 3, 0, 512, 512)
    b.handed(999999, 99999)
    b.step(0xFF, 1, "1 before 3", ("X", 1))
    b.use(3, 2, 3, 0, 512, 512)
    b.levels(1, 12000, 1)
    b.handed(0, 0)
    b.step(0xFF, 1, "the record as it was: write FFH")


def over(b):  # R-number-20 to R-number-25, R-load-7
    b.group("over", "more ends by hand, and steps after them; the records of refused starts")
    b.fit(3, 1)
    b.fill("W", 255, 0)
    b.want(0, 0x5A)
    b.want(511, 0xA5)
    b.fill("C", 8, 1)
    b.start("an erase that never is ready")
    b.step(0x00, 517, "the second poll")
    b.step(0x7F, 65533, "the last poll")
    b.step(0x7F, 1, "20", ("E", 20))
    b.step(0x80, 2, "20 again", ("E", 20))
    for status, end in ((0xA8, 21), (0xF8, 21), (0xB0, 22), (0xE0, 23)):
        b.start("an erase")
        b.step(0x00, 516, "a poll")
        b.step(status, 1, "ready with an error", ("E", end))
        b.step(0x80, 2, "repeated", ("E", end))
    b.start("nothing erased, two programs")
    b.step(0xFF, 514, "40H at the first byte")
    b.step(0x00, 2, "a poll")
    b.step(0x80, 1, "40H at the last byte")
    b.step(0x00, 2, "a poll")
    b.step(0x98, 1, "21 at the second program", ("E", 21))
    b.step(0x80, 2, "repeated", ("E", 21))
    b.start("the verify differs at the first byte")
    b.step(0xFF, 514, "40H at the first byte")
    b.step(0x80, 3, "40H at the last byte")
    b.step(0x80, 3, "write FFH")
    b.step(0x00, 1, "the first read of the verify")
    b.step(0x5B, 1, "25 at the first byte", ("E", 25))
    b.step(0x5A, 2, "repeated", ("E", 25))
    b.start("the verify differs at the last byte")
    b.step(0xFF, 514, "40H at the first byte")
    b.step(0x80, 6, "write FFH")
    b.step(0x00, 1, "the first read of the verify")
    b.step(0x5A, 1, "the second")
    b.step(0xFF, 510, "the last")
    b.step(0xFF, 1, "25 at the last byte", ("E", 25))
    b.step(0xA5, 2, "repeated", ("E", 25))
    b.use(9, 2, 3, 0, 512, 512)
    b.start("1")
    b.step(0xFF, 2, "1 again", ("X", 1))
    b.use(3, 2, 3, 0, 512, 512)
    b.handed(0, 0)
    b.step(0xFF, 2, "with a part there is: the end that the start left", ("E", 1))
    b.levels(0, 12000, 1)
    b.start("4")
    b.levels(1, 12000, 1)
    b.handed(0, 0)
    b.step(0xFF, 2, "with RP# high: the same", ("E", 4))
    b.levels(1, 12000, 4)
    b.start("10")
    b.levels(1, 12000, 1)
    b.handed(0, 0)
    b.step(0xFF, 2, "with a block there is: the same", ("E", 10))
    b.use(3, 2, 3, 0, 512, 511)
    b.start("11")
    b.step(0xFF, 2, "11 again", ("X", 11))
    b.use(3, 2, 3, 0, 512, 512)
    b.step(0xFF, 2, "with the block's length: the end that the start left", ("E", 11))


def apart(b):  # R-load-5
    b.group("load", "loads alone: the counts of cards 10 and 11 without the verify, and every other end")
    b.fresh()
    b.fit(3, 1)
    b.fill("A", 255, 0)
    b.fill("W", 255, 0)
    b.fill("C", 17, 2)
    b.want(0, 0x5A)
    b.load("held FFH, wanted 5AH then FFH", (0, 518))
    b.verify("and verified", (0, 513))
    b.load("held as wanted", (0, 514))
    b.fill("A", 0, 0)
    b.fill("W", 255, 0)
    b.load("held 00H, wanted FFH", (0, 519))
    b.verify("and verified", (0, 513))
    b.fill("A", 5, 9)
    b.fill("W", 91, 5)
    b.load("an erase, and nearly every byte programmed")
    b.verify("and verified", (0, 513))
    b.levels(1, 5000, 1)
    b.load("VPP low, nothing to do: well", (0, 514))
    b.want(7, 0x00)
    b.load("VPP low, a program: 21", (21, 517))
    b.verify("what the program left: 25", (25, 9))
    b.fit(3, 0, rp=1)
    b.fill("A", 255, 0)
    b.fill("W", 255, 0)
    b.want(1023, 0x01)
    b.load("locked, a program: 24", (24, 1029))
    b.hold(0x3C00, 0x00)
    b.load("locked, an erase: 23", (23, 1029))
    for number in (1, 2, 4):
        b.fit(number, 0, 1, 1)
        b.fill("A", number, 3)
        b.fill("W", 91, 5)
        b.load("the boot block unlocked")
        b.verify("and verified", (0, block_length(number, 0) + 1))


def verified(b):  # R-load-4, R-load-5, R-number-25
    b.group("veri", "verifies alone: low supply, lock, old error bits, and differences")
    b.fresh()
    b.fit(3, 2, vpp=5000)
    b.fill("A", 5, 9)
    b.fill("W", 5, 9)
    b.fill("C", 17, 2)
    b.verify("another block's bytes: 25 where they differ")
    b.fill("A", 44, 0)
    b.fill("W", 44, 0)
    b.verify("VPP low: well", (0, 513))
    b.put("I", 0xB8, "F")
    b.verify("identifier mode and all error bits: well, and they stay", (0, 513))
    b.put("S", 0x88, "F")
    b.verify("status mode and SR.3: well", (0, 513))
    b.fill("C", 17, 2)
    b.hold(0x3800, 0x45, "the first byte")
    b.verify("25 at the first byte; scratch behind it stays", (25, 2))
    b.hold(0x3800, 0x44)
    b.verify("25 at the first byte again, other bits", (25, 2))
    b.hold(0x3800, 44)
    b.hold(0x39FF, 0x00, "the last byte")
    b.fill("C", 17, 2)
    b.verify("25 at the last byte", (25, 513))
    b.hold(0x3900, 0x00, "the middle")
    b.fill("C", 17, 2)
    b.verify("25 at the middle byte", (25, 258))
    b.hold(0x37FF, 0x00, "the byte before the block, and the one after it")
    b.hold(0x3A00, 0x00)
    b.hold(0x3900, 44)
    b.hold(0x39FF, 44)
    b.verify("other blocks do not matter", (0, 513))
    for number in (1, 2, 3, 4):
        b.fit(number, 0, rp=1, vpp=6500)
        b.fill("A", number, 3)
        b.fill("W", 0, 0)
        b.verify("the boot block locked and VPP low: 25")
    b.fit(2, 3, vpp=0)
    b.fill("A", 255, 0)
    b.fill("W", 255, 0)
    b.verify("the main block", (0, 114689))
    b.want(114687, 0xFE)
    b.verify("its last byte", (25, 114689))
    b.fit(3, 1)
    b.fresh()
    b.fill("C", 17, 2)
    for number, program, erase in ((0, 2, 3), (9, 2, 3), (3, 0, 3), (3, 2, 0)):
        b.use(number, program, erase, 16384, 512, 512)
        b.verify("1", (1, 0))
        b.load("1", (1, 0))
    b.use(3, 2, 3, 16383, 512, 512)
    b.verify("2", (2, 0))
    b.load("2", (2, 0))
    b.fit(3, 1)
    b.put("A", 0x81, "F")
    b.verify("3", (3, 0))
    b.load("3", (3, 0))
    b.fresh()
    for rp, vpp in ((0, 12000), (3, 12000), (1, 6501)):
        b.levels(rp, vpp, 1)
        b.verify("4", (4, 0))
        b.load("4", (4, 0))
    b.levels(1, 12000, 4)
    b.verify("10", (10, 0))
    b.load("10", (10, 0))
    b.levels(1, 12000, 1)
    for wanted, scratch in ((511, 512), (512, 513)):
        b.use(3, 2, 3, 16384, wanted, scratch)
        b.verify("11", (11, 0))
        b.load("11", (11, 0))
    b.fit(3, 1)
    for mode, status, phase, left, address in (("S", 0x80, "C", 0, 0), ("S", 0x00, "E", 3, 16), ("A", 0xC0, "S", 2, 16)):
        b.put(mode, status, phase, left, address)
        b.verify("12", (12, 0))
        b.load("12", (12, 0))


def apart_by_hand(b):  # R-load-7
    b.group("step", "a load alone and a verify alone, stepped by hand")
    b.fresh()
    b.fit(3, 1)
    b.fill("W", 255, 0)
    b.want(0, 0x5A)
    b.want(511, 0xA5)
    b.fill("C", 3, 1)
    b.start("a load alone: write 50H", "O")
    b.step(0xFF, 514, "40H at the first byte")
    b.step(0x00, 1, "its data")
    b.step(0x00, 1, "a poll: scratch has not taken the byte")
    b.step(0x00, 9, "another")
    b.step(0x80, 1, "40H at the last byte: scratch has taken the first")
    b.step(0x80, 2, "a poll")
    b.step(0x80, 1, "well, and scratch is as wanted", ("E", 0))
    b.step(0xFF, 2, "repeated", ("E", 0))
    b.start("a load alone with nothing to do", "O")
    b.step(0x5A, 3, "the second read")
    b.step(0xFF, 510, "the last")
    b.step(0xA5, 1, "well", ("E", 0))
    for status, end in ((0xB8, 21), (0xB0, 22), (0x90, 24)):
        b.start("a load alone", "O")
        b.step(0xFF, 516, "a poll")
        b.step(status, 1, "ready with an error: scratch keeps what was read", ("E", end))
    b.start("a load alone, erased", "O")
    b.step(0x00, 517, "a poll")
    b.step(0x80, 1, "40H at the first byte: scratch is ones")
    b.step(0x80, 6, "well", ("E", 0))
    b.start("a verify alone: write FFH", "V")
    b.step(0x00, 1, "the first read")
    b.step(0x5A, 1, "the second")
    b.step(0xFF, 510, "the last")
    b.step(0xA5, 1, "well", ("E", 0))
    b.step(0x00, 2, "repeated", ("E", 0))
    b.start("a verify alone", "V")
    b.step(0x00, 1, "the first read")
    b.step(0x5B, 1, "25 at the first byte", ("E", 25))
    b.start("a verify alone", "V")
    b.step(0x5A, 2, "the second read")
    b.step(0xFF, 510, "the last")
    b.step(0xA4, 1, "25 at the last byte", ("E", 25))
    b.use(9, 2, 3, 0, 512, 512)
    b.start("1", "V")
    b.start("1", "O")
    b.use(3, 2, 3, 0, 512, 512)
    b.levels(0, 12000, 1)
    b.start("4", "V")
    b.start("4", "O")
    b.levels(1, 12000, 4)
    b.start("10", "V")
    b.start("10", "O")
    b.levels(1, 12000, 1)
    b.use(3, 2, 3, 0, 512, 511)
    b.start("11", "V")
    b.start("11", "O")


# ---------------------------------------------------------------- the cases of devices 5 to 8

NEW = tuple((number, word) for number in (5, 6, 7, 8) for word in (0, 1))
N1 = 8192  # a parameter block's bytes
N0 = 16384  # the boot block's


def named(number, word):
    return f"device {number} in {'words' if word else 'bytes'}"


def units_of(byte_count, word):
    return byte_count // 2 if word else byte_count


def plain(b, number, block, word, **more):
    """A block of ones, and ones wanted."""
    b.fit(number, block, word=word, **more)
    b.fill("A", 255, 0)
    b.fill("W", 255, 0)
    b.fill("C", 17, 2)


def some_bytes(b):
    """Eight bytes that fall: the first, the last, both bytes of a word, two that are neighbours in two words, a low one and a high one."""
    for place, byte in ((0, 0xFE), (8191, 0x7F), (10, 0x0F), (11, 0xF0), (21, 0x55), (22, 0xAA), (4096, 0x00), (5001, 0x01)):
        b.want(place, byte)
    return 7 if b.device.word else 8


def large_runs(b):  # R-load-5, R-part-6
    b.group("wrun", "parameter blocks of devices 5 to 8 in both widths, VPP in both bands: n, p and reads in units")
    b.fresh()
    for number, word in NEW:
        n = units_of(N1, word)
        plain(b, number, 1, word, vpp=5000 if number in (5, 8) else 12000)
        b.run(f"{named(number, word)}: held as wanted", (0, 2 * n + 3))
        p = some_bytes(b)
        b.run("a program for each unit that differs, none for two", (0, 2 * n + 3 + 4 * p))
        b.verify("and verified", (0, n + 1))
        b.load("a load alone, held as wanted", (0, n + 2))
        b.want(0, 0xFF)
        b.want(1, 0xFE)
        b.levels(1, 12000 if number in (5, 8) else 4500, 1)
        b.run("a bit rises: one erase, and all of them again", (0, 2 * n + 3 + 5 + 4 * p))
    b.group("wtwo", "the second parameter block: nearly every unit programmed")
    for number, word, vpp in ((5, 1, 4500), (6, 0, 5500), (7, 1, 11400), (8, 0, 12600)):
        n = units_of(N1, word)
        b.fit(number, 2, 1, 1, vpp=vpp, word=word)
        b.fill("A", 10 * number, 7)
        b.fill("W", 91, 5)
        first = BLOCKS[number][2][0]
        count = formula(b.device, b.array[first : first + N1], b.wanted[:N1], "O")
        b.load(f"{named(number, word)}, VPP {vpp}: an erase, and the programs", (0, count))
        b.verify("and verified", (0, n + 1))
        b.fill("W", 91, 0)
        count = formula(b.device, b.array[first : first + N1], b.wanted[:N1])
        b.run("another pattern", (0, count))


def large_mains(b):  # R-load-5, R-part-4
    b.group("wmai", "main blocks: 98,304 bytes and 131,072")
    for number, block, word, length, op in ((5, 3, 1, 98304, "R"), (8, 3, 0, 98304, "O"), (6, 4, 1, 131072, "O"), (8, 6, 1, 131072, "O")):
        n = units_of(length, word)
        plain(b, number, block, word, vpp=5000)
        b.want(length - 1, 0xFE)
        b.want(0, 0x7F)
        count = n + 2 + 8 + (n + 1 if op == "R" else 0)
        b.run(f"{named(number, word)}, block {block}: first and last byte", (0, count), op)
    plain(b, 7, 6, 0, vpp=0)
    b.hold(131071, 0x00, "the last byte of block 6")
    b.verify("25 at the last of 131,072 bytes, VPP low", (25, 131073, 131071))
    plain(b, 7, 5, 1, vpp=0)
    b.hold(0x3FFFF, 0x00, "the last byte of block 5")
    b.verify("25 at the last of 65,536 words, its high byte", (25, 65537, 0x3FFFF))


def large_boot(b):  # R-lock-1
    b.group("wboo", "the boot block of devices 5 to 8: by RP# at V_HH, by WP# high, locked")
    for number, word in NEW:
        n = units_of(N0, word)
        first = BLOCKS[number][0][0]
        plain(b, number, 0, word, rp=1)
        b.load(f"{named(number, word)}: locked, nothing to do: well", (0, n + 2))
        b.want(N0 - 1, 0x01)
        b.load("locked, a program: 24", (24, n + 5, 0))
        b.verify("nothing was programmed: 25", (25, n + 1, first + N0 - 1))
        b.hold(first, 0x00)
        b.load("locked, an erase: 23", (23, n + 5, 0))
        b.levels(1, 5000, 0, wp=1)
        b.load("WP# high, VPP 5 V: an erase and a program", (0, n + 2 + 5 + 4))
        b.want(0, 0xF0)
        b.levels(2, 12000, 0, wp=0)
        b.load("RP# at V_HH: a program", (0, n + 2 + 4))
        b.want(1, 0x0F)
        b.levels(2, 5000, 0, wp=1)
        b.run("both", (0, 2 * n + 3 + 4))
    plain(b, 6, 0, 1, rp=1)
    b.want(4, 0x00)
    b.levels(1, 1500, 0)
    b.run("locked and VPP low, a program: 21", (21, 8192 + 5, 0))
    b.levels(1, 0, 0, wp=1)
    b.run("WP# high and VPP low: 21", (21, 8192 + 5, 0))
    b.hold(0, 0x00)
    b.levels(2, 1500, 0)
    b.load("RP# at V_HH and VPP low, an erase: 21", (21, 8192 + 5, 0))
    plain(b, 3, 0, 0, rp=1, wp=1)
    b.want(1023, 0x01)
    b.run("device 3: WP# high unlocks nothing: 24", (24, 1029, 0))
    b.levels(2, 12000, 0, wp=255)
    b.run("device 3: WP# is not looked at: well", (0, 2051 + 4))


def large_verifies(b):  # R-number-25
    b.group("w25 ", "25 gives a byte address: at a low byte, at a high byte, at both")
    b.fresh()
    for number, word in NEW:
        first = BLOCKS[number][2][0]
        plain(b, number, 2, word, vpp=0)
        for place in (0, 1, 10, 11, 4095, 4096, 8190, 8191):
            b.hold(first + place, 0xFE)
            b.verify(f"{named(number, word)}: byte {place}", (25, units_of(place, word) + 2, first + place))
            b.hold(first + place, 0xFF)
        b.hold(first + 100, 0xFE, "both bytes of a word, and one behind them")
        b.hold(first + 101, 0x00)
        b.hold(first + 300, 0x00)
        b.fill("C", 17, 2)
        b.verify("the lower one", (25, units_of(100, word) + 2, first + 100))
        b.want(100, 0xFE)
        b.verify("the higher one; wanted is as held in the lower", (25, units_of(101, word) + 2, first + 101))
        b.want(101, 0x00)
        b.want(300, 0x00)
        b.hold(first - 1, 0x00, "the bytes around the block")
        b.hold(first + N1, 0x00)
        b.verify("other blocks do not matter", (0, units_of(N1, word) + 1))


def bars_of(b, number, word):
    """Refusals of a run on one part, in the order of the table."""
    size, count = SIZE[number], len(BLOCKS[number])
    for program, erase, suspend in ((0, 3, 1), (2, 0, 1), (2, 3, 0), (2, 3, 101)):
        b.use(number, program, erase, size, N1, N1, suspend, word)
        b.run(f"1: {named(number, word)}, P {program}, E {erase}, S {suspend}", (1, 0, 0))
    for array in (0, size // 2, size - 2, size - 1, size + 1, 786432 - size):
        b.use(number, 2, 3, array, N1, N1, word=word)
        b.run(f"2: {named(number, word)}, array of {array}", (2, 0, 0))
    b.fit(number, 1, word=word)
    for mode, status, phase, left, address in (("A", 0x81, "F", 0, 0), ("S", 0x00, "E", 2, units_of(size, word)), ("A", 0x80, "F", 0, 1)):
        b.put(mode, status, phase, left, address)
        b.run("3", (3, 0, 0))
    b.fresh()
    for vpp in (1501, 4499, 5501, 6500, 11399, 12601):
        b.levels(1, vpp, 1)
        b.run(f"4: VPP {vpp}", (4, 0, 0))
    for rp, wp in ((0, 0), (3, 1), (1, 2), (2, 255)):
        b.levels(rp, 5000, 1, wp)
        b.run(f"4: RP# {rp}, WP# {wp}", (4, 0, 0))
    for block in (count, count + 1, 255):
        b.levels(1, 5000, block)
        b.run(f"10: block {block}", (10, 0, 0))
    b.levels(1, 5000, 1)
    for wanted, scratch in ((8191, 8192), (8192, 8191), (8193, 8193), (4096, 4096), (8190, 8192), (8192, 8194), (2, 2), (11, 11), (0, 0)):
        b.use(number, 2, 3, size, wanted, scratch, word=word)
        b.run(f"11: wanted {wanted}, scratch {scratch}", (11, 0, 0))
    b.fit(number, 1, word=word)
    last = units_of(size, word) - 1
    for state in (("S", 0x80, "C"), ("S", 0x80, "D"), ("S", 0x00, "P", 1, 16), ("S", 0x00, "E", 3, last), ("A", 0xC0, "S", 2, 16)):
        b.put(*state)
        b.run("12", (12, 0, 0))
    b.fresh()


def large_bars(b):  # R-order-2
    b.group("wbar", "refusals on devices 5 to 8 in both widths; nothing is touched and no cycle counted")
    b.fresh()

    def all_three(note, number):
        for op in "ROV":
            b.run(note, (number, 0, 0), op)

    b.fit(3, 1)
    b.fill("A", 5, 3)
    b.fill("W", 9, 1)
    b.fill("C", 17, 2)
    for number in (0, 1, 2, 3, 4, 9, 255):
        b.use(number, 2, 3, SIZE.get(number, 16384), 512, 512, word=1)
        all_three(f"1: {named(number, 1)}", 1)
    for number, word in NEW:
        bars_of(b, number, word)
    b.fit(5, 1, word=1)
    b.levels(1, 12000, 5, wp=2)
    all_three("4 before 10", 4)
    b.levels(1, 12000, 5)
    b.use(5, 2, 3, 262144, 11, 2, word=1)
    all_three("10 before 11", 10)
    b.put("S", 0x80, "C")
    b.levels(1, 12000, 4)
    all_three("11 before 12", 11)
    b.use(5, 2, 3, 262143, 131072, 131072, word=1)
    all_three("2 before 12: an odd array in word mode", 2)
    b.use(5, 2, 3, 262144, 131072, 131072, word=1)
    all_three("12", 12)


def words_wanted(b):
    """Block 1 of device 5 in word mode: ones are wanted, but for the first word and the high byte of the last."""
    b.fresh()
    b.fit(5, 1, word=1, vpp=5000, wp=1)
    b.fill("W", 255, 0)
    for place, byte in ((0, 0x5A), (1, 0x3C), (8191, 0x00)):
        b.want(place, byte)
    b.fill("C", 3, 1)


def words_by_hand(b):  # R-load-7, R-part-6
    b.group("whan", "the loader stepped by hand in word mode: addresses and places in words")
    words_wanted(b)
    b.start("write 50H", "R")
    b.step(0x0000, 1, "write FFH")
    b.step(0x0000, 1, "the first read")
    b.step(0xFFFF, 4095, "the last read")
    b.step(0xFFFF, 1, "40H at the first word")
    b.step(0x0000, 1, "its data, 16 bits")
    b.step(0x0000, 1, "a poll")
    b.step(0x007F, 3, "another")
    b.step(0x0080, 1, "40H at the last word: scratch has taken the first")
    b.step(0x0080, 2, "a poll")
    b.step(0x0080, 1, "write FFH")
    b.step(0x0000, 1, "the first read of the verify")
    b.step(0x3C5A, 1, "the second")
    b.step(0xFFFF, 4094, "the last")
    b.step(0x00FF, 1, "well", ("E", 0, 0))
    b.step(0xFFFF, 2, "repeated", ("E", 0, 0))
    b.start("an erase", "O")
    b.step(0xFFFF, 4096, "the last but one read")
    b.step(0xFFFF, 1, "the last read")
    b.step(0x00FE, 1, "20H: one bit of a low byte rises")
    b.step(0x0000, 1, "D0H")
    b.step(0x0000, 1, "a poll at the block's first word")
    b.step(0x0080, 1, "40H at the first word: scratch is ones")
    b.step(0x0080, 5, "a poll at the last word")
    b.step(0x0080, 1, "well", ("E", 0, 0))


def word_ends_by_hand(b):  # R-number-20 to R-number-25
    b.group("wend", "ends by hand in word mode: 20 to 25")
    words_wanted(b)
    for value, address, note in ((0x3C5B, 0x3A000, "the low byte"), (0x3D5A, 0x3A001, "the high byte"), (0x0000, 0x3A000, "both")):
        b.start("a verify alone", "V")
        b.step(0x0000, 1, "the first read")
        b.step(value, 1, f"25 at {note}", ("E", 25, address))
        b.step(0xFFFF, 2, "repeated", ("E", 25, address))
    for value, address, note in ((0x00FE, 0x3BFFE, "low"), (0x01FF, 0x3BFFF, "high")):
        b.start("a verify alone", "V")
        b.step(0x3C5A, 2, "the second read")
        b.step(0xFFFF, 4094, "the last")
        b.step(value, 1, f"25 at the last word's {note} byte", ("E", 25, address))
    for status, end in ((0x00B8, 21), (0x00B0, 22), (0x0090, 24)):
        b.start("a load alone", "O")
        b.step(0xFFFF, 4100, "a poll")
        b.step(status, 1, "ready with an error", ("E", end, 0))
    for status, end in ((0x0088, 21), (0x00B0, 22), (0x00A0, 23)):
        b.start("an erase", "O")
        b.step(0x0000, 4100, "a poll")
        b.step(status, 1, "ready with an error", ("E", end, 0))
    b.start("a program that never is ready", "O")
    b.step(0xFFFF, 4100, "a poll")
    b.step(0x007F, 65534, "the last poll")
    b.step(0x007F, 1, "20", ("E", 20, 0))


def handed_back(b, word, last):
    """Refusals of start and step, and records handed back, on device 5; `last` is the last place of block 1."""
    b.fit(5, 1, word=word)
    b.fill("W", 255, 0)
    b.fill("C", 4, 1)
    b.start(f"a good start of {named(5, word)}")
    b.handed(last + 1, 0)
    b.step(0xFFFF, 1, "a place past the block: 3", ("X", 3))
    b.handed(last, 65535)
    b.step(0xFFFF, 1, "65,535 polls: 3", ("X", 3))
    for rp, vpp, wp in ((1, 5000, 2), (1, 6500, 0), (0, 12000, 1)):
        b.levels(rp, vpp, 1, wp)
        b.handed(last, 65534)
        b.step(0xFFFF, 1, "4", ("X", 4))
        b.start("4")
    for block in (5, 255):
        b.levels(1, 5000, block)
        b.handed(999999, 0)
        b.step(0xFFFF, 1, "10", ("X", 10))
        b.start("10")
    b.levels(1, 5000, 1)
    for wanted, scratch in ((N1, N1 - 1), (N1 + 1, N1), (4096, 4096), (2, 11)):
        b.use(5, 2, 3, 0, wanted, scratch, word=word)
        b.start("11")
        b.handed(0, 0)
        b.step(0xFFFF, 1, "11 again", ("X", 11))
    b.use(5, 0, 0, 0, N1, N1, word=word)
    b.start("no busy times and no array are tested: write 50H")
    b.handed(0, 0)
    b.step(0xFFFF, 1, "write FFH")


def hands_back(b):  # R-order-4, R-number-3
    b.group("whel", "refusals of start and step on devices 5 to 8, and records handed back: places in units")
    handed_back(b, 1, 4095)
    handed_back(b, 0, 8191)
    for number in (1, 2, 3, 4):
        b.use(number, 2, 3, 0, 512, 512, word=1)
        b.start(f"1: {named(number, 1)}")
        b.handed(999999, 99999)
        b.step(0xFFFF, 1, "1 before 3", ("X", 1))
    b.fit(6, 1, word=0, vpp=5000)
    b.fill("W", 0x5A, 0)
    b.fill("C", 4, 1)
    b.start("bytes: the high byte of what is read is not looked at", "V")
    b.step(0x0000, 1, "the first read")
    b.step(0xFF5A, 1, "the second")
    b.step(0x015A, 8190, "the last")
    b.step(0x005B, 1, "25 at the last byte", ("E", 25, 0x5FFF))


# ---------------------------------------------------------------- the cases of wear


def wear_runs(b):  # R-wear-1
    b.group("wear", "block 1 of each part: an erase adds one there, up to the stop; every other run keeps all counts")
    for number, word in ALL:
        n = units_of(block_length(number, 1), word)
        first = BLOCKS[number][1][0]
        plain(b, number, 1, word)
        b.worn(near(1, STOP - 1))
        b.put("A", 0x80, "F")
        b.hold(first, 0x00)
        b.run(f"{named(number, word)}: an erase, up to the stop", (0, 2 * n + 3 + 5))
        b.hold(first, 0x00)
        b.load("a load alone: an erase at the stop", (0, n + 2 + 5))
        b.verify("a verify alone", (0, n + 1))
        b.want(0, 0x7F)
        b.run("a program and no erase", (0, 2 * n + 3 + 4))
        b.run("held as wanted", (0, 2 * n + 3))
        b.want(0, 0xFF)
        b.levels(1, 0, 1)
        b.load("VPP low, the erase cannot start: 21", (21, n + 5))
        b.levels(0, 12000, 1)
        b.run("refused 4", (4, 0))
        b.levels(1, 12000, 1)
        b.put("S", 0x80, "C")
        b.run("refused 12", (12, 0))


def wear_blocks(b):  # R-wear-1
    b.group("wblk", "each block erased by a load alone: its own count, and no other; the boot block locked and not")
    b.worn(SOME)
    mains = {(1, 0), (2, 0), (3, 0), (4, 0), (5, 1), (8, 1)}
    for number, word in ALL:
        for block in range(len(BLOCKS[number]) if (number, word) in mains else 3):
            n = units_of(block_length(number, block), word)
            plain(b, number, block, word)
            b.put("A", 0x80, "F")
            b.hold(BLOCKS[number][block][1], 0xFE)
            if block == 0:
                b.levels(1, 12000, 0)
                b.load(f"{named(number, word)}: locked: 23", (23, n + 5))
                b.levels(2, 12000, 0)
            b.load(f"{named(number, word)}, block {block}", (0, n + 2 + 5))
            b.load("held as wanted", (0, n + 2))


OLD_PARTS = (cards, blocks, ways, other_ends, refusals, by_hand, barred, over, apart, verified, apart_by_hand)
NEW_PARTS = (large_runs, large_mains, large_boot, large_verifies, large_bars, words_by_hand, word_ends_by_hand, hands_back)
WEAR_PARTS = (wear_runs, wear_blocks)


def all_cases():
    b = Bench()
    b.worn(SOME)
    for part in OLD_PARTS + NEW_PARTS + WEAR_PARTS:
        part(b)
    return b


if __name__ == "__main__":
    called("vectors_run", all_cases, __doc__)
