#!/usr/bin/env python3
"""The rows of the program `vectors_held`, and the lines that it must print.

    python3 tests/vectors_held.py table        the rows, as in crates/vectors_held/stdin
    python3 tests/vectors_held.py expected     the lines, as in crates/vectors_held/stdout
    python3 tests/vectors_held.py check        whether both files are what the script prints

The interruptions in the first half are written from document 02 (xi), over the loader of vectors_run.py and the device of
vectors_model.py; they share no text with the crates, whose definitions were known. Every good run is held to a count worked out beside
it: the formula of a load and, for each poll that is interrupted, k + 3 + max(1, S - 1) cycles, or k + 3 at the erase's last poll.

A line of a run (R) or of a load alone (O) shows: group and number; the end; the cycles made; the end's address; the status register, mode
and phase that are left; digests of what was lent of the array, of scratch and of the room; the erases begun by block, before and after. A
line of a step shows what the loader gave, as in vectors_run, and digests of scratch and of the room.
"""
from itertools import combinations

from vectors_model import ALL, BLOCKS, SIZE, STOP, Cycle, called, carried, counted, cycle, digest, is_part, put_unit, tally, width
from vectors_run import (
    Bench as Plain, Stepped as PlainStepped, all_units, block_length, fault, formula, loader_number, poll, run_number, verify,
)

# ---------------------------------------------------------------- the loader that interrupts its erase


class Numbered:
    """The number of the erase's poll. It stops at the largest number of 32 bits."""

    def __init__(self):
        self.last = 0

    def next(self):
        """The number that the next poll has, None where it is not a new one."""
        if self.last == STOP:
            return None
        self.last += 1
        return self.last


def interruption(device, first, addresses, room):
    """B0H, 70H, polls until SR.7, FFH, the reads, and D0H if SR.6 was set. Returns the end that it comes to, and whether the erase is over.
    (R-held-1)"""
    yield ("W", first, 0xB0)
    yield ("W", first, 0x70)
    for _ in range(65535):
        status = (yield ("R", first, 0)) & 0xFF
        if status & 0x80:
            break
    else:
        return 20, True
    bad = fault(status, True)
    if bad:
        return bad, True
    yield ("W", first, 0xFF, 0)  # the fourth is the place of the read that comes next
    i = 0
    while i < len(addresses):
        put_unit(device, room, i, carried(device, (yield ("R", addresses[i], 0, i + 1))))
        i += 1
    if status & 0x40:
        yield ("W", first, 0xD0)
        return 0, False
    return 0, True


def erase_polls(device, first, polls, addresses, room, numbered):
    """The erase's polls, each wait of 65,535 at most, with an interruption in the place of each that is listed. (R-held-2)"""
    waited = 0
    while True:
        if numbered.next() in polls:
            bad, over = yield from interruption(device, first, addresses, room)
            if over:
                return bad
            waited = 0
            continue
        status = (yield ("R", first, 0)) & 0xFF
        if status & 0x80:
            return fault(status, True)
        waited += 1
        if waited == 65535:
            return 20


def load(device, first, wanted, scratch, polls, addresses, room, numbered):
    """A load as in document 01, with the erase's polls as above."""
    wants, holds = all_units(device, wanted), []
    n = len(wants)
    yield ("W", first, 0x50)
    yield ("W", first, 0xFF)
    for i in range(n):
        holds.append(carried(device, (yield ("R", first + i, 0))))
        put_unit(device, scratch, i, holds[i])
    if any(w & ~h for w, h in zip(wants, holds)):
        yield ("W", first, 0x20)
        yield ("W", first, 0xD0)
        bad = yield from erase_polls(device, first, polls, addresses, room, numbered)
        if bad:
            return bad, 0
        scratch[:] = b"\xff" * len(scratch)
        holds = [carried(device, 0xFFFF)] * n
    for i in range(n):
        if holds[i] != wants[i]:
            yield ("W", first + i, 0x40)
            yield ("W", first + i, wants[i])
            bad = yield from poll(first + i, False)
            if bad:
                return bad, 0
            put_unit(device, scratch, i, wants[i])
    return 0, 0


def begun(op, device, block, wanted, scratch, polls, addresses, room, numbered):
    """A load, and where it ended well and that is asked, the verify after it."""
    first = BLOCKS[device.number][block][0] // width(device)
    over = yield from load(device, first, wanted, scratch, set(polls), addresses, room, numbered)
    if over[0] or op == "O":
        return over
    return (yield from verify(device, first, wanted, scratch))


def list_number(device, block, addresses, room):
    """The refusals of the lists: each test over the whole list before the next.
    (R-held-3, R-number-5, R-number-37, R-number-45, R-number-46)"""
    w = width(device)
    first, last = BLOCKS[device.number][block]
    if any(a * w >= SIZE[device.number] for a in addresses):
        return 5
    if any(first <= a * w <= last for a in addresses):
        return 45
    if len(addresses) > 4096:
        return 46
    if room < w * len(addresses):
        return 37
    return 0


def step_number(device, block, addresses, place, room):
    """The same in a step: 5 and 45 for the one address that is read next, 46 and 37 by the lengths."""
    bad = list_number(device, block, addresses[place : place + 1], 2)
    if bad:
        return bad
    if len(addresses) > 4096:
        return 46
    if room < width(device) * len(addresses):
        return 37
    return 0


def run(device, state, pins, block, array, wanted, scratch, polls, addresses, room, op):
    """A run or a load alone: the end, the count, the address and the state. Array, scratch and room are changed in place."""
    number = run_number(device, state, pins, block, array, wanted, scratch) or list_number(device, block, addresses, len(room))
    if number:
        return number, 0, 0, state
    work, count, value = begun(op, device, block, wanted, scratch, polls, addresses, room, Numbered()), 0, None
    try:
        while True:
            kind, address, data = work.send(value)[:3]
            (letter, value), state = cycle(device, state, Cycle(kind, pins.rp, 0, pins.vpp, address, data, pins.wp), array, b"")
            assert letter != "X"
            count += 1
    except StopIteration as over:
        return over.value[0], count, over.value[1], state


def extras(device, polls, k):
    """What the interruptions of an erase of E polls add, by the request's own figures. (R-held-2)"""
    met = {n for n in polls if 1 <= n <= device.erase}
    return sum(k + 3 + (0 if n == device.erase else max(1, device.suspend - 1)) for n in met)


class Stepped(PlainStepped):
    """Such a loader stepped by hand; `wrong` where a row has handed back an interruption's record that does not fit."""

    def __init__(self, device, pins, block):
        super().__init__(device, pins, block)
        self.numbered, self.lent, self.wrong = Numbered(), [], False

    def start(self, wanted, scratch, op, polls, addresses, room):
        bad = loader_number(self.device, self.pins, self.block, len(wanted), len(scratch)) if is_part(self.device) else 1
        bad = bad or list_number(self.device, self.block, addresses, len(room))
        if bad:
            self.given = ("E", bad, 0)
            return ("X", bad)
        self.lent = list(addresses)
        self.work = begun(op, self.device, self.block, wanted, scratch, polls, self.lent, room, self.numbered)
        self.given = next(self.work)
        return self.given

    def misfit(self, k):
        """A read of the list is out whose place the list does not have."""
        return self.given[0] == "R" and len(self.given) == 4 and self.given[3] > k

    def step(self, value, wanted, scratch, addresses, room):
        if not is_part(self.device):
            return ("X", 1)
        if self.polls > 65534 or self.past() or self.wrong or self.misfit(len(addresses)):
            return ("X", 3)
        bad = loader_number(self.device, self.pins, self.block, len(wanted), len(scratch))
        place = self.given[3] if len(self.given) == 4 else len(addresses)
        bad = bad or step_number(self.device, self.block, addresses, place, len(room))
        if bad:
            return ("X", bad)
        self.lent[:] = addresses
        if self.given[0] != "E":
            try:
                self.given = self.work.send(value)
            except StopIteration as over:
                self.given = ("E",) + over.value
        return self.given


# ---------------------------------------------------------------- the bench on which the cases are run

# ROWS, beside those of vectors_run. There is no verify alone.
#   J length first step      the room: how many bytes of it are lent, and what they hold
#   Z                        no polls, no addresses
#   T number                 one poll more to interrupt
#   M first step count       so many addresses more
#   H step number place waits kept       an interruption's record as a host may hand it back; step 0 is none, 1 B0H, .. 6 D0H


class Bench(Plain):
    def __init__(self):
        super().__init__()
        self.polls, self.addresses, self.rooms, self.roomy = [], [], bytearray(16384), 0

    def room(self, length, first, step):
        self.roomy = length
        self.rooms[:length] = bytes((first + step * i) % 257 % 256 for i in range(length))
        self.row(f"J {length:06d} {first:03d} {step:03d}")

    def lists(self, polls=(), addresses=()):
        """The lists anew: polls one by one, addresses one by one or as runs (first, step, count)."""
        self.polls, self.addresses = list(polls), []
        self.row("Z")
        for n in polls:
            self.row(f"T {n:010d}")
        for a in addresses:
            first, step, count = a if isinstance(a, tuple) else (a, 0, 1)
            self.addresses += [first + step * i for i in range(count)]
            self.row(f"M {first:08X} {step:05d} {count:05d}")

    def run(self, note, expected=None, op="R"):
        a, w, k = self.lent
        array, scratch, room, had, held = self.array[:a], self.scratch[:k], self.rooms[: self.roomy], self.state.wear, self.held()
        before, contents = bytes(room), bytes(array)
        end, count, address, self.state = run(
            self.device, self.state, self.pins, self.block, array, self.wanted[:w], scratch, self.polls, self.addresses, room, op)
        assert expected is None or (end, count, address)[: len(expected)] == expected, (note, end, count, address)
        if end == 0:
            self.judge_good(note, count, contents, held, before, room, op)
        elif count == 0:
            assert (array, scratch, room) == (contents, self.scratch[:k], before)
        rises = count and any(x & ~y for x, y in zip(self.wanted[:w], held))
        assert self.state.wear == (counted(had, self.block) if rises and end not in (21, 23) else had)
        self.array[:a], self.scratch[:k], self.rooms[: self.roomy] = array, scratch, room
        s, sums = self.state, f"{digest(array):04X} {digest(scratch):04X} {digest(room):04X}"
        self.row(op, note)
        self.say(f"{op} {end:03d} {count:010d} {address:08X} {s.status:02X} {s.mode} {s.phase} {sums} {tally(had)} > {tally(s.wear)}")

    def judge_good(self, note, count, contents, held, before, room, op):
        """A good run: the formula with what the interruptions add; the room as the request says."""
        d, w = self.device, width(self.device)
        rises = any(x & ~y for x, y in zip(self.wanted[: self.lent[1]], held))
        more = extras(d, self.polls, len(self.addresses)) if rises else 0
        assert count == formula(d, held, self.wanted[: self.lent[1]], op) + more, (note, count, more)
        met = rises and any(1 <= n <= d.erase for n in self.polls)
        read = b"".join(contents[w * a : w * a + w] for a in self.addresses)
        assert bytes(room) == (read + before[len(read) :] if met else before), note

    def say_given(self, given):
        if given[0] == "X":
            told = f"X {given[1]:03d}"
        elif given[0] == "E":
            told = f"E {given[1]:03d} {given[2]:08X}"
        else:
            pins = self.stepped.pins
            told = f"{given[0]} {pins.rp:03d} {pins.wp:03d} {pins.vpp:010d} {given[1]:08X} {given[2]:04X}"
        self.say(f"{told} {digest(self.scratch[: self.lent[2]]):04X} {digest(self.rooms[: self.roomy]):04X}")

    def start(self, note, op="R", expected=None):
        self.stepped = Stepped(self.device, self.pins, self.block)
        w, k = self.lent[1:]
        self.hand, self.handroom = self.scratch[:k], self.rooms[: self.roomy]
        given = self.stepped.start(bytes(self.wanted[:w]), self.hand, op, self.polls, self.addresses, self.handroom)
        assert expected is None or given[: len(expected)] == expected, (note, given)
        self.row({"R": "Q", "O": "P"}[op], note)
        self.say_given(given)

    def step(self, value, times, note, expected=None):
        w, k = self.lent[1:]
        fits = k == len(self.hand) and self.roomy == len(self.handroom)
        scratch, room = (self.hand, self.handroom) if fits else (self.scratch[:k], self.rooms[: self.roomy])
        for _ in range(times):
            given = self.stepped.step(value, bytes(self.wanted[:w]), scratch, self.addresses, room)
        assert expected is None or given[: len(expected)] == expected, (note, given)
        if fits:
            self.scratch[:k], self.rooms[: self.roomy] = self.hand, self.handroom
        self.row(f"N {value:04X} {times:05d}", note)
        self.say_given(given)

    def hold(self, step, number, place, waits, kept, wrong, note=""):
        """An interruption's record handed back; `wrong` where it does not fit."""
        self.stepped.wrong = wrong
        self.row(f"H {step} {number:010d} {place:05d} {waits:05d} {kept}", note)

    def byte(self, address, value, note=""):
        super().hold(address, value, note)


# ---------------------------------------------------------------- the cases


def bench_for(b, number, block, word=0, erase=3, suspend=1, k=2, program=2):
    """A block that holds 00H in its first unit and FFH else; wanted are ones but for two units; k addresses in other blocks."""
    n, w = block_length(number, block), 2 if word else 1
    b.use(number, program, erase, SIZE[number], n, n, suspend, word)
    b.levels(2 if block == 0 else 1, 12000, block)
    b.fill("W", 255, 0)
    b.want(3 * w, 0x5A)
    b.want(n - 1, 0x0F)
    b.byte(BLOCKS[number][block][0], 0x00)
    b.room(w * k + 3, 17, 5)


def others(number, block, word=0):
    """Two unit addresses in other blocks: the first of the part, or behind it, and the last."""
    w = 2 if word else 1
    first, last = BLOCKS[number][block]
    low = last + 1 if first == 0 else 0
    high = first - 1 if last == SIZE[number] - 1 else SIZE[number] - 1
    return [low // w, high // w]


def subsets(b):  # R-held-1, R-held-2
    b.group("subs", "every set of polls for E 1 to 4, S 1, 2, 3, 7 and k 0, 2: block 1 of device 3")
    b.fresh()
    b.fit(3, 1)
    b.fill("A", 40, 3)
    for suspend in (1, 2, 3, 7):
        for k in (0, 2):
            for erase in (1, 2, 3, 4):
                bench_for(b, 3, 1, erase=erase, suspend=suspend, k=k)
                b.fill("C", erase, suspend)
                for size in range(erase + 1):
                    for polls in combinations(range(1, erase + 1), size):
                        b.lists(polls, others(3, 1) if k else ())
                        b.byte(BLOCKS[3][1][0], 0x00)
                        op = "O" if (sum(polls) + suspend) % 2 else "R"
                        b.run(f"S {suspend}, k {k}, E {erase}: polls {', '.join(map(str, polls)) or 'none'}", (0,), op)


def same_lists(b):  # R-held-1
    b.group("same", "unsorted, doubled, 0 and polls that never come change nothing")
    bench_for(b, 3, 2, erase=3, suspend=3)
    there = BLOCKS[3][2][0]
    for polls in ((2,), (2, 2), (2, 2, 2, 0), (0, 2), (7, 2), (STOP, 2, 0, 4), (4, 5, 2, 2)):
        b.lists(polls, others(3, 2))
        b.byte(there, 0x00)
        b.run(f"poll 2 alone is met: {polls}", (0, 1027 + 5 + 8 + 2 + 3 + 2))
    for polls in ((3, 1), (1, 3), (3, 3, 1), (3, 1, 4, 0)):
        b.lists(polls, others(3, 2))
        b.byte(there, 0x00)
        b.run(f"polls 1 and 3 are met: {polls}", (0, 1027 + 5 + 8 + 2 * 5 + 2))
    for polls in ((), (0,), (4,), (STOP,), (4, 0, 5)):
        b.lists(polls, others(3, 2))
        b.byte(there, 0x00)
        b.run(f"none is met: {polls}", (0, 1027 + 5 + 8))


def no_erase(b):
    b.group("noer", "no bit rises: no erase, no interruption, the room as it was")
    bench_for(b, 4, 1)
    b.fill("A", 255, 0)
    b.lists((1, 2, 3), others(4, 1))
    b.run("two programs", (0, 1027 + 8))
    b.run("held as wanted", (0, 1027))
    b.run("a load alone", (0, 514), "O")


def last_poll(b):  # R-held-1
    b.group("last", "in the last poll's place the erase is found finished, and the device is left in read array")
    for suspend in (1, 2, 100):
        bench_for(b, 3, 1, erase=2, suspend=suspend)
        b.want(3, 0xFF, "ones alone are wanted")
        b.want(511, 0xFF)
        for polls in ((), (1,), (2,), (1, 2)):
            b.lists(polls, others(3, 1))
            b.byte(BLOCKS[3][1][0], 0x00)
            b.run(f"S {suspend}: polls {polls}", (0,), "O")
            assert b.state.mode == ("A" if 2 in polls else "S")


def long_ones(b):  # R-held-2, R-number-46
    b.group("long", "an erase of 65,535 polls, and 4,096 reads at once")
    bench_for(b, 4, 2, erase=65535, suspend=100, k=2)
    b.lists((60000, 65534), others(4, 2))
    b.run("two interruptions, 99 polls each of their own", (0, 1027 + 65537 + 8 + 2 * (2 + 3 + 99)))
    b.lists((65535,), others(4, 2))
    b.byte(BLOCKS[4][2][0], 0x00)
    b.run("the last poll", (0, 1027 + 65537 + 8 + 2 + 3))
    bench_for(b, 4, 2, erase=3, suspend=2, k=4096)
    b.lists((1, 3), [(0x0800, 2, 4096)])
    b.run("4,096 addresses, and twice", (0, 1027 + 5 + 8 + (4096 + 3 + 1) + 4096 + 3))
    b.lists((2,), [(0x3FFF, 0, 4096)])
    b.byte(BLOCKS[4][2][0], 0x00)
    b.run("4,096 times the same one", (0,))


def other_ends(b):
    b.group("ends", "an erase that cannot start: an interruption in its first poll's place finds the error")
    for polls, more in (((), 0), ((2,), 0), ((1,), 2), ((1, 2), 2)):
        bench_for(b, 3, 2, erase=3, suspend=7)
        b.levels(1, 0, 2)
        b.lists(polls, others(3, 2))
        b.run(f"VPP low: 21, polls {polls}", (21, 512 + 5 + more, 0))
        bench_for(b, 3, 0, erase=3, suspend=7)
        b.levels(1, 12000, 0)
        b.lists(polls, others(3, 0))
        b.run(f"boot block locked: 23, polls {polls}", (23, 1024 + 5 + more, 0), "O")


def each_part(b):
    b.group("part", "the blocks of every part in both widths: polls 1 and 3 of 3")
    for number, word in ALL:
        for block in (0, 1, 2):
            bench_for(b, number, block, word, erase=3, suspend=2, program=1)
            b.lists((3, 1), others(number, block, word))
            b.run(f"device {number}, {'words' if word else 'bytes'}, block {block}", (0,), "O")


def order(b):  # R-held-3, R-number-45, R-number-46
    b.group("bars", "refusals of the lists after those of a run, each over the whole list before the next; nothing touched")
    bench_for(b, 3, 1, k=2)
    b.fill("C", 9, 9)
    size, first = SIZE[3], BLOCKS[3][1][0]

    def barred(polls, addresses, number, note):
        b.lists(polls, addresses)
        for op in "RO":
            b.run(note, (number, 0, 0), op)

    barred((), [0, size], 5, "5 without any poll")
    barred((1,), [first, size], 5, "5 before 45, though it stands behind")
    barred((1,), [STOP], 5, "5 at the largest number")
    barred((1,), [first], 45, "the block's first byte")
    barred((1,), [0, first + 511], 45, "the block's last byte")
    barred((), [(0, 1, 4097)], 46, "46 at 4,097, without any poll")
    barred((), [(0, 0, 4096), first], 45, "45 before 46")
    barred((), [(0, 0, 4096)], 37, "4,096 addresses, but room for 5")
    b.lists((1,), [0, 1, 2, 3, 4, 5])
    b.run("37: room for 5", (37, 0, 0))
    b.lists((1,), [0, 1, 2, 3, 4])
    b.run("room for 5: well", (0,))
    b.byte(first, 0x00)
    b.lists((1,), [first - 1, first + 512])
    b.run("the bytes around the block: well", (0,))
    b.byte(first, 0x00)
    b.room(0, 0, 0)
    b.lists((1, 2), ())
    b.run("no addresses and no room: well", (0,))
    barred((1,), [0], 37, "no room")
    b.lists((1,), [size])
    b.levels(1, 9000, 1)
    b.run("4 before 5", (4, 0, 0))
    b.levels(1, 12000, 7)
    b.run("10 before 5", (10, 0, 0))
    b.levels(1, 12000, 1)
    b.use(3, 2, 3, size, 511, 512)
    b.run("11 before 5", (11, 0, 0))
    b.use(3, 2, 3, size, 512, 512)
    b.put("S", 0x80, "C")
    b.run("12 before 5", (12, 0, 0))
    b.fresh()
    b.use(3, 2, 3, size - 1, 512, 512)
    b.run("2 before 5", (2, 0, 0))
    b.use(9, 2, 3, size, 512, 512)
    b.run("1 before 5", (1, 0, 0))


def words(b):
    b.group("word", "word mode: word addresses, two bytes of room for each, an odd byte stays")
    first = BLOCKS[5][1][0] // 2
    bench_for(b, 5, 1, 1, erase=2, suspend=2, k=2)
    b.fill("A", 60, 7)
    b.lists((1,), [0x1FFFF + 1])
    b.run("5: the first word past the array", (5, 0, 0))
    b.lists((1,), [first + 4095])
    b.run("45: the block's last word", (45, 0, 0))
    b.lists((1,), [first + 4096, first - 1, 0])
    b.run("the words around the block, and the first: 7 bytes hold three", (0,), "O")
    b.lists((1,), [0, 1, 2, 3])
    b.run("37: and not four", (37, 0, 0))
    b.byte(BLOCKS[5][1][0], 0x00)
    b.room(2, 3, 1)
    b.lists((2,), [0])
    b.run("two bytes hold one", (0,), "O")
    b.room(1, 3, 1)
    b.run("37: one byte", (37, 0, 0))


def by_hand(b):  # R-held-1
    b.group("hand", "stepped by hand: the cycles of an interruption, one by one")
    b.fresh()
    bench_for(b, 3, 1, erase=3, suspend=2)
    b.fill("C", 3, 1)
    b.lists((2,), [0x0010, 0x3FFF])
    b.start("50H", "R", ("W", 0x3A00, 0x50))
    b.step(0, 2, "the first read", ("R", 0x3A00, 0))
    b.step(0x00, 512, "20H", ("W", 0x3A00, 0x20))
    b.step(0, 1, "D0H", ("W", 0x3A00, 0xD0))
    b.step(0, 1, "poll 1", ("R", 0x3A00, 0))
    b.step(0x00, 1, "B0H in poll 2's place", ("W", 0x3A00, 0xB0))
    b.step(0, 1, "70H", ("W", 0x3A00, 0x70))
    b.step(0, 1, "a poll of its own wait", ("R", 0x3A00, 0))
    b.step(0x00, 3, "another", ("R", 0x3A00, 0))
    b.step(0xC0, 1, "FFH", ("W", 0x3A00, 0xFF))
    b.step(0, 1, "the first read of the list", ("R", 0x0010, 0))
    b.step(0x77, 1, "the second", ("R", 0x3FFF, 0))
    b.step(0x55, 1, "D0H: SR.6 was set", ("W", 0x3A00, 0xD0))
    b.step(0, 1, "poll 3", ("R", 0x3A00, 0))
    b.step(0x00, 2, "poll 5", ("R", 0x3A00, 0))
    b.step(0x80, 1, "the first program: 40H", ("W", 0x3A03, 0x40))
    b.lists((1, 2), [0x0010])
    b.start("50H again, a load alone", "O")
    b.step(0x00, 515, "D0H", ("W", 0x3A00, 0xD0))
    b.step(0, 1, "B0H in poll 1's place", ("W", 0x3A00, 0xB0))
    b.step(0, 2, "a poll of its own wait", ("R", 0x3A00, 0))
    b.step(0xC0, 2, "the read", ("R", 0x0010, 0))
    b.step(0x44, 1, "D0H", ("W", 0x3A00, 0xD0))
    b.step(0, 1, "B0H again in poll 2's place", ("W", 0x3A00, 0xB0))
    b.step(0, 2, "a poll of its own wait", ("R", 0x3A00, 0))
    b.step(0x80, 1, "FFH: the erase is finished", ("W", 0x3A00, 0xFF))
    b.step(0, 1, "the read all the same", ("R", 0x0010, 0))
    b.step(0x33, 1, "no D0H: the first program", ("W", 0x3A03, 0x40))
    b.lists((1,), ())
    b.start("no addresses", "O")
    b.step(0x00, 518, "a poll of its own wait", ("R", 0x3A00, 0))
    b.step(0xC0, 1, "FFH", ("W", 0x3A00, 0xFF))
    b.step(0, 1, "D0H at once", ("W", 0x3A00, 0xD0))


def waits(b):  # R-held-2, R-number-20
    b.group("wait", "20 counts each wait afresh; the ready byte of the suspend's wait is judged at once")
    for status, end in ((0xA8, 21), (0xB0, 22), (0xA0, 23), (0xE0, 23), (0xF8, 21)):
        b.lists((1,), [0x0010])
        b.start("50H", "O")
        b.step(0x00, 518, "a poll of its own wait", ("R", 0x3A00, 0))
        b.step(status, 1, f"{end} at once", ("E", end, 0))
        b.step(0xFF, 2, "repeated", ("E", end, 0))
    b.lists((1,), [0x0010])
    b.start("50H", "O")
    b.step(0x00, 518, "a poll of its own wait")
    b.step(0x90, 1, "a program's error is none of the erase's: FFH", ("W", 0x3A00, 0xFF))
    b.lists((3, 65535), [0x0010])
    b.start("50H", "O")
    b.step(0x00, 516, "poll 1", ("R", 0x3A00, 0))
    b.step(0x00, 2, "B0H in poll 3's place", ("W", 0x3A00, 0xB0))
    b.step(0x00, 2, "the first poll of its own wait", ("R", 0x3A00, 0))
    b.step(0x7F, 65534, "the 65,535th", ("R", 0x3A00, 0))
    b.step(0xC0, 1, "FFH: in time", ("W", 0x3A00, 0xFF))
    b.step(0x00, 2, "D0H", ("W", 0x3A00, 0xD0))
    b.step(0x00, 1, "poll 4, the first of a new wait", ("R", 0x3A00, 0))
    b.step(0x00, 65531, "B0H in poll 65,535's place", ("W", 0x3A00, 0xB0))
    b.step(0x00, 2, "a poll of its own wait", ("R", 0x3A00, 0))
    b.step(0xC0, 2, "the read", ("R", 0x0010, 0))
    b.step(0x00, 2, "poll 65,536", ("R", 0x3A00, 0))
    b.step(0x00, 65534, "the 65,535th of the new wait", ("R", 0x3A00, 0))
    b.step(0x00, 1, "20", ("E", 20, 0))
    b.start("50H", "O")
    b.step(0x00, 520, "the first poll of the suspend's own wait", ("R", 0x3A00, 0))
    b.step(0x00, 65534, "the 65,535th", ("R", 0x3A00, 0))
    b.step(0x00, 1, "20", ("E", 20, 0))


def numbers(b):
    b.group("numb", "the number of a poll stops at 4,294,967,295, and is met there once")
    b.lists((STOP,), ())
    b.start("50H", "O")
    b.step(0x00, 516, "poll 1")
    b.stepped.numbered.last = STOP - 1
    b.hold(0, STOP - 1, 0, 0, 0, False, "as poll 4,294,967,294")
    b.step(0x00, 1, "B0H in the last number's place", ("W", 0x3A00, 0xB0))
    b.step(0x00, 2, "a poll of its own wait")
    b.step(0xC0, 2, "D0H", ("W", 0x3A00, 0xD0))
    b.step(0x00, 3, "polls, and no B0H again", ("R", 0x3A00, 0))
    b.step(0x80, 1, "the first program", ("W", 0x3A03, 0x40))


def handed_back(b):
    b.group("back", "records handed back, and other lists than at the start")
    b.lists((1,), [0x0010, 0x0020, 0x0030])
    b.room(3, 1, 1)
    b.start("50H", "O")
    for step in range(1, 7):
        b.hold(step, 1, 0, 0, 0, True, "an interruption while no poll of the erase is out")
        b.step(0xFF, 1, "3", ("X", 3))
    b.hold(0, 0, 0, 0, 0, False, "as it was")
    b.step(0x00, 518, "a poll of its own wait", ("R", 0x3A00, 0))
    b.hold(3, 1, 0, 65535, 0, True)
    b.step(0xFF, 1, "3: 65,535 polls of its own wait", ("X", 3))
    b.hold(3, 1, 0, 0, 0, False, "as it was")
    b.step(0xC0, 1, "FFH")
    b.lists((1,), [0x4000, 0x0020])
    b.step(0x00, 1, "5: the address that is read next", ("X", 5))
    b.lists((1,), [0x3A00, 0x4000])
    b.step(0x00, 1, "45: and no other is looked at", ("X", 45))
    b.lists((1,), [0x0010, 0x4000, 0x3A00])
    b.step(0x00, 1, "the read", ("R", 0x0010, 0))
    b.step(0xAA, 1, "5: the second", ("X", 5))
    b.lists((1,), [0x4000, 0x3BFF])
    b.step(0xAA, 1, "45: the second", ("X", 45))
    b.lists((1,), [0x4000, 0x0021])
    b.step(0xAA, 1, "the read of the second", ("R", 0x0021, 0))
    b.lists((1,), [0x0010])
    b.step(0xBB, 1, "3: the list has no second", ("X", 3))
    b.lists((1,), [(0, 0, 4)])
    b.step(0xBB, 1, "37: room for three", ("X", 37))
    b.lists((1,), [(0, 0, 4097)])
    b.step(0xBB, 1, "46 before 37", ("X", 46))
    b.lists((1,), [(0x4000, 0, 4097)])
    b.step(0xBB, 1, "5 before 46", ("X", 5))
    b.levels(1, 9000, 1)
    b.handed(0, 0)
    b.step(0xBB, 1, "4 before 5", ("X", 4))
    b.levels(1, 12000, 1)
    b.handed(0, 65535)
    b.step(0xBB, 1, "3 before 5", ("X", 3))
    b.handed(0, 0)
    b.lists((1,), [0x4000, 0x4000])
    b.step(0xBB, 1, "the last of two is in: D0H", ("W", 0x3A00, 0xD0))
    b.lists((), [0x4000])
    b.start("5", "R", ("X", 5))
    b.lists((), [0x3A00])
    b.start("45", "O", ("X", 45))
    b.lists((), [(0, 1, 4097)])
    b.start("46", "R", ("X", 46))
    b.lists((), [0, 0, 0, 0])
    b.start("37", "R", ("X", 37))
    b.step(0xFF, 1, "a refused start has ended: but its lists are judged", ("X", 37))
    b.lists((), [0])
    b.step(0xFF, 1, "37, its end", ("E", 37, 0))
    b.levels(1, 12000, 4)
    b.lists((), [0x4000])
    b.start("10 before 5", "R", ("X", 10))


PARTS = (
    subsets, same_lists, no_erase, last_poll, long_ones, other_ends, each_part, order, words, by_hand, waits, numbers, handed_back,
)


def all_cases():
    b = Bench()
    b.worn((1, 2, 3, 4, 5, 6, 7))
    for part in PARTS:
        part(b)
    return b


if __name__ == "__main__":
    called("vectors_held", all_cases, __doc__)
