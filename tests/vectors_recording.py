#!/usr/bin/env python3
"""The cases of the program `vectors_recording`, and the lines that it must print.

    python3 tests/vectors_recording.py table        the cases, as in crates/vectors_recording/stdin
    python3 tests/vectors_recording.py expected     the lines, as in crates/vectors_recording/stdout
    python3 tests/vectors_recording.py check        whether both files are what the script prints

The check of a recording is written here from document 02 (xiii), over the model of vectors_model.py, which shares nothing with the
crates. A line shows: group and number; the verdict (X and a refusal, A and the records of a recording that is accepted, F and the first
record at fault, or the list's length if only the end is); the state that the records before it leave, as in vectors_model; a digest of
the array as it is left; the erases begun, for each of seven blocks.

ROWS. Where a row is not named here, it is one of vectors_model.
  G name                            the group's four letters
  D number word program erase suspend array 000000     the device, and how many bytes of array are lent
  A first step                      fill the array
  E and seven counts                erases begun by block, for the states of the rows S that follow
  S status mode phase left address  the state at the start
  F                                 a fresh device at the start
  C length                          the promised array: so many bytes, those of the array as it is now and FFH behind it
  Q address length value            .. and so many bytes of it from an address on are this value
  R rp oe wp vpp address data heard busy     a record more; R, W or I
  K                                 the check of these records, a line, and the list is empty again
"""
import random

from vectors_model import (
    ALL, BLOCKS, FRESH, IN_FLIGHT, SIZE, SOME, Cycle, Device, State, block_bytes, called, cycle, digest, is_device, low, pattern, proper,
    shown, tally, width,
)

LONGEST = 65535


# ---------------------------------------------------------------- the check of a recording

def start_number(device, state, array):
    """Refusals before the list: 1 to 3, then 12. (R-recording-3)"""
    if not is_device(device):
        return 1
    if len(array) != SIZE[device.number]:
        return 2
    if not proper(device, state):
        return 3
    return 0 if state.phase == "F" else 12


def record_fault(device, state, array, record):
    """None where a record is at fault, else the state and the array that it leaves.

    P and E are used for nothing here: a device with the longest times makes the cycle, and a start goes on with its own count.
    (R-recording-2, R-recording-1)"""
    c, heard, busy = record
    if state.phase in IN_FLIGHT and (c.rp == 0 or low(device, c.vpp)):
        return None
    part = bytearray(array)
    answer, after = cycle(device._replace(program=LONGEST, erase=LONGEST), state, c, part, b"")
    if answer[0] == "X" or answer != heard:
        return None
    if state.phase in "CD" and after.phase in "PE":
        if not 1 <= busy <= LONGEST:
            return None
        after = after._replace(left=busy)
    return after, part


def check(device, state, array, records, promised):
    """The verdict, the state and the array left. (R-recording-2)"""
    number = start_number(device, state, array)
    if number:
        return ("X", number), state, array
    for i, record in enumerate(records):
        left = record_fault(device, state, array, record)
        if left is None:
            return ("F", i), state, array
        state, array = left
    good = state.phase == "F" and bytes(array) == bytes(promised)
    return ("A" if good else "F", len(records)), state, array


# ---------------------------------------------------------------- the bench on which the cases are run

class Bench:
    """Keeps the rows of the table and the expected lines."""

    def __init__(self):
        self.device, self.state, self.wear = Device(0, 0, 0), FRESH, (0,) * 7
        self.array, self.promised, self.records = bytearray(), bytearray(), []
        self.name, self.number, self.rows, self.lines = "    ", 0, [], []

    def row(self, text, note=""):
        self.rows.append(f"{text:58}{note}".rstrip())

    def group(self, name, note):
        self.name = name
        self.row(f"G {name}", note)

    def use(self, number, program, erase, suspend=1, word=0, array=None):
        self.device = Device(number, program, erase, suspend, word)
        n = SIZE.get(number, 16384) if array is None else array
        self.array = bytearray(n)
        self.row(f"D {number:03d} {word} {program:05d} {erase:05d} {suspend:03d} {n:06d} 000000")

    def fill(self, first, step):
        self.array[:] = pattern(first, step, len(self.array))
        self.row(f"A {first:03d} {step:03d}")

    def worn(self, wear):
        self.wear = tuple(wear)
        self.row("E " + " ".join(f"{n:010d}" for n in wear))

    def put(self, mode, status, phase, left=0, address=0, data=0):
        self.state = State(mode, status, phase, data, left, address, self.wear)
        self.row(f"S {shown(self.state)}")

    def fresh(self):
        self.state = FRESH
        self.row("F")

    def promise(self, wanted):
        """The promised array, told by what of it is another than the array."""
        n, base = len(wanted), bytes(self.array[: len(wanted)]).ljust(len(wanted), b"\xff")
        self.promised = bytearray(wanted)
        self.row(f"C {n:06d}")
        at = 0
        while at < n:
            if base[at] == wanted[at]:
                at += 1
                continue
            past = at
            while past < n and wanted[past] == wanted[at]:
                past += 1
            self.row(f"Q {at:08X} {past - at:06d} {wanted[at]:02X}")
            at = past

    def note(self, record, note=""):
        """A record more."""
        c, (kind, value), busy = record
        heard = f"D {value:04X}" if kind == "D" else "N ----"
        self.records.append(record)
        self.row(f"{c.kind} {c.rp:03d} {c.oe:03d} {c.wp:03d} {c.vpp:010d} {c.address:08X} {c.data:04X} {heard} {busy:010d}", note)

    def judge(self, note=""):
        """The check of the records, on the array, which the next case finds as this one leaves it."""
        (kind, value), state, array = check(self.device, self.state, self.array, self.records, self.promised)
        self.array, self.records = bytearray(array), []
        self.number += 1
        self.row("K", note)
        self.lines.append(f"{self.name} {self.number:04d} {kind} {value:05d} {shown(state)} {digest(self.array):04X} {tally(state.wear)}")


# ---------------------------------------------------------------- recordings to begin with

def recorded(device, state, array, cycles, counts=()):
    """What the model records of cycles: each with its answer, and at a start the busy count that it took. Counts stand in for P and E,
    start by start; where they end, the device's own are used. (R-recording-3)"""
    counts, records, array = list(counts), [], bytearray(array)
    for c in cycles:
        busy = 0
        answer, after = cycle(device._replace(program=LONGEST, erase=LONGEST), state, c, array, b"")
        if state.phase in "CD" and after.phase in "PE":
            busy = counts.pop(0) if counts else device.program if after.phase == "P" else device.erase
            after = after._replace(left=busy)
        records.append((c, answer, busy))
        state = after
    return records, state, array


def pins(device, open_boot=False, vpp=12000):
    """Levels: RP# at V_HH opens the boot block of any device."""
    return {"rp": 2 if open_boot else 1, "oe": 0, "wp": 0, "vpp": vpp}


def write(address, data, levels):
    return Cycle("W", levels["rp"], levels["oe"], levels["vpp"], address, data, levels["wp"])


def read(address, levels):
    return Cycle("R", levels["rp"], levels["oe"], levels["vpp"], address, 0, levels["wp"])


def idle(levels):
    return Cycle("I", levels["rp"], levels["oe"], levels["vpp"], 0, 0, levels["wp"])


def first_unit(device, block):
    return BLOCKS[device.number][block][0] // width(device)


def last_unit(device, block):
    return (BLOCKS[device.number][block][1] + 1) // width(device) - 1


def a_load(device, block, program, erase, levels):
    """An erase of a block, two units programmed, polls until each is over, and the array read."""
    at, past = first_unit(device, block), last_unit(device, block)
    cycles = [write(0, 0x50, levels), write(at, 0x20, levels), write(past, 0xD0, levels)]
    cycles += [read(at, levels)] * erase
    for unit, value in ((at, 0x5A3C), (past, 0x00F1)):
        cycles += [write(unit, 0x40, levels), write(unit, value, levels)] + [read(unit, levels)] * program
    return cycles + [write(0, 0xFF, levels), read(at, levels), read(past, levels)]


def a_suspend(device, block, other, erase, suspend, levels):
    """An erase that is suspended after one poll, a read from another block, and the resume."""
    at, there = first_unit(device, block), first_unit(device, other)
    cycles = [write(at, 0x20, levels), write(at, 0xD0, levels), read(at, levels), write(at, 0xB0, levels)]
    cycles += [read(at, levels)] * suspend + [write(at, 0xFF, levels), read(there, levels), write(at, 0xD0, levels)]
    return cycles + [read(at, levels)] * (erase - 2) + [write(at, 0xFF, levels), read(at, levels)]


def begin(b, number, word=0, program=2, erase=3, suspend=1):
    b.use(number, program, erase, suspend, word)
    b.fill(200, 3)
    b.fresh()


def put_all(b, records, notes=()):
    for i, record in enumerate(records):
        b.note(record, notes[i] if i < len(notes) else "")


# ---------------------------------------------------------------- the cases

def named(number, word):
    return f"device {number}" + (" in words" if word else "")


def accepted(b):  # R-recording-3
    b.group("good", "what the model records is accepted")
    for number, word in ALL:
        for block in (0, 1, len(BLOCKS[number]) - 1):
            begin(b, number, word)
            d, levels = b.device, pins(b.device, open_boot=block == 0)
            records, _, left = recorded(d, FRESH, b.array, a_load(d, block, 2, 3, levels))
            b.promise(left)
            put_all(b, records)
            b.judge(f"{named(number, word)}, block {block}")
    for program, erase in ((1, 1), (1, 40), (40, 1), (7, 9)):
        begin(b, 3)
        d, levels = b.device, pins(b.device)
        records, _, left = recorded(d, FRESH, b.array, a_load(d, 1, program, erase, levels), (erase, program, program))
        b.promise(left)
        put_all(b, records)
        b.judge(f"counts {program} and {erase}, not the device's")
    for suspend in (1, 2, 3):
        begin(b, 4, suspend=suspend)
        d, levels = b.device, pins(b.device)
        records, _, left = recorded(d, FRESH, b.array, a_suspend(d, 1, 3, 5, suspend, levels), (5,))
        b.promise(left)
        put_all(b, records)
        b.judge(f"suspended, S {suspend}: its time is not in the count")
    begin(b, 3)
    b.promise(b.array)
    b.judge("no records")
    b.worn(SOME)
    begin(b, 3)
    b.put("S", 0xB8, "F")
    d, levels = b.device, pins(b.device)
    records, _, left = recorded(d, b.state, b.array, a_load(d, 2, 2, 3, levels))
    b.promise(left)
    put_all(b, records)
    b.judge("from status B8H, with counts of erases")


def base(b, number=3, word=0):
    """A recording to spoil: the records, and the array that it leaves."""
    begin(b, number, word)
    d, levels = b.device, pins(b.device)
    records, _, left = recorded(d, FRESH, b.array, a_load(d, 1, 2, 3, levels))
    return records, left


def spoiled(b, number, word, i, record, note):
    records, left = base(b, number, word)
    b.promise(left)
    for j, known in enumerate(records):
        b.note(record if i == j else known, note if i == j else "")
    b.judge()


def places(b):  # R-recording-2
    b.group("seen", "another answer, at every record")
    for number, word in ((3, 0), (5, 1)):
        for i, (c, (kind, value), busy) in enumerate(base(b, number, word)[0]):
            if kind == "D":
                spoiled(b, number, word, i, (c, ("D", value ^ 1), busy), "one bit")
                spoiled(b, number, word, i, (c, ("D", value ^ 0x8000) if word else ("N", 0), busy), "the highest bit, or none")
            else:
                spoiled(b, number, word, i, (c, ("D", 0), busy), "data")
    b.group("refu", "a cycle that is refused, at every record")
    for i, (c, heard, busy) in enumerate(base(b)[0]):
        spoiled(b, 3, 0, i, (c._replace(vpp=7000), heard, busy), "4: VPP in no band")
        spoiled(b, 3, 0, i, (c._replace(address=0x4000), heard, busy), "5: past the array")
        spoiled(b, 3, 0, i, (Cycle("W", 1, 0, 12000, 0, 0x11, 0), ("N", 0), 2), "7 where nothing is awaited")
    b.group("cuts", "RP# or VPP low, at every record: a cut only where an operation is in flight")
    for i, (c, heard, busy) in enumerate(base(b)[0]):
        spoiled(b, 3, 0, i, (Cycle("I", 0, 0, 12000, 0, 0, 0), ("N", 0), busy), "RP# low")
        spoiled(b, 3, 0, i, (c._replace(vpp=0), heard, busy), "VPP low")
    b.group("busy", "other counts, at every record: read at a start only")
    for i, (c, heard, busy) in enumerate(base(b)[0]):
        for count in (0, 1, busy + 1, LONGEST, LONGEST + 1, 2 * LONGEST + 2, 4294967295) if busy else (1, LONGEST + 1):
            spoiled(b, 3, 0, i, (c, heard, count), f"{count}")


def ends(b):  # R-recording-2
    b.group("ends", "only the end is at fault")
    records, left = base(b)
    wrong = bytearray(left)
    wrong[-1] ^= 1
    for promised, note in (
        (wrong, "the last byte"), (left[:-1], "a byte less"), (left + b"\xff", "a byte more"), (b"", "no bytes"), (left, "as it is"),
    ):
        records, _ = base(b)
        b.promise(promised)
        put_all(b, records)
        b.judge(note)
    first = bytearray(left)
    first[0] ^= 0x80
    records, _ = base(b)
    b.promise(first)
    put_all(b, records)
    b.judge("the first byte")
    for n in range(len(records)):
        records, _ = base(b)
        _, _, part = recorded(b.device, FRESH, b.array, [c for c, _, _ in records[:n]])
        b.promise(part)
        put_all(b, records[:n])
        b.judge(f"the first {n} records, and what they leave is promised")
    begin(b, 4)
    levels = pins(b.device)
    suspended, _, left = recorded(b.device, FRESH, b.array, a_suspend(b.device, 1, 3, 5, 1, levels)[:7], (5,))
    b.promise(left)
    put_all(b, suspended)
    b.judge("suspended at the end")


def unread(b):  # R-recording-1
    b.group("none", "no count is read where nothing starts")
    cases = (
        ("a barred confirm", [write(0x3A00, 0x20, pins(None)), write(0x3A00, 0xD0, pins(None, vpp=6500))]),
        ("barred data", [write(0x3A00, 0x40, pins(None)), write(0x3A00, 0x12, pins(None, vpp=0))]),
        ("a locked confirm", [write(0x3C00, 0x20, pins(None)), write(0x3C00, 0xD0, pins(None))]),
        ("locked data", [write(0x3FFF, 0x40, pins(None)), write(0x3FFF, 0x12, pins(None))]),
        ("a wrong second write", [write(0x3A00, 0x20, pins(None)), write(0x3A00, 0xFF, pins(None))]),
        ("a reset while one is awaited", [write(0x3A00, 0x20, pins(None)), Cycle("I", 0, 0, 12000, 0, 0, 0)]),
    )
    for note, cycles in cases:
        for busy in (0, 1, LONGEST + 1):
            begin(b, 3)
            records, _, left = recorded(b.device, FRESH, b.array, cycles)
            b.promise(left)
            put_all(b, [(c, heard, busy) for c, heard, _ in records])
            b.judge(note)
    for busy in (0, 9, LONGEST + 1):
        begin(b, 4)
        levels = pins(b.device)
        records, _, left = recorded(b.device, FRESH, b.array, a_suspend(b.device, 1, 3, 5, 1, levels), (5,))
        b.promise(left)
        put_all(b, [(c, heard, n if n else busy) for c, heard, n in records])
        b.judge("a resume, and all the others")


def starts(b):  # R-recording-3, R-number-12
    b.group("from", "refused before the list, and nothing is touched")
    cases = [
        ("1: no device", dict(number=9), None), ("1: P 0", dict(program=0), None), ("1: E 0", dict(erase=0), None),
        ("1: S 0", dict(suspend=0), None), ("1: S 101", dict(suspend=101), None), ("1: words on device 3", dict(word=1), None),
        ("2: a byte less", dict(array=16383), None), ("2: a byte more", dict(array=16385), None),
        ("3: read array while awaited", {}, ("A", 0x80, "C")), ("3: SR.7 clear at rest", {}, ("A", 0x00, "F")),
        ("3: more to go than P", {}, ("S", 0x00, "P", 3, 5)), ("3: more to go than E", {}, ("S", 0x00, "E", 4, 5)),
        ("12: a confirm awaited", {}, ("S", 0x80, "C")), ("12: data awaited", {}, ("S", 0x80, "D")),
        ("12: programming", {}, ("S", 0x00, "P", 2, 5)), ("12: erasing", {}, ("S", 0x00, "E", 3, 5)),
        ("12: being suspended", {}, ("S", 0x00, "U", 3, 5, 1)), ("12: suspended", {}, ("A", 0xC0, "S", 3, 5)),
        ("1 before 2, 3", dict(number=0, array=7), ("A", 0x80, "C")), ("2 before 3", dict(array=7), ("A", 0x80, "C")),
        ("3 before 12", {}, ("I", 0x80, "D")), ("2 before 12", dict(array=7), ("S", 0x80, "C")),
    ]
    for note, other, state in cases:
        told = dict(number=3, program=2, erase=3, suspend=1, word=0, array=None) | other
        for n in (0, 2):
            b.use(**told)
            b.fill(200, 3)
            if state:
                b.put(*state)
            else:
                b.fresh()
            b.promise(b.array)
            put_all(b, [(write(0, 0xFF, pins(None)), ("N", 0), 0)] * n)
            b.judge(note)


def longest(b):  # R-recording-1
    b.group("long", "counts larger than the device's own P and E, and the longest")
    for count in (4, 255, 256, 300):
        begin(b, 3)
        levels = pins(b.device)
        records, _, left = recorded(b.device, FRESH, b.array, a_load(b.device, 1, 2, count, levels), (count,))
        b.promise(left)
        put_all(b, records)
        b.judge(f"an erase of {count} cycles on a device with E 3")
    begin(b, 3)
    levels = pins(b.device)
    cycles = [write(0x3A00, 0x20, levels), write(0x3A00, 0xD0, levels)] + [read(0x3A00, levels)] * 5
    records, _, left = recorded(b.device, FRESH, b.array, cycles, (LONGEST,))
    b.promise(left)
    put_all(b, records)
    b.judge("65,535: still running at the end")


def any_way(b):  # R-recording-2, R-recording-3
    b.group("rand", "any cycles, what the model records and one record spoiled or none")
    rng = random.Random(2802)
    for _ in range(100):
        number, word = rng.choice(ALL)
        if number in (7, 8, 1, 2) and rng.random() < 0.7:
            number, word = 3, 0
        begin(b, number, word, suspend=rng.choice((1, 2)))
        d, cycles = b.device, []
        units = [first_unit(d, k) + rng.choice((0, 1, 5)) for k in range(len(BLOCKS[number]))]
        for _ in range(rng.randrange(1, 30)):
            levels = {"rp": rng.choice((1, 1, 1, 2)), "oe": 0, "wp": rng.choice((0, 1)), "vpp": rng.choice((12000, 12000, 11400, 12600))}
            kind = rng.choice("RWWWI")
            data = rng.choice((0x20, 0xD0, 0xD0, 0x40, 0x5A, 0xFF, 0x70, 0xB0, 0x50)) | (rng.randrange(256) << 8 if word else 0)
            carried = data if kind == "W" else 0
            cycles.append(Cycle(kind, levels["rp"], levels["oe"], levels["vpp"], rng.choice(units), carried, levels["wp"]))
        records, state, left = recorded(d, FRESH, b.array, cycles, [rng.randrange(1, 6) for _ in cycles])
        records = [(c, heard if heard[0] != "X" else ("N", 0), busy) for c, heard, busy in records]
        b.promise(left)
        if rng.random() < 0.4:
            i = rng.randrange(len(records))
            c, heard, busy = records[i]
            records[i] = rng.choice(((c, ("D", 0x80), busy), (c, heard, 0), (c._replace(vpp=1000), heard, busy)))
        put_all(b, records)
        b.judge()


def all_cases():
    b = Bench()
    for part in (accepted, places, ends, unread, starts, longest, any_way):
        part(b)
    return b


if __name__ == "__main__":
    called("vectors_recording", all_cases, __doc__)
