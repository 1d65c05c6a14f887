#!/usr/bin/env python3
"""The cases of the program `vectors_model`, and the lines that it must print.

    python3 tests/vectors_model.py table        the cases, as in crates/vectors_model/stdin
    python3 tests/vectors_model.py expected     the lines, as in crates/vectors_model/stdout
    python3 tests/vectors_model.py check        whether both files are what the script prints

The model in the first half is written from documents 01 and 02 and the data sheets alone and shares nothing with the crates: it is the
second opinion to which the program is held. The second half is the list of cases.

A line shows: group and number; the answer (D and what was read, N and dashes, X and a refusal); the status register; the mode
(A array, S status, I identifier); the phase (F free, C confirm awaited, D data awaited, P programming and its data, E erasing,
U being suspended and the cycles of that to go, S suspended); the cycles to go; the operation's address; a digest of the array that was
lent; the erases begun, for each of seven blocks.

Addresses of cycles and states count units: bytes, or in word mode words. What a row of the table holds is said at ROWS below; what
stands from column 40 on is a note to the reader.
"""
import functools
import pathlib
import sys
from collections import namedtuple

# ---------------------------------------------------------------- the model

Device = namedtuple("Device", "number program erase suspend word", defaults=(1, 0))
UNWORN = (0,) * 7  # erases begun, by block; a part with fewer blocks has places that nothing counts at
# data: in phase P what is programmed, in phase U the cycles to go
State = namedtuple("State", "mode status phase data left address wear", defaults=(UNWORN,))
Cycle = namedtuple("Cycle", "kind rp oe vpp address data wp", defaults=(0,))

# Eight devices: first and last byte address of each block, outward from the boot block, and the size in bytes. (R-part-1 to R-part-4)
BLOCKS = {
    1: ((0x1E000, 0x1FFFF), (0x1D000, 0x1DFFF), (0x1C000, 0x1CFFF), (0x00000, 0x1BFFF)),
    2: ((0x00000, 0x01FFF), (0x02000, 0x02FFF), (0x03000, 0x03FFF), (0x04000, 0x1FFFF)),
    3: ((0x3C00, 0x3FFF), (0x3A00, 0x3BFF), (0x3800, 0x39FF), (0x0000, 0x37FF)),
    4: ((0x0000, 0x03FF), (0x0400, 0x05FF), (0x0600, 0x07FF), (0x0800, 0x3FFF)),
    5: ((0x3C000, 0x3FFFF), (0x3A000, 0x3BFFF), (0x38000, 0x39FFF), (0x20000, 0x37FFF), (0x00000, 0x1FFFF)),
    6: ((0x00000, 0x03FFF), (0x04000, 0x05FFF), (0x06000, 0x07FFF), (0x08000, 0x1FFFF), (0x20000, 0x3FFFF)),
    7: (
        (0x7C000, 0x7FFFF), (0x7A000, 0x7BFFF), (0x78000, 0x79FFF), (0x60000, 0x77FFF),
        (0x40000, 0x5FFFF), (0x20000, 0x3FFFF), (0x00000, 0x1FFFF),
    ),
    8: (
        (0x00000, 0x03FFF), (0x04000, 0x05FFF), (0x06000, 0x07FFF), (0x08000, 0x1FFFF),
        (0x20000, 0x3FFFF), (0x40000, 0x5FFFF), (0x60000, 0x7FFFF),
    ),
}
SIZE = {1: 131072, 2: 131072, 3: 16384, 4: 16384, 5: 262144, 6: 262144, 7: 524288, 8: 524288}
MAKER = 0x0089
CODE = {1: 0x94, 2: 0x95, 3: 0x94, 4: 0x95, 5: 0x2274, 6: 0x2275, 7: 0x4470, 8: 0x4471}

READY, SUSPENDED, ERASE_ERROR, PROGRAM_ERROR, VPP_LOW = 0x80, 0x40, 0x20, 0x10, 0x08
AWAITING, RUNNING, BUSY, IN_FLIGHT = "CD", "PE", "PEU", "PEUS"
FRESH = State("A", READY, "F", 0, 0, 0)
STOP = 4294967295  # a count of erases goes no further


def is_part(device):
    """The part is one: a number there is, and word mode on the 28F200BR and 28F400BR only. (R-number-1)"""
    return device.number in BLOCKS and device.word in ((0, 1) if device.number > 4 else (0,))


def is_device(device):  # R-number-1, R-part-5
    return is_part(device) and device.program > 0 and device.erase > 0 and 1 <= device.suspend <= 100


def width(device):
    """The bytes of a unit. (R-part-6)"""
    return 2 if device.word else 1


def unit_at(device, part, address):
    """A unit of lent bytes, low byte first. (R-part-6)"""
    if device.word:
        return part[2 * address + 1] << 8 | part[2 * address]
    return part[address]


def put_unit(device, part, address, value):
    if device.word:
        part[2 * address], part[2 * address + 1] = value & 0xFF, value >> 8
    else:
        part[address] = value


def carried(device, data):
    """What a cycle carries of 16 bits."""
    return data if device.word else data & 0xFF


def block_of(device, address):
    """The number of the block that holds a unit."""
    byte = address * width(device)
    return next(k for k, (first, last) in enumerate(BLOCKS[device.number]) if first <= byte <= last)


def block_bytes(device, address):
    """First byte address, and the one past the last, of the block that holds a unit."""
    first, last = BLOCKS[device.number][block_of(device, address)]
    return first, last + 1


def error_bit(state):
    """The error bit of the operation that is awaited, running or suspended."""
    return PROGRAM_ERROR if state.phase in "DP" else ERASE_ERROR


def low(device, vpp):  # R-cycle-2
    return vpp <= (1500 if device.number > 4 else 6500)


def high(device, vpp):  # R-cycle-2
    return 11400 <= vpp <= 12600 or device.number > 4 and 4500 <= vpp <= 5500


def bad_levels(device, c):
    """One bus cycle: levels outside those that the documents know. (R-number-4, R-cycle-1)"""
    if c.rp > 2 or not (low(device, c.vpp) or high(device, c.vpp)):
        return True
    if device.number > 4:
        return c.oe != 0 or c.wp > 1
    return c.oe > (1 if c.kind == "W" else 0)


def unlocked(device, c):
    """What unlocks the boot block. (R-lock-1)"""
    if device.number > 4:
        return c.wp == 1 or c.rp == 2
    return c.rp == 2 or c.oe == 1


def proper(device, s):
    """A proper state. (R-proper-1)"""
    if s.phase in AWAITING + BUSY and s.mode != "S":
        return False
    if s.phase == "S" and s.mode not in "AS":
        return False
    if (s.status & READY == 0) != (s.phase in BUSY):
        return False
    if (s.status & SUSPENDED != 0) != (s.phase == "S"):
        return False
    if s.status & 7 != 0:
        return False
    if s.phase not in IN_FLIGHT:
        return s.left == 0 and s.address == 0
    if s.phase == "U" and not 1 <= s.data <= device.suspend:
        return False
    most = device.program if s.phase == "P" else device.erase
    return 1 <= s.left <= most and s.address * width(device) < SIZE[device.number]


def cut_comes(device, s, c):
    """Steps 1 and 2: RP# low or VPP low meets an operation running or suspended. (R-cycle-3, R-cycle-4)"""
    return s.phase in IN_FLIGHT and (c.rp == 0 or low(device, c.vpp))


def residue_needed(device, s):
    """How many bytes of residue the cut of this operation needs. (R-number-6)"""
    if s.phase == "P":
        return width(device)
    first, past = block_bytes(device, s.address)
    return past - first


def cut(device, s, array, residue):
    """What a cut leaves in the array. (R-cycle-7)"""
    if s.phase == "P":
        r = unit_at(device, residue, 0)
        put_unit(device, array, s.address, unit_at(device, array, s.address) & (s.data | r))
    else:
        first, past = block_bytes(device, s.address)
        array[first:past] = residue[: past - first]


def finish(device, s, array):
    """Step 3: what an operation leaves in the array when it is finished. (R-cycle-5)"""
    if s.phase == "P":
        put_unit(device, array, s.address, unit_at(device, array, s.address) & s.data)
    else:
        first, past = block_bytes(device, s.address)
        array[first:past] = b"\xff" * (past - first)


def rested(s):
    """Step 1: what RP# low leaves. Wear is kept: a reset takes no erase back. (R-cycle-3)"""
    return FRESH._replace(wear=s.wear)


def counted(wear, block):
    """The counts once an erase of a block has begun: one more there, up to the stop. (R-wear-1)"""
    return tuple(min(n + 1, STOP) if k == block else n for k, n in enumerate(wear))


def settled(s, is_cut):
    """The state that steps 2 and 3 leave, where the operation is cut and where it is not. (R-cycle-4, R-cycle-5)"""
    if is_cut:
        status = (s.status | READY | VPP_LOW | error_bit(s)) & ~SUSPENDED
        return State("S", status, "F", 0, 0, 0, s.wear)
    if s.phase == "U":
        if s.data == 1:
            return s._replace(phase="S", data=0, status=s.status | READY | SUSPENDED)
        return s._replace(data=s.data - 1)
    if s.phase in RUNNING:
        if s.left == 1:
            return State("S", s.status | READY, "F", 0, 0, 0, s.wear)
        return s._replace(left=s.left - 1)
    return s


def first_write(device, s, command):
    """Writes, nothing awaited, running or suspended. None is refusal 7. (R-write-1 to R-write-3, R-number-7)"""
    if command in (0xFF, 0xB0):
        return s._replace(mode="A")
    if command == 0x90:
        return s._replace(mode="I")
    if command == 0x70:
        return s._replace(mode="S")
    if command == 0x50:
        return s._replace(status=s.status & ~(ERASE_ERROR | PROGRAM_ERROR | VPP_LOW))
    if command == 0x20:
        return s._replace(mode="S", phase="C")
    if command == 0x40 or command == 0x10 and device.number > 4:
        return s._replace(mode="S", phase="D")
    return None


def second_write(device, s, c):
    """Second writes. (R-second-1 to R-second-4)"""
    over = s._replace(phase="F")
    if s.phase == "C" and c.data & 0xFF != 0xD0:
        return over._replace(status=s.status | ERASE_ERROR | PROGRAM_ERROR)
    errors = 0
    if low(device, c.vpp) or s.status & VPP_LOW:
        errors |= VPP_LOW | error_bit(s)
    if block_of(device, c.address) == 0 and not unlocked(device, c):
        errors |= error_bit(s)
    if errors:
        return over._replace(status=s.status | errors)
    if s.phase == "C":
        return State("S", s.status & ~READY, "E", 0, device.erase, c.address, counted(s.wear, block_of(device, c.address)))
    return State("S", s.status & ~READY, "P", carried(device, c.data), device.program, c.address, s.wear)


def busy_write(device, s, command):
    """While busy. 70H finds the mode that it asks for. (R-busy-1, R-busy-2)"""
    if s.phase == "E" and command == 0xB0:
        return s._replace(phase="U", data=device.suspend)
    return s


def suspended_write(s, command):
    """While suspended. (R-suspended-1)"""
    if command == 0xFF:
        return s._replace(mode="A")
    if command == 0x70:
        return s._replace(mode="S")
    if command == 0xD0:
        return s._replace(phase="E", status=s.status & ~(READY | SUSPENDED), mode="S")
    return s


def write(device, s, c):
    """Step 4 for a write: the state after it, or None where it is refused 7. A command is the low eight bits."""
    command = c.data & 0xFF
    if s.phase == "F":
        return first_write(device, s, command)
    if s.phase in AWAITING:
        return second_write(device, s, c)
    if s.phase in BUSY:
        return busy_write(device, s, command)
    return suspended_write(s, command)


def identifier(device, address):
    """The maker's code and the device's. A-1 is not looked at in the byte mode of devices 5 to 8, and the low byte is read.
    (R-read-1, R-read-2)"""
    place = address // 2 if device.number > 4 and not device.word else address
    if place > 1:
        return ("X", 9)
    return ("D", carried(device, CODE[device.number] if place else MAKER))


def read(device, s, address, array):
    """Reads: what step 4 answers to a read. (R-read-1, R-busy-1, R-suspended-2, R-number-8, R-number-9)"""
    if s.mode == "S" or s.phase in BUSY:
        return ("D", s.status)
    if s.mode == "I":
        return identifier(device, address)
    if s.phase == "S" and block_of(device, s.address) == block_of(device, address):
        return ("X", 8)
    return ("D", unit_at(device, array, address))


def judged(device, s, c, array, residue):
    """Refusals 1 to 6 of a cycle, 0 for none. (R-order-1, R-number-1 to R-number-6)"""
    if not is_device(device):
        return 1
    if array != SIZE[device.number]:
        return 2
    if not proper(device, s):
        return 3
    if bad_levels(device, c):
        return 4
    if c.rp != 0 and c.kind != "I" and c.address * width(device) >= array:
        return 5
    if cut_comes(device, s, c) and residue < residue_needed(device, s):
        return 6
    return 0


def made(device, s, c, array, residue):
    """A cycle that 1 to 6 let pass: the answer and the state after it. The array is changed in place."""
    is_cut = cut_comes(device, s, c)
    if c.rp == 0:
        if is_cut:
            cut(device, s, array, residue)
        return ("N", 0), rested(s)
    answer, after = ("N", 0), settled(s, is_cut)
    if c.kind == "W":
        after = write(device, after, c)
        if after is None:
            return ("X", 7), s
    if c.kind == "R":
        answer = read(device, after, c.address, array)
        if answer[0] == "X":
            return answer, s
    if is_cut:
        cut(device, s, array, residue)
    elif s.phase in RUNNING and s.left == 1:
        finish(device, s, array)
    return answer, after


def cycle(device, s, c, array, residue):
    """One bus cycle: the answer and the state after it. The array is changed in place. (R-demand-2, R-cycle-6, R-cycle-8)"""
    number = judged(device, s, c, len(array), len(residue))
    if number:
        return ("X", number), s
    return made(device, s, c, array, residue)


# ---------------------------------------------------------------- the bench on which the cases are run

ARRAY_ROOM = 524289  # one byte more than the largest array, so that one too many can be lent
ROOM = 131073  # one byte more than the largest block, for a residue, wanted or scratch

# ROWS. The letters R, W, I run a cycle and print a line; F (fresh) and Z (reset) print a line too; the others prepare.
#   G name                            the group's four letters
#   D number word program erase suspend array residue     the device, and how many bytes of array and residue are lent
#   A first step, B first step        fill the array, the residue, as far as they are lent
#   E and seven counts                erases begun by block, for the states of the rows S that follow
#   S status mode phase left address  the state, as a line shows it
#   R rp oe wp vpp address data       the cycle


@functools.cache
def sown(first, step, room):
    """Bytes of period 257, which divides no block's length; a step of 0 makes them all alike."""
    period = bytes((first + step * i) % 257 % 256 for i in range(257))
    return (period * (room // 257 + 1))[:room]


def pattern(first, step, room=ROOM):
    return bytearray(sown(first, step, room))


@functools.cache
def piece_digest(piece):
    h = 0
    for b in piece:
        h = (31 * h + b) % 65521
    return h


def digest(part):
    """A number that any one changed byte changes: h = 31 h + byte modulo 65,521. Pieces that come again are worked out once."""
    h, data = 0, bytes(part)
    for at in range(0, len(data), 2048):
        piece = data[at : at + 2048]
        h = (pow(31, len(piece), 65521) * h + piece_digest(piece)) % 65521
    return h


def shown(s):
    """A state as the rows and the lines have it."""
    phase = f"{s.phase}{s.data:04X}" if s.phase in "PU" else f"{s.phase}----"
    return f"{s.status:02X} {s.mode} {phase} {s.left:05d} {s.address:08X}"


def tally(wear):
    """Counts as the lines have them."""
    return " ".join(map(str, wear))


class Bench:
    """Runs the cases one after the other, and keeps the rows of the table and the expected lines."""

    def __init__(self):
        self.device, self.state, self.lent, self.rest, self.wear = Device(0, 0, 0), FRESH, 0, 0, UNWORN
        self.array, self.residue, self.name, self.number = bytearray(ARRAY_ROOM), bytearray(ROOM), "    ", 0
        self.rows, self.lines, self.known = [], [], (None, 0)

    def row(self, text, note=""):
        self.rows.append(f"{text:40}{note}".rstrip())

    def group(self, name, note):
        self.name = name
        self.row(f"G {name}", note)

    def use(self, number, program, erase, array=None, residue=None, suspend=1, word=0):
        """Take a device, with an array and a residue of these lengths."""
        self.device = Device(number, program, erase, suspend, word)
        self.lent = SIZE.get(number, 16384) if array is None else array
        self.rest = min(SIZE.get(number, 16384), 131072) if residue is None else residue
        self.row(f"D {number:03d} {word} {program:05d} {erase:05d} {suspend:03d} {self.lent:06d} {self.rest:06d}")

    def fill(self, first, step):
        self.array[: self.lent] = pattern(first, step, self.lent)
        self.row(f"A {first:03d} {step:03d}")

    def fill_residue(self, first, step):
        self.residue[: self.rest] = pattern(first, step, self.rest)
        self.row(f"B {first:03d} {step:03d}")

    def worn(self, wear):
        """The counts of the states that are put from here on."""
        self.wear = tuple(wear)
        self.row("E " + " ".join(f"{n:010d}" for n in wear))

    def put(self, mode, status, phase, left=0, address=0, data=0):
        """Put the device into a state."""
        self.state = State(mode, status, phase, data, left, address, self.wear)
        self.row(f"S {shown(self.state)}")

    def say(self, answer):
        """One line. The digest is worked out anew only where a byte has changed."""
        part, (kind, value) = bytes(self.array[: self.lent]), answer
        if self.known[0] != part:
            self.known = (part, digest(part))
        told = {"D": f"D {value:04X}", "N": "N ----", "X": f"X {value:02d}"}[kind]
        self.number += 1
        self.lines.append(f"{self.name} {self.number:04d} {told} {shown(self.state)} {self.known[1]:04X} {tally(self.state.wear)}")

    def fresh(self, note):
        self.state = FRESH
        self.row("F", note)
        self.say(("N", 0))

    def reset(self, note):
        self.state = rested(self.state)
        self.row("Z", note)
        self.say(("N", 0))

    def run(self, kind, address, data, note, rp=1, oe=0, vpp=12000, wp=0):
        c = Cycle(kind, rp, oe, vpp, address, data, wp)
        part = self.array[: self.lent]
        answer, self.state = cycle(self.device, self.state, c, part, self.residue[: self.rest])
        self.array[: self.lent] = part
        self.row(f"{kind} {rp:03d} {oe:03d} {wp:03d} {vpp:010d} {address:08X} {data:04X}", note)
        self.say(answer)

    def read(self, address, note="", **pins):
        self.run("R", address, 0, note, **pins)

    def write(self, address, data, note="", **pins):
        self.run("W", address, data, note, **pins)

    def idle(self, note="", address=0, data=0, **pins):
        self.run("I", address, data, note, **pins)


# ---------------------------------------------------------------- the cases

COMMANDS = (0xFF, 0x90, 0x70, 0x50, 0x20, 0x40, 0xD0, 0xB0, 0x00)
MOST = 4294967295


def new_bench(b, number=3, program=2, erase=3, suspend=1):
    """A device with both patterns, as most groups begin."""
    b.use(number, program, erase, suspend=suspend)
    b.fill(200, 3)
    b.fill_residue(17, 5)


def cards(b):  # R-card-1 to R-card-4, R-card-6 to R-card-9, R-status-3
    b.group("card", "the first nine bench cards, cycle by cycle")
    new_bench(b)
    b.fill(0xA5, 0)
    b.fresh("a fresh device")
    b.write(0x10, 0x40, "card 1: 5AH over A5H")
    b.write(0x10, 0x5A)
    b.read(0x10)
    b.read(0x10)
    b.write(0, 0xFF)
    b.read(0x10)
    b.fill(0x3C, 0)
    b.write(0x10, 0x40, "card 2: FFH over 3CH")
    b.write(0x10, 0xFF)
    b.idle()
    b.idle()
    b.fill(200, 3)
    b.write(0, 0x20, "card 3: 20H then FFH")
    b.write(0, 0xFF)
    b.fresh("card 4: confirmed at 6,500 mV")
    b.write(0, 0x40)
    b.write(0, 0x00, vpp=6500)
    b.fresh("and the erase")
    b.write(0, 0x20)
    b.write(0, 0xD0, vpp=6500)
    b.fresh("card 6: boot erase")
    b.write(0x3C00, 0x20)
    b.write(0x3C00, 0xD0)
    b.write(0x3C00, 0x50, "50H, then with RP# at V_HH")
    b.write(0x3C00, 0x20, rp=2)
    b.write(0x3C00, 0xD0, rp=2)
    b.write(0x3C00, 0xB0, "card 7: suspended")
    b.read(0x3C00)
    b.write(0x3C00, 0xD0, "resumed, to its end")
    b.read(0)
    b.read(0)
    b.write(0x3A00, 0x20, "card 8: 20H in block 1, D0H in block 2")
    b.write(0x3810, 0xD0)
    b.idle()
    b.idle()
    b.idle()
    b.fill(0xF0, 0)
    b.fill_residue(0x33, 0)
    b.write(0x20, 0x40, "card 9: 0FH over F0H cut by VPP")
    b.write(0x20, 0x0F)
    b.read(0x20, vpp=0)
    b.write(0, 0xFF)
    b.read(0x20)


def commands(b):  # R-write-1 to R-write-3, R-second-1, R-busy-1, R-suspended-1, R-number-7
    b.group("cmds", "every command in every phase")
    new_bench(b)
    phases = (
        ("free, all error bits set", dict(mode="I", status=0xB8, phase="F")),
        ("confirm awaited", dict(mode="S", status=0x80, phase="C")),
        ("data awaited", dict(mode="S", status=0x80, phase="D")),
        ("programming", dict(mode="S", status=0x20, phase="P", left=2, address=0x3A07, data=0x5A)),
        ("erasing", dict(mode="S", status=0x10, phase="E", left=3, address=0x3A07)),
        ("suspended", dict(mode="A", status=0xC0, phase="S", left=2, address=0x3A07)),
    )
    for name, state in phases:
        for byte in COMMANDS:
            b.put(**state)
            b.write(0x3805, byte, f"{name}: {byte:02X}H")
    for byte in (0x01, 0x10, 0x60, 0x80, 0xFE):
        b.put("A", 0x80, "F")
        b.write(0x3805, byte, f"free: {byte:02X}H, no command")
    for byte in (0xFF, 0x70):
        b.put("S", 0xC0, "S", 3, 0x3A07)
        b.write(0x3805, byte, f"suspended, mode status: {byte:02X}H")


def last_cycle(b):  # R-cycle-5
    b.group("last", "writes and reads on the last busy cycle")
    new_bench(b)
    for byte in COMMANDS:
        b.fill(200, 3)
        b.put("S", 0x28, "P", 1, 0x3A07, 0x5A)
        b.write(0x3805, byte, f"program, 1 to go: {byte:02X}H")
    for byte in COMMANDS:
        b.fill(200, 3)
        b.put("S", 0x30, "E", 1, 0x3A07)
        b.write(0x3805, byte, f"erase, 1 to go: {byte:02X}H")
    b.put("S", 0x00, "E", 2, 0x3A07)
    b.write(0x3805, 0xB0, "erase, 2 to go: B0H, with 1 to go")
    b.write(0x3805, 0xD0, "resumed with 1 to go")
    b.read(0x3805, "and finished")


def modes(b):  # R-write-1, R-status-2
    b.group("mode", "50H keeps the mode and clears SR.5 to SR.3")
    new_bench(b)
    for mode in "ASI":
        b.put(mode, 0xB8, "F")
        b.write(0, 0x50, f"mode {mode}")
        b.read(1)


def bands(b):  # R-cycle-2, R-card-5, R-card-14
    b.group("band", "the supply's bands")
    new_bench(b)
    for vpp in (0, 6500, 6501, 11399, 11400, 12600, 12601, MOST):
        b.put("S", 0x80, "D")
        b.write(0x0123, 0x0F, f"data at {vpp} mV", vpp=vpp)
    for vpp in (6500, 6501, 11399, 11400, 12600, 12601):
        b.put("S", 0x00, "P", 2, 0x0123, 0x0F)
        b.idle(f"programming at {vpp} mV", vpp=vpp)
    b.put("A", 0x80, "F")
    b.read(0x0123, "an array read at 6,500 mV", vpp=6500)
    b.read(0x0123, "at 9,000 mV", vpp=9000)
    b.read(0x0123, "RP# low at 9,000 mV", vpp=9000, rp=0)


def locks(b):  # R-lock-1
    b.group("lock", "the boot block's lock")
    new_bench(b)
    for phase, byte, name in (("C", 0xD0, "erase"), ("D", 0x00, "program")):
        for rp, oe in ((1, 0), (2, 0), (1, 1), (2, 1)):
            b.put("S", 0x80, phase)
            b.write(0x3FFF, byte, f"boot {name}, RP# {rp}, OE# {oe}", rp=rp, oe=oe)
        b.put("S", 0x80, phase)
        b.write(0x3FFF, byte, f"boot {name}, locked, VPP low too", vpp=0)
        b.put("S", 0x80, phase)
        b.write(0x3FFF, byte, f"boot {name}, unlocked, VPP low", vpp=0, rp=2)
    b.put("S", 0x80, "C")
    b.write(0x3FFF, 0xFF, "a wrong confirm in the boot block, VPP low", vpp=0)
    b.put("S", 0x80, "F")
    b.write(0x3C00, 0x20, "20H in the boot block, D0H in the main block")
    b.write(0x0000, 0xD0)
    b.put("S", 0x80, "F")
    b.write(0x3C00, 0x20, "V_HH at 20H only: locked", rp=2)
    b.write(0x3C00, 0xD0)
    b.put("S", 0x80, "F")
    b.write(0x3C00, 0x40, "V_HH at the data only: not locked", oe=0)
    b.write(0x3C00, 0x0B, oe=1)
    b.idle("and while it is busy the lock is not tested")
    b.idle()


def barred(b):  # R-status-2, R-second-3
    b.group("bars", "SR.3 bars new operations until 50H")
    new_bench(b)
    b.put("S", 0x80, "D")
    b.write(0x0040, 0x00, "data at VPP low sets SR.3", vpp=6500)
    b.write(0x0040, 0x40, "a program at 12 V is barred")
    b.write(0x0040, 0x00)
    b.write(0x0040, 0x20, "and an erase")
    b.write(0x0040, 0xD0)
    b.write(0x0040, 0x50, "50H")
    b.write(0x0040, 0x40, "now it starts")
    b.write(0x0040, 0x00)
    for status in (0x90, 0xA0, 0xB0):
        b.put("S", status, "D")
        b.write(0x0040, 0x00, f"status {status:02X}H does not bar")
    b.put("S", 0x88, "C")
    b.write(0x3C00, 0xD0, "barred and locked")
    b.put("S", 0x88, "C")
    b.write(0x3C00, 0x00, "barred, and a wrong confirm")
    b.put("S", 0x80, "C")
    b.idle("VPP low does not touch an awaited confirm", vpp=0)
    b.write(0x0040, 0xD0)


def times(b):  # R-part-5, R-second-4
    b.group("time", "busy times of 1 and of 65,535")
    new_bench(b, program=1, erase=1)
    b.fresh("P 1 and E 1")
    b.write(0x0777, 0x40)
    b.write(0x0777, 0x81)
    b.read(0x0777)
    b.write(0x0777, 0x20)
    b.write(0x3A00, 0xD0)
    b.write(0x3A00, 0xB0, "1 to go: the erase ends, and B0H sets read array")
    b.idle()
    new_bench(b, program=65535, erase=65535)
    b.fresh("P and E 65,535")
    b.write(0x0777, 0x40)
    b.write(0x0777, 0x81)
    b.read(0x0777)
    b.put("S", 0x00, "P", 1, 0x0777, 0x81)
    b.read(0x0777)
    b.write(0x0777, 0x20)
    b.write(0x3A00, 0xD0)
    b.write(0x3A00, 0xB0)
    b.write(0x3A00, 0xD0)
    b.idle()


def cuts(b):  # R-cycle-3, R-cycle-4, R-cycle-7
    b.group("cuts", "both cuts, in both operations and while suspended")
    new_bench(b)
    running = (
        ("program", dict(mode="S", status=0x20, phase="P", left=2, address=0x3C01, data=0x02)),
        ("program, 1 to go", dict(mode="S", status=0x00, phase="P", left=1, address=0x0011, data=0x0F)),
        ("erase", dict(mode="S", status=0x10, phase="E", left=3, address=0x3A11)),
        ("erase, 1 to go", dict(mode="S", status=0x00, phase="E", left=1, address=0x3A11)),
        ("being suspended", dict(mode="S", status=0x20, phase="U", left=2, address=0x3811, data=1)),
        ("suspended, mode array", dict(mode="A", status=0xC0, phase="S", left=2, address=0x3811)),
        ("suspended, mode status", dict(mode="S", status=0xF0, phase="S", left=3, address=0x3FFF)),
    )
    for name, state in running:
        for how, pins in (("RP#", dict(rp=0)), ("VPP", dict(vpp=6500)), ("both", dict(rp=0, vpp=0))):
            b.fill(200, 3)
            b.put(**state)
            b.idle(f"{name} cut by {how}", **pins)
    b.fill(200, 3)
    b.put("A", 0xC0, "S", 2, 0x3811)
    b.read(0x3811, "suspended, read in the block as VPP falls: status", vpp=0)
    b.fill(200, 3)
    b.put("S", 0x00, "E", 3, 0x3811)
    b.read(0x3811, "erasing, a read as RP# falls: no data", rp=0)
    b.fill(0xF0, 0)
    b.fill_residue(0x33, 0)
    b.put("S", 0x00, "P", 2, 0x0123, 0x0F)
    b.write(0, 0xFF, "0FH over F0H, r 33H, and FFH in the same cycle", vpp=0)
    b.read(0x0123)


def together(b):  # R-cycle-4, R-order-1
    b.group("both", "a cut and a write in one cycle")
    new_bench(b)
    busy = (
        ("program", dict(mode="S", status=0x00, phase="P", left=2, address=0x0011, data=0x0F)),
        ("erase", dict(mode="S", status=0x00, phase="E", left=3, address=0x3A11)),
        ("suspended", dict(mode="A", status=0xC0, phase="S", left=3, address=0x3A11)),
    )
    for name, state in busy:
        for byte in COMMANDS:
            b.fill(200, 3)
            b.put(**state)
            b.write(0x3805, byte, f"{name} cut by VPP and {byte:02X}H", vpp=0)
    b.fill(200, 3)
    b.put("S", 0x00, "E", 3, 0x3A11)
    b.write(0x3805, 0x40, "cut and 40H; then the data is barred", vpp=0)
    b.write(0x3805, 0x00)


def order(b):  # R-number-0, R-order-1
    b.group("ordr", "the lowest number that applies")
    new_bench(b)
    b.use(3, 2, 3, residue=0)
    program = dict(mode="S", status=0x00, phase="P", left=2, address=0x0011, data=0x0F)
    b.put(**program)
    b.write(0x4000, 0x00, "5 before 6 and 7", vpp=0)
    b.write(0x0000, 0x00, "6 before 7", vpp=0)
    b.write(0x4000, 0x00, "4 before 5", vpp=7000)
    b.write(0x4000, 0x00, "RP# low: 6, the address is not tested", rp=0)
    b.idle("idle: 6", vpp=0, address=0x4000)
    b.write(0x0000, 0x00, "no cut: no residue is needed")
    b.use(9, 2, 3, array=0, residue=0)
    b.put("A", 0x00, "F")
    b.read(MOST, "1 before 2, 3, 4 and 5", rp=9)
    b.use(3, 2, 3, array=0, residue=0)
    b.read(MOST, "2 before 3, 4 and 5", rp=9)
    b.use(3, 2, 3, residue=0)
    b.read(MOST, "3 before 4 and 5", rp=9)
    b.put("I", 0x80, "F")
    b.read(MOST, "4 before 5 and 9", rp=9)
    b.read(MOST, "5 before 9")
    b.read(2, "9")
    b.put("A", 0xC0, "S", 3, 0x3A11)
    b.read(0x4000, "suspended: 5")
    b.read(0x3A11, "6 before 8", vpp=0)
    b.read(0x3A11, "8")


def rp_low(b):  # R-cycle-3, R-order-1
    b.group("rplo", "RP# low")
    new_bench(b)
    for name, phase in (("confirm", "C"), ("data", "D")):
        b.put("S", 0xB8, phase)
        b.write(0x0011, 0xD0, f"{name} awaited", rp=0)
    b.put("I", 0xB8, "F")
    b.write(0x0000, 0x00, "a byte that is no command", rp=0)
    b.put("I", 0xB8, "F")
    b.read(0x0002, "no identifier there", rp=0)
    b.put("I", 0xB8, "F")
    b.read(0x4000, "an address past the array, read", rp=0)
    b.write(MOST, 0x40, "and written", rp=0)
    b.read(0x0000, "OE# 1 on a read", rp=0, oe=1)
    b.idle("OE# 1 on idle", rp=0, oe=1)
    b.write(0x0000, 0x40, "OE# 1 on a write", rp=0, oe=1)
    b.put("A", 0xC0, "S", 3, 0x3A11)
    b.read(0x3A11, "a read in the suspended block", rp=0)
    b.put("S", 0x30, "E", 3, 0x3A11)
    b.reset("the state that RP# low leaves, of an erase")
    b.put("I", 0xB8, "F")
    b.reset("and of a free device")
    b.put("A", 0x07, "C", 9, MOST)
    b.reset("and of an improper state")


def past(b):  # R-number-5
    b.group("past", "addresses past the array")
    new_bench(b)
    b.put("A", 0x80, "F")
    b.read(0x3FFF, "the last address")
    b.read(0x4000, "one past")
    b.read(MOST, "far past")
    b.write(0x4000, 0xFF, "a command")
    b.idle("idle", address=0x4000)
    b.idle("idle", address=MOST, data=0xFF)
    b.put("S", 0x80, "F")
    b.read(0x4000, "a status read")
    b.put("S", 0x80, "D")
    b.write(0x4000, 0x00, "data: still awaited")
    b.put("S", 0x00, "E", 1, 0x3A11)
    b.read(0x4000, "the last busy cycle: the count stays")
    b.idle("idle: the erase ends", address=0x4000)


def suspended(b):  # R-suspended-2, R-number-8
    b.group("susp", "reads while suspended")
    new_bench(b)
    b.put("S", 0x00, "E", 3, 0x3A11)
    b.write(0x0000, 0xB0)
    b.read(0x3A00, "status")
    b.write(0x0000, 0xFF, "array")
    for address in (0x39FF, 0x3A00, 0x3A11, 0x3BFF, 0x3C00, 0x0000):
        b.read(address, f"at {address:04X}H")
    b.idle("idle: nothing is counted")
    b.write(0x3A00, 0x90, "90H is ignored: still an array read")
    b.read(0x0000)
    b.write(0x0000, 0x70, "status again, in the block too")
    b.read(0x3A11)
    b.write(0x0000, 0xD0, "resumed")
    b.read(0x3A11)
    b.read(0x3A11, "finished")


def suspending(b):  # R-busy-2
    b.group("hold", "a suspend takes S cycles")
    new_bench(b, suspend=1)
    running = dict(mode="S", status=0x00, phase="E", left=3, address=0x3A11)
    b.put(**running)
    b.write(0x0000, 0xB0, "S 1: B0H counts off the erase")
    b.read(0x3A00, "the next cycle reads C0H")
    for byte in COMMANDS:
        b.put(**running)
        b.write(0x0000, 0xB0)
        b.write(0x3A00, byte, f"S 1: {byte:02X}H in the next cycle is heard as suspended")
    b.put(**running)
    b.write(0x0000, 0xB0)
    b.write(0x3A00, 0xD0, "resumed: this cycle does not count off")
    b.idle("and the erase goes on, with its own count")
    b.idle("to its end")
    new_bench(b, suspend=2)
    b.put(**running)
    b.write(0x0000, 0xB0, "S 2")
    b.write(0x3A00, 0xD0, "D0H in the next cycle is ignored")
    b.read(0x3A00, "and the suspend still comes")
    new_bench(b, suspend=3)
    for byte in COMMANDS:
        b.put("S", 0x00, "U", 2, 0x3A11, 3)
        b.write(0x3A00, byte, f"S 3, 3 to go: {byte:02X}H")
    b.put("S", 0x30, "U", 2, 0x3A11, 3)
    b.read(0x3A00, "status, with old error bits")
    b.idle("idle passes the time")
    b.read(0x4000, "refused 5: no time passes")
    b.idle("refused 4: no time passes", vpp=9000)
    b.read(0x3A00, "SR.7 and SR.6 are set before this read")
    b.put("S", 0x00, "U", 1, 0x3A11, 2)
    b.write(0x3A00, 0xB0, "the erase with 1 to go stands still")
    b.write(0x3A00, 0x70, "and is suspended with 1 to go")
    b.write(0x3A00, 0xD0, "resumed")
    b.write(0x3A00, 0xB0, "the erase ends, and B0H sets read array")
    new_bench(b, erase=65535, suspend=100)
    b.put("S", 0x00, "E", 65535, 0x3A11)
    b.write(0x3A00, 0xB0, "S 100")
    b.idle("one of them")
    b.put("S", 0x00, "U", 65534, 0x3A11, 2)
    b.read(0x3A11, "the last but one")
    b.read(0x3A11, "the last")
    new_bench(b, suspend=3)
    for left in (3, 1):
        for how, pins in (("RP#", dict(rp=0)), ("VPP", dict(vpp=6500)), ("both", dict(rp=0, vpp=0))):
            b.fill(200, 3)
            b.put("S", 0x10, "U", 2, 0x3A11, left)
            b.read(0x3A00, f"{left} to go, cut by {how}: SR.6 is never set", **pins)
    b.fill(200, 3)
    b.put("S", 0x00, "U", 2, 0x3A11, 1)
    b.write(0x3A00, 0xB0, "cut by VPP on the last cycle, and B0H: read array", vpp=0)
    for rest in (511, 512):
        b.use(3, 2, 3, residue=rest, suspend=3)
        b.put("S", 0x00, "U", 2, 0x3A11, 1)
        b.idle(f"a cut, with a residue of {rest}", vpp=0)


def suspend_at_rest(b):  # R-write-3
    b.group("none", "B0H with nothing running, suspended or awaited")
    new_bench(b)
    for mode in "ASI":
        b.put(mode, 0xB8, "F")
        b.write(0x3A00, 0xB0, f"mode {mode}")
    b.put("S", 0x80, "F")
    b.write(0x4000, 0xB0, "past the array")
    b.put("I", 0x80, "F")
    b.write(0x3A00, 0xB0, "at VPP low", vpp=0)
    b.put("S", 0x80, "C")
    b.write(0x3A00, 0xB0, "after 20H a wrong second write")
    b.put("S", 0x80, "D")
    b.write(0x0777, 0xB0, "after 40H data")
    b.put("S", 0x80, "F")
    b.write(0x3A00, 0xD0, "D0H stays refused")


def identifiers(b):  # R-read-1, R-number-9
    b.group("iden", "identifier reads")
    for number in (1, 2, 3, 4):
        new_bench(b, number)
        b.put("I", 0x80, "F")
        b.read(0, f"device {number}, address 0")
        b.read(1, "address 1")
        b.read(2, "address 2")
        b.read(SIZE[number] - 1, "the last address")


def residues(b):  # R-cycle-7, R-number-6
    b.group("resi", "residues of the length needed, and too short by one")
    for number in (1, 2, 3, 4):
        new_bench(b, number)
        how = dict(vpp=6500) if number in (1, 3) else dict(rp=0)
        for k, (first, last) in enumerate(BLOCKS[number]):
            if number in (1, 2) and k in (1, 2):
                continue
            length = last - first + 1
            b.fill(200, 3)
            b.put("S", 0x00, "E", 2, last)
            for rest in (length - 1, length):
                b.use(number, 2, 3, residue=rest)
                b.idle(f"device {number}, block {k}, residue of {rest}", **how)
    b.use(3, 2, 3, residue=0)
    b.put("S", 0x00, "P", 2, 0x0011, 0x0F)
    b.idle("program, no residue", rp=0)
    b.idle("no cut, none needed")
    b.use(3, 2, 3, residue=1)
    b.idle("program, one byte", rp=0)


def improper(b):  # R-proper-1, R-number-3
    b.group("stat", "states that are not proper, each beside a proper one")
    new_bench(b)

    def state(note, *args, **more):
        b.put(*args, **more)
        b.idle(note)

    state("confirm awaited, mode array", "A", 0x80, "C")
    state("confirm awaited, mode identifier", "I", 0x80, "C")
    state("confirm awaited, proper", "S", 0x80, "C")
    state("data awaited, mode array", "A", 0x80, "D")
    state("data awaited, mode identifier", "I", 0x80, "D")
    state("data awaited, proper", "S", 0x80, "D")
    state("programming, mode array", "A", 0x00, "P", 2, 0x11, 0x0F)
    state("programming, mode identifier", "I", 0x00, "P", 2, 0x11, 0x0F)
    state("programming, proper", "S", 0x00, "P", 2, 0x11, 0x0F)
    state("erasing, mode array", "A", 0x00, "E", 3, 0x11)
    state("erasing, mode identifier", "I", 0x00, "E", 3, 0x11)
    state("erasing, proper", "S", 0x00, "E", 3, 0x11)
    state("suspended, mode identifier", "I", 0xC0, "S", 3, 0x11)
    state("suspended, mode array, proper", "A", 0xC0, "S", 3, 0x11)
    state("free with SR.7 clear", "A", 0x00, "F")
    state("awaiting with SR.7 clear", "S", 0x00, "C")
    state("programming with SR.7 set", "S", 0x80, "P", 2, 0x11, 0x0F)
    state("erasing with SR.7 set", "S", 0x80, "E", 3, 0x11)
    state("suspended with SR.7 clear", "S", 0x40, "S", 3, 0x11)
    state("free with SR.6", "A", 0xC0, "F")
    state("awaiting with SR.6", "S", 0xC0, "D")
    state("erasing with SR.6", "S", 0x40, "E", 3, 0x11)
    state("suspended without SR.6", "S", 0x80, "S", 3, 0x11)
    for bit in (1, 2, 4):
        state(f"status bit of weight {bit}", "A", 0x80 + bit, "F")
    state("all error bits, proper", "S", 0xF8, "S", 3, 0x11)
    state("program with 0 to go", "S", 0x00, "P", 0, 0x11, 0x0F)
    state("program with P + 1 to go", "S", 0x00, "P", 3, 0x11, 0x0F)
    state("erase with 0 to go", "S", 0x00, "E", 0, 0x11)
    state("erase with E + 1 to go", "S", 0x00, "E", 4, 0x11)
    state("suspended with 0 to go", "S", 0xC0, "S", 0, 0x11)
    state("suspended with E + 1 to go", "S", 0xC0, "S", 4, 0x11)
    state("suspended with 65,535 to go", "S", 0xC0, "S", 65535, 0x11)
    state("program at the last address", "S", 0x00, "P", 2, 0x3FFF, 0x0F)
    state("program past the array", "S", 0x00, "P", 2, 0x4000, 0x0F)
    state("erase past the array", "S", 0x00, "E", 3, 0x4000)
    state("suspended past the array", "S", 0xC0, "S", 3, MOST)
    state("free with cycles to go", "A", 0x80, "F", 1, 0)
    state("free with an address", "A", 0x80, "F", 0, 1)
    state("awaiting with cycles to go", "S", 0x80, "C", 1, 0)
    state("awaiting with an address", "S", 0x80, "D", 0, 1)
    b.put("A", 0x00, "F")
    b.write(0, 0xFF, "RP# low does not mend a state", rp=0)
    new_bench(b, suspend=3)
    state("being suspended, proper", "S", 0x00, "U", 3, 0x11, 3)
    state("being suspended, all error bits, proper", "S", 0x38, "U", 1, 0x3FFF, 1)
    state("being suspended, mode array", "A", 0x00, "U", 3, 0x11, 3)
    state("being suspended, mode identifier", "I", 0x00, "U", 3, 0x11, 3)
    state("being suspended with SR.7", "S", 0x80, "U", 3, 0x11, 3)
    state("being suspended with SR.6", "S", 0x40, "U", 3, 0x11, 3)
    state("being suspended with SR.7 and SR.6", "S", 0xC0, "U", 3, 0x11, 3)
    state("being suspended with SR.0", "S", 0x01, "U", 3, 0x11, 3)
    state("0 cycles of suspend to go", "S", 0x00, "U", 3, 0x11, 0)
    state("S + 1 cycles of suspend to go", "S", 0x00, "U", 3, 0x11, 4)
    state("being suspended, 0 to go of the erase", "S", 0x00, "U", 0, 0x11, 3)
    state("being suspended, E + 1 to go of the erase", "S", 0x00, "U", 4, 0x11, 3)
    state("being suspended past the array", "S", 0x00, "U", 3, 0x4000, 3)


def blocks(b):  # R-part-2, R-part-3, R-second-2, R-lock-1
    b.group("blks", "an erase at both ends of each block of each device")
    for number in (1, 2, 3, 4):
        new_bench(b, number, 1, 1)
        for k, (first, last) in enumerate(BLOCKS[number]):
            for address in (first, last):
                b.fill(200, 3)
                b.put("S", 0x00, "E", 1, address)
                b.idle(f"device {number}, block {k}, {address:05X}H")
    b.group("boot", "the lock at both ends of the boot block and beside it")
    for number in (1, 2, 3, 4):
        b.use(number, 1, 1)
        first, last = BLOCKS[number][0]
        for address in (first - 1 if first else last + 1, first, last):
            b.put("S", 0x80, "D")
            b.write(address, 0x00, f"device {number}, {address:05X}H")


def devices(b):  # R-part-1, R-part-7, R-number-1, R-number-2
    b.group("devs", "devices, busy times and lengths")
    new_bench(b)
    b.put("A", 0x80, "F")
    for number in (0, 9, 255):
        b.use(number, 2, 3)
        b.write(0, 0xFF, f"device {number}")
        b.idle("with RP# low", rp=0)
    for program, erase in ((0, 3), (2, 0), (0, 0)):
        b.use(3, program, erase)
        b.write(0, 0xFF, f"P {program}, E {erase}")
    for suspend in (0, 1, 100, 101, 255):
        b.use(3, 2, 3, suspend=suspend)
        b.put("A", 0x80, "F")
        b.write(0, 0xFF, f"S {suspend}")
    for number, array in ((3, 0), (3, 16383), (3, 16385), (3, 131072), (1, 16384), (1, 131071), (1, 131073), (2, 131071)):
        b.use(number, 2, 3, array=array)
        b.put("S", 0x00, "E", 1, 0x0011)
        b.idle(f"device {number}, array of {array}")
    b.use(3, 2, 3)
    b.put("S", 0x00, "E", 1, 0x0011)
    b.idle("device 3, array of 16384")


def levels(b):  # R-cycle-1, R-number-4
    b.group("pins", "levels of RP# and OE#")
    new_bench(b)
    b.put("A", 0x80, "F")
    for rp in (0, 1, 2, 3, 255):
        b.put("A", 0x80, "F")
        b.read(0x0005, f"a read with RP# {rp}", rp=rp)
    for oe in (1, 2, 255):
        b.read(0x0005, f"a read with OE# {oe}", oe=oe)
    for oe in (0, 1, 2, 255):
        b.write(0x0005, 0x70, f"a write with OE# {oe}", oe=oe)
    for oe in (1, 255):
        b.idle(f"idle with OE# {oe}", oe=oe)
    b.put("S", 0x00, "E", 1, 0x3A11)
    b.read(0, "erasing, 1 to go: refused 4, the count stays", rp=3)
    b.idle("refused 4", vpp=MOST)
    b.idle("RP# 2: the erase ends", rp=2)


# ---------------------------------------------------------------- the cases of devices 5 to 8

NEW = (5, 6, 7, 8)
BOTH = tuple((number, word) for number in NEW for word in (0, 1))
BANDS = (0, 1500, 1501, 4499, 4500, 5500, 5501, 6500, 6501, 11399, 11400, 12600, 12601)
LARGE_COMMANDS = COMMANDS + (0x10,)


def named(number, word):
    return f"device {number} in {'words' if word else 'bytes'}"


def large_bench(b, number=5, word=1, program=2, erase=3, suspend=1):
    """One of devices 5 to 8 with both patterns."""
    b.use(number, program, erase, suspend=suspend, word=word)
    b.fill(200, 3)
    b.fill_residue(17, 5)


def at(b, byte):
    """The unit that holds a byte."""
    return byte // width(b.device)


def edges(b, k):
    """The first and the last unit of a block."""
    return tuple(at(b, byte) for byte in BLOCKS[b.device.number][k])


def large_program_cards(b, ones):
    main = 0x10
    b.fill(0xA5, 0)
    b.fresh(f"a fresh {named(5, b.device.word)}")
    b.write(main, 0x40, "5A.. over A5..")
    b.write(main, 0x5A * ones)
    b.read(main, "busy")
    b.read(main, "the status, high byte 0")
    b.write(main, 0xFF)
    for address in (main, main - 1, main + 1):
        b.read(address, "what is left, and its neighbours")
    b.write(main, 0x40, "FF.. over it leaves it")
    b.write(main, 0xFF * ones)
    b.idle()
    b.idle()
    b.write(0, 0x20, "20H then FFH")
    b.write(0, 0xFF)
    for first, data, note in ((0x40, 0x00, "program confirmed at 1,500 mV: 98H"), (0x20, 0xD0, "and the erase: A8H")):
        b.fresh(note)
        b.write(main, first)
        b.write(main, data, vpp=1500)


def large_erase_cards(b, ones):
    main, boot, one, two = 0x10, *(edges(b, k)[0] for k in (0, 1, 2))
    b.fresh("boot erase, locked: A0H")
    b.write(boot, 0x20)
    b.write(boot, 0xD0)
    b.write(boot, 0x50, "with RP# at V_HH it erases")
    b.write(boot, 0x20, rp=2)
    b.write(boot, 0xD0, rp=2)
    b.write(boot, 0xB0, "suspended: C0H")
    b.read(boot)
    b.write(boot, 0xD0, "resumed, to its end")
    b.read(0)
    b.read(0)
    b.write(one, 0x20, "20H in block 1, D0H in block 2")
    b.write(two, 0xD0, vpp=5000)
    for _ in range(3):
        b.idle(vpp=5000)
    b.fill(0xF0, 0)
    b.fill_residue(0x33, 0)
    b.write(main, 0x40, "0F.. over F0.. cut by VPP, r 33..: 30.., 98H")
    b.write(main, 0x0F * ones)
    b.read(main, vpp=0)
    b.write(0, 0xFF)
    b.read(main)


def large_cards(b):  # R-card-1 to R-card-4, R-card-6 to R-card-9, R-part-6
    b.group("wide", "the first nine bench cards on device 5, in both widths")
    for word, ones in ((1, 0x0101), (0, 0x01)):
        large_bench(b, 5, word)
        large_program_cards(b, ones)
        large_erase_cards(b, ones)


def large_commands(b):  # R-write-1 to R-write-3
    b.group("cmdw", "every command in every phase, in words and in bytes")
    for number, word in ((5, 1), (6, 0)):
        large_bench(b, number, word)
        there, other = (edges(b, k)[0] + 7 for k in (1, 2))
        phases = (
            ("free, all error bits set", dict(mode="I", status=0xB8, phase="F")),
            ("confirm awaited", dict(mode="S", status=0x80, phase="C")),
            ("data awaited", dict(mode="S", status=0x80, phase="D")),
            ("programming", dict(mode="S", status=0x20, phase="P", left=2, address=there, data=0x5A)),
            ("erasing", dict(mode="S", status=0x10, phase="E", left=3, address=there)),
            ("being suspended", dict(mode="S", status=0x10, phase="U", left=3, address=there, data=1)),
            ("suspended", dict(mode="A", status=0xC0, phase="S", left=2, address=there)),
        )
        for name, state in phases:
            for data in LARGE_COMMANDS:
                b.put(**state)
                b.write(other, data, f"{name}: {data:02X}H")


def ten(b):  # R-write-2
    b.group("ten ", "10H awaits data on devices 5 to 8, and is no command on devices 1 to 4")
    for number, word in tuple((n, 0) for n in (1, 2, 3, 4)) + BOTH:
        b.use(number, 2, 3, word=word)
        b.fill(200, 3)
        b.put("A", 0xB0, "F")
        b.write(0x9000 // width(b.device) if number not in (3, 4) else 0x1000, 0x10, named(number, word))
        if number > 4:
            b.write(at(b, BLOCKS[number][3][0]), 0x1010, "and 10H is data then")
            b.idle()
            b.idle("at its end")
    b.use(3, 2, 3)
    b.fill(200, 3)
    b.put("A", 0x80, "F")
    b.write(0x0011, 0x40, "device 3: 40H and 10H as data")
    b.write(0x0011, 0x10)


def high_bytes(b):  # R-write-1, R-part-6
    b.group("high", "the high byte of a command is not looked at; of data in word mode alone")
    for number, word in ((5, 1), (6, 0), (3, 0)):
        b.use(number, 2, 3, word=word)
        b.fill(200, 3)
        there = 0x3A07 if number == 3 else edges(b, 1)[0] + 7
        other = 0x3805 if number == 3 else edges(b, 2)[0] + 5
        for data in (0xFFFF, 0x12FF, 0xFF90, 0x0170, 0xFF50, 0x8020, 0x5540, 0xA5B0, 0x40D0, 0xFF00, 0x4000, 0xFF10):
            b.put("I", 0xB8, "F")
            b.write(other, data, f"{named(number, word)}: {data:04X}H at rest")
        for data in (0x00D0, 0x01D0, 0xFFD0, 0xD000, 0xD0D1):
            b.put("S", 0x80, "C")
            b.write(there, data, f"confirm awaited: {data:04X}H")
        for data in (0x00FF, 0x1234, 0xFF00, 0xABCD):
            b.put("S", 0x80, "D")
            b.write(there, data, f"data awaited: {data:04X}H")
            b.idle()
            b.idle("at its end")
        for data in (0x77B0, 0xB000):
            b.put("S", 0x00, "E", 3, there)
            b.write(other, data, f"erasing: {data:04X}H")
        for data in (0x12FF, 0x3470, 0x56D0, 0xD0FE):
            b.put("A", 0xC0, "S", 3, there)
            b.write(other, data, f"suspended: {data:04X}H")
        b.put("S", 0x80, "F")
        b.idle("idle carries anything", address=MOST, data=0xFFFF)


def status_reads(b):  # R-status-1
    b.group("sr16", "a status read has a high byte of 0; an array read has the unit's")
    for word in (1, 0):
        large_bench(b, 5, word)
        there = edges(b, 1)[0] + 7
        phases = (
            ("free, all error bits", dict(mode="S", status=0xB8, phase="F")),
            ("confirm awaited", dict(mode="S", status=0x80, phase="C")),
            ("data awaited", dict(mode="S", status=0xA0, phase="D")),
            ("programming", dict(mode="S", status=0x38, phase="P", left=2, address=there, data=0xFFFF if word else 0xFF)),
            ("erasing", dict(mode="S", status=0x10, phase="E", left=3, address=there)),
            ("being suspended", dict(mode="S", status=0x10, phase="U", left=3, address=there, data=1)),
            ("suspended", dict(mode="S", status=0xC0, phase="S", left=2, address=there)),
        )
        for name, state in phases:
            b.put(**state)
            b.read(there, name)
        b.put("A", 0x80, "F")
        for byte in (0, 2, 3, 0x1FFFE, 0x20000, 0x3FFFE, 0x3FFFF):
            b.read(at(b, byte), f"the array's unit of byte {byte:05X}H")


def large_bands(b):  # R-cycle-2, R-number-4
    b.group("volt", "the supply's bands on devices 5 to 8")
    for number, word in ((5, 1), (6, 0)):
        large_bench(b, number, word)
        there = edges(b, 1)[0] + 7
        for vpp in BANDS:
            b.put("A", 0x80, "F")
            b.read(0x0123, f"{named(number, word)}: an array read at {vpp} mV", vpp=vpp)
            b.put("S", 0x80, "D")
            b.write(0x0123, 0x0F, f"data at {vpp} mV", vpp=vpp)
            b.put("S", 0x80, "C")
            b.write(there, 0xD0, f"a confirm at {vpp} mV", vpp=vpp)
            b.put("S", 0x00, "P", 2, 0x0123, 0x0F)
            b.idle(f"programming at {vpp} mV", vpp=vpp)
            b.put("S", 0x00, "E", 3, there)
            b.read(there, f"erasing at {vpp} mV", vpp=vpp)
            b.put("S", 0x00, "U", 2, there, 1)
            b.idle(f"being suspended at {vpp} mV", vpp=vpp)
            b.put("A", 0xC0, "S", 3, there)
            b.read(0x0123, f"suspended at {vpp} mV", vpp=vpp)
        b.put("A", 0x80, "F")
        b.read(0x0123, "far above", vpp=MOST)
        b.read(0x0123, "RP# low, between the bands", vpp=9000, rp=0)
        b.idle("idle, between the bands", vpp=3000)
    for number, word in ((5, 0), (6, 1), (7, 0), (7, 1), (8, 0), (8, 1)):
        b.use(number, 2, 3, word=word)
        for vpp in BANDS:
            b.put("A", 0x80, "F")
            b.read(at(b, 0x9000), f"{named(number, word)}: an array read at {vpp} mV", vpp=vpp)
            b.put("S", 0x80, "C")
            b.write(at(b, 0x9000), 0xD0, f"a confirm at {vpp} mV", vpp=vpp)
            b.put("S", 0x00, "P", 2, at(b, 0x9000), 0x0F)
            b.idle(f"programming at {vpp} mV", vpp=vpp)


def band_changes(b):  # R-cycle-4
    b.group("swap", "a change from one high band to the other is no cut")
    for word in (1, 0):
        large_bench(b, 5, word, 3, 4)
        there = edges(b, 1)[0] + 7
        for first, then in ((5000, 12000), (12000, 4500), (5500, 11400)):
            b.fill(200, 3)
            b.put("S", 0x80, "D")
            b.write(0x0123, 0x0F, f"data at {first} mV", vpp=first)
            b.idle(f"programming at {then} mV", vpp=then)
            b.idle(f"at {first} mV again", vpp=first)
            b.read(0x0123, "to its end", vpp=then)
            b.put("S", 0x80, "C")
            b.write(there, 0xD0, f"a confirm at {first} mV", vpp=first)
            b.write(there, 0xB0, f"suspended at {then} mV", vpp=then)
            b.read(there, "the status", vpp=first)
            b.write(there, 0xD0, f"resumed at {then} mV", vpp=then)
            b.idle(f"at {first} mV", vpp=first)
            b.idle(f"at {then} mV", vpp=then)
            b.read(there, "to its end", vpp=first)


def large_identifiers(b):  # R-read-2, R-number-9
    b.group("code", "identifier reads of devices 5 to 8")
    for number, word in BOTH:
        b.use(number, 2, 3, word=word)
        b.put("I", 0x80, "F")
        for address in (0, 1, 2, 3, 4, SIZE[number] // width(b.device) - 1):
            b.read(address, f"{named(number, word)}, address {address}")
    large_bench(b, 5, 1)
    b.put("I", 0xB8, "F")
    b.read(1, "at 0 mV, with all error bits", vpp=0)
    b.read(1, "RP# at V_HH", rp=2)
    b.read(1, "RP# low: no data, and the device is reset", rp=0)


def write_protect(b):  # R-cycle-1, R-number-4
    b.group("wpin", "levels of WP#: 0 and 1 on devices 5 to 8, any on devices 1 to 4")
    for number, word in BOTH + tuple((n, 0) for n in (1, 2, 3, 4)):
        b.use(number, 2, 3, word=word)
        for wp in (0, 1, 2, 255):
            b.put("S", 0x80, "F")
            b.read(5, f"{named(number, word)}: a read with WP# {wp}", wp=wp)
            b.write(5, 0x90, "a write", wp=wp)
            b.idle("idle", wp=wp)
            b.idle("RP# low", wp=wp, rp=0)
    large_bench(b, 5, 1)
    b.put("S", 0x00, "E", 1, 0x11)
    b.read(0, "erasing, 1 to go: refused 4, the count stays", wp=2)
    b.idle("refused 4, RP# low too", wp=3, rp=0)
    b.idle("WP# may change: the erase ends", wp=1)


def output_enable(b):  # R-cycle-2, R-number-4
    b.group("oepi", "OE# other than 0 is no level on devices 5 to 8")
    for number, word in BOTH:
        b.use(number, 2, 3, word=word)
        for oe in (0, 1, 2, 255):
            b.put("S", 0x80, "F")
            b.read(5, f"{named(number, word)}: a read with OE# {oe}", oe=oe)
            b.write(5, 0x90, "a write", oe=oe)
            b.idle("idle", oe=oe)
            b.write(5, 0x90, "a write, RP# low", oe=oe, rp=0)
    large_bench(b, 5, 1)
    b.put("S", 0x80, "C")
    b.write(edges(b, 0)[0], 0xD0, "OE# unlocks nothing: refused 4", oe=1)
    b.write(edges(b, 0)[0], 0xD0, "still awaited: locked")
    for rp in (0, 1, 2, 3, 255):
        b.put("A", 0x80, "F")
        b.read(5, f"a read with RP# {rp}", rp=rp)


def large_locks(b):  # R-lock-1
    b.group("lckw", "the boot block of devices 5 to 8: WP# high or RP# at V_HH unlocks it")
    for number, word in BOTH:
        b.use(number, 2, 3, word=word)
        first, last = edges(b, 0)
        for phase, data, address, name in (("C", 0xD0, first, "erase"), ("D", 0x00, last, "program")):
            for rp, wp in ((1, 0), (2, 0), (1, 1), (2, 1)):
                b.put("S", 0x80, phase)
                b.write(address, data, f"{named(number, word)}: boot {name}, RP# {rp}, WP# {wp}", rp=rp, wp=wp)
    for number in (1, 2, 3, 4):
        b.use(number, 2, 3)
        b.put("S", 0x80, "C")
        b.write(edges(b, 0)[0], 0xD0, f"device {number}: WP# high unlocks nothing", wp=1)
    large_bench(b, 5, 1)
    first, last = edges(b, 0)
    for phase, data, name in (("C", 0xD0, "erase"), ("D", 0x00, "program")):
        for wp in (0, 1):
            b.put("S", 0x80, phase)
            b.write(first, data, f"boot {name}, WP# {wp}, VPP low", vpp=1500, wp=wp)
            b.put("S", 0x88, phase)
            b.write(first, data, f"boot {name}, WP# {wp}, SR.3 set", wp=wp)
            b.put("S", 0x80, phase)
            b.write(first, data, f"boot {name}, WP# {wp}, VPP 5 V", vpp=5000, wp=wp)
    b.put("S", 0x80, "C")
    b.write(first, 0xFF, "a wrong confirm in the boot block, VPP low", vpp=0)
    b.put("S", 0x80, "F")
    b.write(first, 0x20, "WP# high at 20H only: locked", wp=1)
    b.write(first, 0xD0)
    b.put("S", 0x80, "F")
    b.write(first, 0x40, "WP# high at the data only: not locked")
    b.write(first, 0x0B0B, wp=1)
    b.idle("and while it is busy the lock is not tested")
    b.idle()
    b.put("S", 0x80, "F")
    b.write(first, 0x20, "20H in the boot block, D0H in a main block")
    b.write(at(b, 0x1FFFE), 0xD0)


def word_cuts(b):  # R-cycle-7, R-number-6
    b.group("cutw", "cuts of programs in both widths, with residues of 0, 1, 2 and 3 bytes")
    cuts = (("RP#", dict(rp=0)), ("VPP", dict(vpp=1500)), ("both", dict(rp=0, vpp=0)))
    for word in (1, 0):
        for how, pins in cuts:
            for rest in (0, 1, 2, 3):
                b.use(5, 2, 3, residue=rest, word=word)
                b.fill(0xF0, 0)
                b.fill_residue(0x31, 0x44)
                b.put("S", 0x20, "P", 2, 0x0123, 0x0F0F if word else 0x0F)
                b.idle(f"{named(5, word)}: cut by {how}, residue of {rest}", **pins)
    b.use(5, 2, 3, residue=2, word=1)
    for first, step, note in ((0x00, 0, "r 0000H"), (0xFF, 0, "r FFFFH"), (0x0F, 0xE1, "r F00FH"), (0xF0, 0x1F, "r 0EF0H")):
        b.fill(0x5A, 0)
        b.fill_residue(first, step)
        b.put("S", 0x00, "P", 1, 0x0123, 0x00FF)
        b.read(0x0123, f"{note}, on the last cycle", vpp=0)
        b.write(0, 0xFF)
        b.read(0x0123)
    b.put("S", 0x00, "P", 1, 0x1FFFF, 0x1234)
    b.write(0, 0xFF, "the last word", vpp=0)
    b.read(0x1FFFF)
    b.read(0x1FFFE)


def erase_cuts(b):  # R-cycle-7, R-number-6
    b.group("cute", "cut erases: the residue's bytes of the block in both widths, one short, one more")
    for word in (1, 0):
        large_bench(b, 5, word)
        for k, mark, how, pins in ((1, "E", "RP#", dict(rp=0)), (2, "U", "VPP", dict(vpp=1500)), (0, "S", "both", dict(rp=0, vpp=0))):
            length = BLOCKS[5][k][1] - BLOCKS[5][k][0] + 1
            status = {"E": 0x10, "U": 0x00, "S": 0xE0}[mark]
            for rest in (length // 2, length - 2, length - 1, length, length + 1):
                b.use(5, 2, 3, residue=rest, word=word)
                b.put("S", status, mark, 2, edges(b, k)[1], 1 if mark == "U" else 0)
                b.idle(f"block {k}, {mark}, cut by {how}, residue of {rest}", **pins)
    large_bench(b, 6, 1)
    b.put("A", 0xC0, "S", 2, edges(b, 4)[0])
    b.read(edges(b, 4)[1], "suspended, read in the block as VPP falls: status", vpp=0)
    b.put("S", 0x00, "E", 3, edges(b, 3)[0])
    b.read(edges(b, 3)[1], "erasing, a read as RP# falls: no data", rp=0)


def large_together(b):  # R-cycle-4, R-cycle-5
    b.group("togw", "a cut, or the last busy cycle, and a write in one cycle, in word mode")
    large_bench(b, 5, 1)
    there = edges(b, 1)[0] + 7
    busy = (
        ("program", dict(mode="S", status=0x00, phase="P", left=1, address=0x0011, data=0x0FF0)),
        ("erase", dict(mode="S", status=0x00, phase="E", left=1, address=there)),
    )
    for how, pins in (("cut by VPP", dict(vpp=0)), ("ends", dict(vpp=5000))):
        for name, state in busy:
            for data in LARGE_COMMANDS:
                b.put(**state)
                b.write(0x0200, data, f"{name} {how} and {data:02X}H", **pins)


def block_edges(b):  # R-part-4
    b.group("edge", "the first and the last unit of each block: an erase that ends, one that is cut, a program at each")
    for number, word in BOTH:
        large_bench(b, number, word)
        for k in range(len(BLOCKS[number])):
            first, last = edges(b, k)
            b.put("S", 0x00, "E", 1, first)
            b.idle(f"{named(number, word)}, block {k}, erase at {first:05X}H")
            b.put("S", 0x00, "E", 1, last)
            b.idle(f"cut at {last:05X}H", rp=0)
            for address in (first, last):
                b.put("S", 0x00, "P", 1, address, 0xA55A if word else 0x5A)
                b.idle(f"program at {address:05X}H")
    b.group("side", "the lock at both ends of the boot block and beside it, devices 5 to 8")
    for number, word in BOTH:
        b.use(number, 1, 1, word=word)
        first, last = edges(b, 0)
        for address in (first - 1 if first else last + 1, first, last):
            b.put("S", 0x80, "D")
            b.write(address, 0x00, f"{named(number, word)}, {address:05X}H")


def large_devices(b):  # R-part-6, R-part-7, R-number-1, R-number-2
    b.group("devw", "devices 5 to 8 and word mode: busy times and lengths in bytes")
    for number in (0, 1, 2, 3, 4, 9, 255):
        b.use(number, 2, 3, word=1)
        b.put("A", 0x80, "F")
        b.write(0, 0xFF, f"{named(number, 1)}: no device")
        b.idle("with RP# low", rp=0)
    for number, word in ((5, 0), (8, 1)):
        for program, erase, suspend in ((0, 3, 1), (2, 0, 1), (2, 3, 0), (2, 3, 101), (1, 1, 100), (65535, 65535, 1)):
            b.use(number, program, erase, suspend=suspend, word=word)
            b.put("A", 0x80, "F")
            b.write(0, 0xFF, f"{named(number, word)}: P {program}, E {erase}, S {suspend}")
    for number, word in BOTH:
        size = SIZE[number]
        for array in (0, size // 2, size - 2, size - 1, size, size + 1 if size < 524288 else 524289, 131072, 786432 - size):
            b.use(number, 2, 3, array=array, word=word)
            b.put("A", 0x80, "F")
            b.idle(f"{named(number, word)}, array of {array}")


def large_past(b):  # R-number-5
    b.group("pstw", "addresses past the array, in units")
    for number, word in BOTH:
        b.use(number, 2, 3, word=word)
        past = SIZE[number] // width(b.device)
        b.put("A", 0x80, "F")
        b.read(past - 1, f"{named(number, word)}: the last unit")
        b.read(past, "one past")
        b.write(past, 0xFF, "a command there")
        b.read(2 * past - 1, "as a byte address it would be the last of twice as many")
        b.idle("idle", address=past, data=0xFFFF)
    large_bench(b, 5, 1)
    b.put("S", 0x80, "F")
    b.read(0x20000, "a status read")
    b.put("S", 0x80, "D")
    b.write(0x20000, 0x00, "data: still awaited")
    b.put("S", 0x00, "E", 1, 0x11)
    b.read(0x20000, "the last busy cycle: the count stays")
    b.read(0x20000, "RP# low: not tested", rp=0)


def large_states(b):  # R-proper-1
    b.group("stwd", "states of devices 5 to 8, proper and not: addresses in units")
    for number, word in BOTH:
        b.use(number, 2, 3, word=word, residue=0)
        past = SIZE[number] // width(b.device)
        for address in (past - 1, past, 2 * past - 1):
            b.put("S", 0x00, "E", 2, address)
            b.idle(f"{named(number, word)}: an erase at {address:05X}H")
            b.put("S", 0x00, "P", 2, address, 0xFF)
            b.idle("a program")
    b.use(5, 2, 3, word=1)
    states = (
        ("free with SR.7 clear", ("A", 0x00, "F")), ("free with SR.6", ("A", 0xC0, "F")), ("free with SR.0", ("A", 0x81, "F")),
        ("free with an address", ("A", 0x80, "F", 0, 1)), ("free with cycles to go", ("A", 0x80, "F", 1, 0)),
        ("confirm awaited, mode array", ("A", 0x80, "C")), ("data awaited, mode identifier", ("I", 0x80, "D")),
        ("program with 0 to go", ("S", 0x00, "P", 0, 0x11, 0xFFFF)), ("program with P + 1 to go", ("S", 0x00, "P", 3, 0x11, 0xFFFF)),
        ("erase with E + 1 to go", ("S", 0x00, "E", 4, 0x11)), ("erase with SR.7", ("S", 0x80, "E", 3, 0x11)),
        ("being suspended, 0 to go", ("S", 0x00, "U", 3, 0x11, 0)), ("being suspended, S + 1 to go", ("S", 0x00, "U", 3, 0x11, 2)),
        ("suspended, mode identifier", ("I", 0xC0, "S", 3, 0x11)), ("suspended, proper", ("A", 0xC0, "S", 3, 0x11)),
        ("a program of FFFFH, proper", ("S", 0x38, "P", 2, 0x11, 0xFFFF)),
    )
    for note, state in states:
        b.put(*state)
        b.idle(note)


def large_order(b):  # R-number-0, R-order-1
    b.group("ordw", "the lowest number that applies, in word mode")
    b.use(5, 2, 3, residue=1, word=1)
    program = dict(mode="S", status=0x00, phase="P", left=2, address=0x0011, data=0x0F0F)
    b.put(**program)
    b.write(0x20000, 0x00, "5 before 6 and 7", vpp=0)
    b.write(0x0000, 0x00, "6 before 7: one byte is too short", vpp=0)
    b.write(0x20000, 0x00, "4 before 5", vpp=1501)
    b.write(0x20000, 0x00, "4 by WP#", wp=2)
    b.write(0x20000, 0x00, "4 by OE#", oe=1)
    b.write(0x20000, 0x00, "RP# low: 6, the address is not tested", rp=0)
    b.idle("idle: 6", vpp=0, address=0x20000)
    b.write(0x0000, 0x00, "no cut: no residue is needed")
    b.use(4, 2, 3, array=0, residue=0, word=1)
    b.put("A", 0x00, "F")
    b.read(MOST, "1 before 2, 3, 4 and 5: word mode on device 4", rp=9)
    b.use(5, 2, 3, array=262143, residue=0, word=1)
    b.read(MOST, "2 before 3, 4 and 5", rp=9)
    b.use(5, 2, 3, residue=0, word=1)
    b.read(MOST, "3 before 4 and 5", wp=2)
    b.put("I", 0x80, "F")
    b.read(MOST, "4 before 5 and 9", wp=2)
    b.read(MOST, "5 before 9")
    b.read(2, "9")
    b.put("S", 0x80, "F")
    b.write(0, 0x0110, "10H is a command, whatever is above it")
    b.put("S", 0x80, "F")
    b.write(0, 0x1001, "7")
    b.put("A", 0xC0, "S", 3, 0x1D011)
    b.read(0x20000, "suspended: 5")
    b.read(0x1D011, "6 before 8", vpp=0)
    b.read(0x1D011, "8")


def each_refusal(b):  # R-number-1 to R-number-9, R-cycle-8
    b.group("each", "refusals 1 to 9, each on each of devices 5 to 8 in both widths")
    for number, word in BOTH:
        size, name = SIZE[number], named(number, word)
        for program, erase, suspend in ((0, 3, 1), (2, 0, 1), (2, 3, 0), (2, 3, 101)):
            b.use(number, program, erase, suspend=suspend, word=word)
            b.put("A", 0x80, "F")
            b.idle(f"{name}: 1 by P {program}, E {erase}, S {suspend}")
        b.use(number, 2, 3, array=size - 1, word=word)
        b.idle("2 by one byte")
        b.use(number, 2, 3, word=word)
        first, last = edges(b, 1)
        b.put("S", 0x80, "E", 1, first)
        b.idle("3 by SR.7")
        b.put("A", 0x80, "F")
        for how, pins in (("VPP", dict(vpp=9000)), ("OE#", dict(oe=1)), ("WP#", dict(wp=2)), ("RP#", dict(rp=3))):
            b.write(first, 0x70, f"4 by {how}", **pins)
        b.write(size // width(b.device), 0x70, "5 by one unit")
        for data in (0x00, 0xD0, 0x60):
            b.write(first, data, f"7 by {data:02X}H")
        b.put("A", 0xC0, "S", 1, first)
        b.read(last, "8 at the block's last unit")
        b.read(last + 1, "and none beside it")
        b.put("I", 0x80, "F")
        b.read(4, "9 at 4")
        b.use(number, 2, 3, residue=width(b.device) - 1, word=word)
        b.put("S", 0x00, "P", 1, first, 0x5A)
        b.idle("6 of a program by one byte", rp=0)
        b.use(number, 2, 3, residue=8191, word=word)
        b.put("S", 0x00, "E", 1, first)
        b.idle("6 of an erase by one byte", vpp=1500)


def large_suspended(b):  # R-suspended-2, R-busy-2
    b.group("susw", "reads while suspended: the block in units, and S cycles")
    for word in (1, 0):
        large_bench(b, 5, word, suspend=2)
        first, last = edges(b, 1)
        b.put("S", 0x00, "E", 3, first + 0x11)
        b.write(0, 0xB0, "B0H counts off the erase")
        b.write(0, 0xD0, "D0H meanwhile is ignored")
        b.read(first, "status: C0H")
        b.write(0, 0xFF, "array")
        for address in (first - 1, first, first + 0x11, last, last + 1, 0):
            b.read(address, f"at {address:05X}H")
        b.write(0, 0xD0, "resumed", vpp=5000)
        b.read(first, vpp=12000)
        b.read(last, "finished", vpp=5000)


def large_times(b):  # R-part-5
    b.group("busy", "busy times of 1 and of 65,535 in word mode")
    large_bench(b, 5, 1, 1, 1)
    b.fresh("P 1 and E 1")
    b.write(0x0777, 0x10)
    b.write(0x0777, 0x8118)
    b.read(0x0777)
    b.write(0x0777, 0x20)
    b.write(edges(b, 1)[1], 0xD0)
    b.write(0, 0xB0, "1 to go: the erase ends, and B0H sets read array")
    b.read(edges(b, 1)[1])
    b.read(0x0777)
    large_bench(b, 6, 1, 65535, 65535, 100)
    b.fresh("P and E 65,535, S 100")
    b.write(0x7777, 0x40)
    b.write(0x7777, 0x8118)
    b.read(0x7777)
    b.put("S", 0x00, "P", 1, 0x7777, 0x8118)
    b.read(0x7777)
    b.write(0x7777, 0x20)
    b.write(0x7777, 0xD0)
    b.write(0x7777, 0xB0)
    b.idle("one of the 100")


# ---------------------------------------------------------------- the cases of wear

SOME = (11, 22, 33, 44, 55, 66, 77)  # every count nonzero and none like another: one at a wrong place shows
ALL = tuple((number, 0) for number in (1, 2, 3, 4)) + BOTH


def wear_bench(b, number, word, erase=3):
    """A part of any device, with both patterns."""
    b.use(number, 2, erase, word=word)
    b.fill(200, 3)
    b.fill_residue(17, 5)


def near(block, count):
    """Counts as in SOME, but this one at a block."""
    return tuple(count if k == block else n for k, n in enumerate(SOME))


def beside(b, block):
    """Another block of the part."""
    return (block + 1) % len(BLOCKS[b.device.number])


def held_to(b, wear):
    """What the request says of the counts, without the model of the first half."""
    assert b.state.wear == tuple(wear), (b.rows[-1], b.state.wear, wear)


def begun(b, block, address, note, **pins):
    """20H in another block, and D0H at an address of this one, unlocked: counted in D0H's own cycle."""
    before = b.state.wear
    b.write(edges(b, beside(b, block))[0], 0x20, "20H in another block: nothing is counted")
    held_to(b, before)
    b.write(address, 0xD0, note, rp=2, **pins)
    held_to(b, (min(n + 1, STOP) if k == block else n for k, n in enumerate(before)))


def to_the_stop(b):  # R-wear-1
    b.group("wear", "each block of each part: one before the stop, at the stop, ended, cut; the block is that of D0H's address")
    for number, word in ALL:
        wear_bench(b, number, word, 1)
        for k in range(len(BLOCKS[number])):
            first, last = edges(b, k)
            b.worn(near(k, STOP - 1))
            b.put("S", 0x80, "F")
            begun(b, k, first, f"{named(number, word)}, block {k}, {first:05X}H: up to the stop")
            b.idle("ended: not counted once more")
            begun(b, k, last, f"{last:05X}H: it stays at the stop")
            b.idle("cut: not counted once more", **(dict(vpp=0) if (k + number + word) % 2 else dict(rp=0)))
            held_to(b, near(k, STOP))


def not_started(b):
    """Confirms that start nothing, and all else that is written: no count moves. (R-wear-1, R-second-3)"""
    boot, there = edges(b, 0)[1], edges(b, 1)[0]
    low_supply = 1500 if b.device.number > 4 else 6500
    b.put("S", 0x80, "F")
    b.write(there, 0x20, "20H alone")
    b.idle("is not counted")
    b.write(there, 0xD0, "a confirm at low VPP", vpp=low_supply)
    b.write(there, 0x20, "SR.3 is still set")
    b.write(there, 0xD0, "and bars the confirm")
    b.write(there, 0x50, "50H")
    b.write(boot, 0x20, "the boot block")
    b.write(boot, 0xD0, "locked")
    b.write(boot, 0x20, "locked, and VPP low")
    b.write(boot, 0xD0, vpp=0)
    b.write(boot, 0x50)
    b.write(there, 0x20, "20H and a wrong confirm")
    b.write(there, 0x20)
    b.write(there, 0x40, "40H, and D0H as data: a program")
    b.write(there, 0xD0)
    b.write(there, 0xD0, "D0H while it programs")
    b.idle("the program ends")
    b.write(there, 0xD0, "D0H at rest: refused 7")
    b.write(there, 0x20, "20H, and D0H as RP# is low: nothing starts")
    b.write(there, 0xD0, rp=0)
    held_to(b, SOME)


def refused_first(b):
    """A confirm that is refused is not counted, and the one that is then taken is. (R-wear-1, R-cycle-8)"""
    there = edges(b, 1)[0]
    past_end = SIZE[b.device.number] // width(b.device)
    b.write(edges(b, 2)[0], 0x20, "20H in block 2")
    b.write(there, 0xD0, "refused 4: VPP between the bands", vpp=9000)
    b.write(past_end, 0xD0, "refused 5: past the array")
    b.write(past_end, 0xD0, "refused 4: RP# low as well", rp=0, vpp=9000)
    held_to(b, SOME)
    b.write(there, 0xD0, "D0H in block 1: counted there, once")
    held_to(b, near(1, 23))


def goes_on(b):
    """What becomes of an erase that is counted: suspended, resumed twice, cut, ended, the next begun; after each the counts. (R-wear-1)"""
    there = edges(b, 1)[0]
    for again in ("", " again"):
        b.write(there, 0xB0, f"suspended{again}")
        b.write(there, 0xD0, f"resumed{again}: not counted")
    b.read(there, "ended: not counted")
    b.reset("what RP# low makes of it keeps the counts")
    held_to(b, near(1, 23))
    b.write(there, 0x20, "an erase of block 2")
    b.write(edges(b, 2)[1], 0xD0, "counted")
    b.write(there, 0xB0)
    b.idle("suspended, and cut by RP#: not counted", rp=0)
    b.put("S", 0x00, "E", 1, there)
    b.write(there, 0x20, "an erase ends as 20H comes")
    b.write(there, 0xD0, "and the next one is counted")
    held_to(b, near(1, 23))
    b.write(there, 0x20, "cut by VPP as 20H comes", vpp=0)
    b.write(there, 0xD0, "the confirm is barred by SR.3: not counted")
    held_to(b, near(1, 23))


def kept_or_counted(b):  # R-wear-1
    b.group("kept", "each part: what is not counted (20H, barred, locked, refused, resumed, ended, cut, reset) and what is")
    for number, word in ALL:
        wear_bench(b, number, word)
        b.worn(SOME)
        b.fresh(f"{named(number, word)}, fresh: all counts 0")
        held_to(b, UNWORN)
        not_started(b)
        refused_first(b)
        goes_on(b)


def from_zero(b):  # R-wear-1, R-wear-3
    b.group("zero", "each part: erases from a fresh device on, block 0 once, block 1 twice")
    for number, word in ALL:
        b.use(number, 2, 1, word=word)
        b.fill(200, 3)
        b.fresh(named(number, word))
        for block in (0, 1, 1):
            begun(b, block, edges(b, block)[1], f"an erase of block {block}")
            b.idle("ended")
        held_to(b, (1, 2, 0, 0, 0, 0, 0))


def any_count(b):  # R-wear-1, R-proper-1
    b.group("any ", "any count is proper, and none makes an improper state proper")
    for number, word in ALL:
        b.use(number, 2, 3, word=word)
        there = edges(b, 1)[0]
        for wear in ((STOP,) * 7, (0, STOP, 0, STOP, 0, STOP, 0)):
            b.worn(wear)
            b.put("S", 0x00, "E", 2, there)
            b.idle(f"{named(number, word)}: proper")
            b.put("S", 0x80, "E", 2, there)
            b.idle("refused 3")
            b.reset("and its reset")
            held_to(b, wear)
    b.worn(SOME)


OLD_PARTS = (
    cards, commands, last_cycle, modes, bands, locks, barred, times, cuts, together, order, rp_low, past,
    suspended, suspending, suspend_at_rest, identifiers, residues, improper, blocks, devices, levels,
)
NEW_PARTS = (
    large_cards, large_commands, ten, high_bytes, status_reads, large_bands, band_changes, large_identifiers, write_protect, output_enable,
    large_locks, word_cuts, erase_cuts, large_together, block_edges, large_devices, large_past, large_states, large_order, each_refusal,
    large_suspended, large_times,
)
WEAR_PARTS = (to_the_stop, kept_or_counted, from_zero, any_count)


def all_cases():
    b = Bench()
    b.worn(SOME)
    for part in OLD_PARTS + NEW_PARTS + WEAR_PARTS:
        part(b)
    return b


def files_differ(crate, b):
    """The files of the program that are not what this script prints."""
    folder = pathlib.Path(__file__).resolve().parent.parent / "crates" / crate
    wanted = {"stdin": b.rows, "stdout": b.lines}
    return [name for name, lines in wanted.items() if (folder / name).read_text() != "\n".join(lines) + "\n"]


def called(crate, cases, usage):
    """What a script of vectors does when it is called: print the table, print the expected lines, or check the stored files."""
    asked = sys.argv[1:]
    if asked == ["table"]:
        print("\n".join(cases().rows))
    elif asked == ["expected"]:
        print("\n".join(cases().lines))
    elif asked == ["check"]:
        differ = files_differ(crate, cases())
        if differ:
            sys.exit(f"{crate}: not what the script prints: " + ", ".join(differ))
        print(f"{crate}: stdin and stdout are what the script prints")
    else:
        sys.exit(usage)


if __name__ == "__main__":
    called("vectors_model", all_cases, __doc__)
