#!/usr/bin/env python3
"""A replayed trace as waves, in plain text and without a library.

    python3 commands/lib/waves.py vcd NAME ANSWERS TRACE    a value change dump, which viewers of waveforms open
    python3 commands/lib/waves.py svg NAME ANSWERS TRACE    a picture of the first hundred cycles

TRACE is a file of lines of a trace, ANSWERS one of the trace program's answers to them; NAME is what the heading calls the trace. Every
value stands in a line or its answer. Where neither tells one it is x (not told) or z (nothing drives the bus).
"""
import sys

from picture import GREY, INK, PALE, RED, label, plain, sheet

# One cycle in units of the dump; and in the picture: cycles that are drawn, and in a row
UNIT, MOST, ACROSS = 100, 100, 20
# The dump's values: name, kind, bits, and what the comment says of it
SIGNALS = [
    ("line", "integer", 32, "the line of the trace"),
    ("kind", "reg", 8, "R, W or I (idle) as an ASCII letter"),
    ("rp_n", "reg", 4, "RP#: 0 low, 1 high, 2 V_HH"),
    ("oe_n", "reg", 4, "OE#: 0 normal, 1 V_HH"),
    ("wp_n", "wire", 1, "WP#: z, bench T has no such pin"),
    ("vpp_mv", "integer", 32, "VPP in millivolts"),
    ("address", "reg", 16, "x on an idle cycle, which has none"),
    ("data", "wire", 8, "what a write carries; what a read gave, from the cycle's middle on; z: nothing drives it; x: a refused read"),
    ("status", "reg", 8, "the status register, from the cycle's middle on as it is after the cycle; x before the first answer"),
    ("refusal", "reg", 8, "from the middle of a refused cycle to its end the number that refuses it; 0: none"),
]


class Cycle:
    """A line of a trace with its answer."""

    def __init__(self, line, answer):
        self.kind, rp, oe, vpp, address, data = line.split(" ")
        self.rp, self.oe, self.vpp = int(rp), int(oe), int(vpp)
        self.address = None if self.kind == "I" else int(address, 16)
        self.written = int(data, 16) if self.kind == "W" else None
        sort, value, status = answer.split(" ")
        self.read = int(value, 16) if sort == "D" else None
        self.refusal = int(value) if sort == "X" else 0
        self.status = int(status, 16)


def cycles(answers, trace):
    with open(answers, encoding="ascii") as told, open(trace, encoding="ascii") as lines:
        return [Cycle(line, answer) for line, answer in zip(lines.read().splitlines(), told.read().splitlines(), strict=True)]


def bits(value, width):
    """A value as the dump writes it; x and z stand for themselves."""
    if width == 1:
        return str(value)
    return "b" + (value if isinstance(value, str) else format(value, "b")) + " "


def starts(number, cycle):
    """What the bus shows from a cycle's start on."""
    return {"line": number, "kind": ord(cycle.kind), "rp_n": cycle.rp, "oe_n": cycle.oe, "vpp_mv": cycle.vpp,
            "address": "x" if cycle.address is None else cycle.address,
            "data": "z" if cycle.written is None else cycle.written, "refusal": 0}


def answered(cycle):
    """What it shows from the middle on."""
    shows = {"status": cycle.status, "refusal": cycle.refusal}
    if cycle.read is not None:
        shows["data"] = cycle.read
    elif cycle.refusal and cycle.kind == "R":
        shows["data"] = "x"
    return shows


def dump(name, found):
    """The value change dump: a header, then what changes, by its time."""
    signs = {signal[0]: chr(33 + i) for i, signal in enumerate(SIGNALS)}
    width = {signal[0]: signal[2] for signal in SIGNALS}
    now = {signal: "z" if signal == "wp_n" else "x" for signal in signs}
    out = ["$comment", f"    {plain(name).replace('$', '?')}, replayed on bench T. Line n lasts from time {UNIT} n to {UNIT} (n + 1).",
           "    The rules have no times: a unit of time stands for nothing.",
           *(f"    {signal}: {words}" for signal, _, _, words in SIGNALS), "$end", "$timescale 1 ns $end", "$scope module bench_t $end"]
    for signal, sort, size, _ in SIGNALS:
        span = f" [{size - 1}:0]" if size > 1 and sort != "integer" else ""
        out.append(f"$var {sort} {size} {signs[signal]} {signal}{span} $end")
    out += ["$upscope $end", "$enddefinitions $end", "#0", "$dumpvars", *(bits(now[s], width[s]) + signs[s] for s in signs), "$end"]
    for number, cycle in enumerate(found, 1):
        for time, shows in ((UNIT * number, starts(number, cycle)), (UNIT * number + UNIT // 2, answered(cycle))):
            changed = [s for s in shows if shows[s] != now[s]]
            now.update(shows)
            out += [f"#{time}", *(bits(now[s], width[s]) + signs[s] for s in changed)]
    return "\n".join([*out, f"#{UNIT * (len(found) + 1)}", ""])


# The colour of what comes from the part; the picture's measures, and its lanes from top to bottom
BLUE_INK = "#1f5fa8"
LEFT, WIDE, HIGH, HEAD = 110, 41, 27, 84
LANES = ["RP#", "OE#", "WP#", "VPP, mV", "cycle", "address", "data", "status", "refused"]


def box(x, y, words, colour):
    """A value of a bus: a box with two slanted sides."""
    top, bottom, middle = y + 4, y + HIGH - 5, y + HIGH / 2
    points = [(x, middle), (x + 4, top), (x + WIDE - 4, top), (x + WIDE, middle), (x + WIDE - 4, bottom), (x + 4, bottom)]
    path = " ".join("%.1f,%.1f" % point for point in points)
    return [f'<polygon points="{path}" fill="white" stroke="{colour}"/>',
            label(x + WIDE / 2, middle + 4, words, "middle", colour, 11)]


def rest(x, y, across=1):
    """Nothing drives the bus."""
    middle = y + HIGH / 2
    return [f'<line x1="{x:.1f}" y1="{middle:.1f}" x2="{x + across * WIDE:.1f}" y2="{middle:.1f}" stroke="{GREY}" stroke-dasharray="2 3"/>']


def levels(x, y, found):
    """A line at a height for each cycle, from 0 below to 1 above, and the word of each value where it changes."""
    points, parts, before = [], [], None
    for i, (height, word) in enumerate(found):
        at = y + HIGH - 5 - height * (HIGH - 9)
        points += [(x + i * WIDE, at), (x + (i + 1) * WIDE, at)]
        if word != before:
            parts.append(label(x + i * WIDE + 3, at + (10 if height > 0.4 else -4), word, "start", GREY, 9))
        before = word
    path = " ".join("%.1f,%.1f" % point for point in points)
    return [f'<polyline points="{path}" fill="none" stroke="{INK}" stroke-width="1.5"/>', *parts]


def named(value, words):
    """The height of a level, and its word; a digit that is none of them stands for itself."""
    return min(value / (len(words) - 1), 1), words[value] if value < len(words) else str(value)


def values(x, y, cycle):
    """The buses of one cycle, a lane each."""
    lane = [y + i * HIGH for i in range(len(LANES))]
    parts = box(x, lane[4], {"R": "read", "W": "write", "I": "idle"}[cycle.kind], INK)
    parts += rest(x, lane[5]) if cycle.address is None else box(x, lane[5], "%04X" % cycle.address, INK)
    if cycle.written is not None:
        parts += box(x, lane[6], "%02X" % cycle.written, INK)
    elif cycle.read is not None:
        parts += box(x, lane[6], "%02X" % cycle.read, BLUE_INK)
    elif cycle.refusal and cycle.kind == "R":
        parts += box(x, lane[6], "?", GREY)
    else:
        parts += rest(x, lane[6])
    parts += box(x, lane[7], "%02X" % cycle.status, BLUE_INK)
    return parts + (box(x, lane[8], str(cycle.refusal), RED) if cycle.refusal else [])


def row(top, first, found):
    """A row of cycles: grid and numbers, the levels, the buses."""
    bottom = top + len(LANES) * HIGH
    parts = [label(LEFT - 10, top + i * HIGH + HIGH / 2 + 4, name, "end") for i, name in enumerate(LANES)]
    for i, cycle in enumerate(found):
        x = LEFT + i * WIDE
        parts.append(f'<line x1="{x}" y1="{top - 12}" x2="{x}" y2="{bottom}" stroke="{PALE}"/>')
        parts.append(label(x + WIDE / 2, top - 4, str(first + i), "middle", GREY, 11))
        if cycle.refusal:
            parts.append(f'<rect x="{x}" y="{top}" width="{WIDE}" height="{bottom - top}" fill="{RED}" fill-opacity="0.07"/>')
    parts += levels(LEFT, top, [named(cycle.rp, ("low", "high", "V_HH")) for cycle in found])
    parts += levels(LEFT, top + HIGH, [named(cycle.oe, ("normal", "V_HH")) for cycle in found])
    parts += rest(LEFT, top + 2 * HIGH, len(found)) + [label(LEFT + 3, top + 2 * HIGH + 10, "bench T has none", "start", GREY, 9)]
    parts += levels(LEFT, top + 3 * HIGH, [(min(cycle.vpp / 12600, 1), str(cycle.vpp)) for cycle in found])
    for i, cycle in enumerate(found):
        parts += values(LEFT + i * WIDE, top, cycle)
    return parts


def drawn(name, found):
    """The picture: rows of twenty cycles."""
    some = found[:MOST]
    told = f"cycles 1 to {len(some)} of {len(found):,}" if some else "no cycle"
    parts = [label(LEFT, 34, f"{plain(name)} on bench T: {told}", size=17, weight="bold"),
             label(LEFT, 56, "black: from the host; blue: from the part, the status register as it is after the cycle; red: refused by "
                   "this number, it has not happened", colour=GREY, size=11)]
    tall = len(LANES) * HIGH + 40
    for i in range(0, len(some), ACROSS):
        parts += row(HEAD + 6 + i // ACROSS * tall, i + 1, some[i:i + ACROSS])
    return sheet(LEFT + ACROSS * WIDE + 30, HEAD + -(-len(some) // ACROSS) * tall + 10, parts)


def main(asked):
    if len(asked) != 4 or asked[0] not in ("vcd", "svg"):
        sys.exit(__doc__)
    found = cycles(asked[2], asked[3])
    sys.stdout.write((dump if asked[0] == "vcd" else drawn)(asked[1], found))


if __name__ == "__main__":
    main(sys.argv[1:])
