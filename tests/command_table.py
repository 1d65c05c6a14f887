#!/usr/bin/env python3
"""The command rules as a table: 256 bytes in seven states, each entry an action number.

    python3 tests/command_table.py make      writes the table in crates/command_table (src/lib.rt and specs/Table.antt) and the page
    python3 tests/command_table.py check     whether they are what the script writes
    python3 tests/command_table.py page      prints the page, docs/COMMANDS.md
    python3 tests/command_table.py picture   prints its picture, docs/commands.svg

The rules here are written from document 01 and share nothing with the crates. In src/lib.rt the table stands between the lines that
begin and end the constant COMMANDS, in specs/Table.antt it is the last definition."""
import pathlib
import sys

ROOT = pathlib.Path(__file__).resolve().parent.parent
CODE, SPEC = ROOT / "crates/command_table/src/lib.rt", ROOT / "crates/command_table/specs/Table.antt"
PAGE, PICTURE = ROOT / "docs/COMMANDS.md", ROOT / "docs/commands.svg"
CODE_HEAD, CODE_TAIL = "const COMMANDS: [[u8; 16]; 112] = [\n", "];\n"
SPEC_HEAD = "unfoldable pub command_table : List (List ℕ)\ncommand_table =\n"

# Each action number, and what it says on the page. The first four stand in most places and have one digit.
(REFUSE, IGNORE, STORE, WRONG_SECOND, TO_ARRAY, TO_IDENTIFIER, TO_STATUS, CLEAR, AWAIT_ERASE, AWAIT_DATA, AWAIT_DATA_LARGE, CONFIRM, SUSPEND,
 RESUME) = range(14)
WORDS = {
    REFUSE: "refused (7)",
    IGNORE: "ignored",
    STORE: "data: the program starts",
    WRONG_SECOND: "wrong second write",
    TO_ARRAY: "read array",
    TO_IDENTIFIER: "read identifier",
    TO_STATUS: "read status",
    CLEAR: "SR.5, SR.4 and SR.3 cleared",
    AWAIT_ERASE: "erase awaited",
    AWAIT_DATA: "program awaited",
    AWAIT_DATA_LARGE: "5 to 8: program awaited; else refused (7)",
    CONFIRM: "confirm: the erase starts",
    SUSPEND: "the suspend starts",
    RESUME: "the erase goes on",
}

# The seven states in the table's order: the name, what a byte does that no entry names, and the bytes that do something else.
STATES = [
    ("idle", REFUSE, {
        0xFF: TO_ARRAY, 0xB0: TO_ARRAY, 0x90: TO_IDENTIFIER, 0x70: TO_STATUS, 0x50: CLEAR, 0x20: AWAIT_ERASE, 0x40: AWAIT_DATA,
        0x10: AWAIT_DATA_LARGE,
    }),
    ("erase awaited", WRONG_SECOND, {0xD0: CONFIRM}),
    ("program awaited", STORE, {}),
    ("program busy", IGNORE, {}),
    ("erase busy", IGNORE, {0xB0: SUSPEND}),
    ("suspending", IGNORE, {0x70: TO_STATUS}),
    ("suspended", IGNORE, {0xFF: TO_ARRAY, 0x70: TO_STATUS, 0xD0: RESUME}),
]


def rows():
    """The table's 112 lines of 16 entries, each with its state and the line's number in it."""
    for name, rest, others in STATES:
        for high in range(16):
            yield name, high, [others.get(16 * high + low, rest) for low in range(16)]


def in_code():
    """The constant's inside."""
    return "".join(
        f"    [{', '.join(map(str, row))}], // {name}, {high:X}0H to {high:X}FH\n" for name, high, row in rows())


def in_spec():
    """The same as a list of lines."""
    return "".join(f"    ({' ∷ '.join(map(str, row))} ∷ []) ∷  -- {name}, {high:X}0H to {high:X}FH\n"
                   for name, high, row in rows()) + "    []\n"


def with_code(text):
    """The code's file with the table in it."""
    before, rest = text.split(CODE_HEAD)
    return before + CODE_HEAD + in_code() + CODE_TAIL + rest.split("\n" + CODE_TAIL, 1)[1]


def with_spec(text):
    """The definitions' file with the list in it."""
    return text.split(SPEC_HEAD)[0] + SPEC_HEAD + in_spec()


def page():
    """The board designer's page."""
    named = sorted({b for _, _, others in STATES for b in others})
    lines = [
        "# What a write does",
        "",
        "The table of R-table-1, made from crates/command_table by tests/command_table.py; the gate compares it. Of what a write carries, "
        "the low",
        "byte is the command; the state is the one that steps 2 and 3 of the cycle leave. The number in brackets is the refusal's.",
        "",
        "| byte | " + " | ".join(name for name, _, _ in STATES) + " |",
        "|---|" + "---|" * len(STATES),
    ]
    for b in named:
        lines.append(f"| {b:02X}H | " + " | ".join(WORDS[others.get(b, rest)] for _, rest, others in STATES) + " |")
    lines.append("| every other byte | " + " | ".join(WORDS[rest] for _, rest, _ in STATES) + " |")
    return "\n".join(lines) + """

- *read array*, *read identifier*, *read status*: what reads give from now on; the state stays.
- *5 to 8*: on these devices; on 1 to 4 it is refused.
- *the program starts*, *the erase starts*: at this cycle's address. With VPP low or SR.3 still set nothing starts, and SR.3 and the
  error bit (SR.4 of a program, SR.5 of an erase) are set; in a locked boot block nothing starts, and the error bit is set. The device is
  idle then.
- *data*: all bits that the cycle carries, 16 in word mode.
- *wrong second write*: SR.5 and SR.4 are set, the device is idle, and what reads give is as it was.
- *ignored*: nothing comes of the write.
- *refused*: the write has not happened.
- A cycle with RP# low is heard as no command in any state.

![Seven states and what leads from one to the other](commands.svg)

A whole line is a write, a broken line the end of the operation's or the suspend's own time. Not drawn: RP# low leads to idle from every
state, VPP low ends what runs, is being suspended or is suspended, and a start that VPP, SR.3 or a locked boot block forbids leads to
idle.
"""


# The picture: where each state stands, which state an action leads to, and the ends of an operation's time.
PLACES = {
    "idle": (120, 190), "erase awaited": (400, 60), "erase busy": (680, 60), "suspending": (960, 60), "suspended": (960, 190),
    "program awaited": (400, 320), "program busy": (680, 320),
}
LEADS = {
    STORE: "program busy", WRONG_SECOND: "idle", AWAIT_ERASE: "erase awaited", AWAIT_DATA: "program awaited",
    AWAIT_DATA_LARGE: "program awaited",
    CONFIRM: "erase busy", SUSPEND: "suspending", RESUME: "erase busy",
}
TIMES = [("program busy", "idle", "P cycles over"), ("erase busy", "idle", "E cycles over"), ("suspending", "suspended", "S cycles over")]


def arrows():
    """From, to, words: every entry that leads to another state, and the ends of an operation's time."""
    for name, rest, others in STATES:
        there = {}
        for b in sorted(others):
            if others[b] in LEADS:
                there.setdefault(LEADS[others[b]], []).append(f"{b:02X}H" + (" (devices 5 to 8)" if others[b] == AWAIT_DATA_LARGE else ""))
        for to, which in there.items():
            yield name, to, ", ".join(which), ""
        if rest in LEADS:
            yield name, LEADS[rest], "any other byte" if others else "any data", ""
    for name, to, words in TIMES:
        yield name, to, words, ' stroke-dasharray="6 4"'


def picture():
    """Seven boxes and their arrows."""
    out = [
        '<svg xmlns="http://www.w3.org/2000/svg" viewBox="0 0 1080 380" font-family="sans-serif" font-size="13">',
        '<defs><marker id="tip" viewBox="0 0 10 10" refX="10" refY="5" markerWidth="9" markerHeight="9" orient="auto">'
        '<path d="M0 0L10 5L0 10z"/></marker></defs>',
        '<rect width="1080" height="380" fill="white"/>',
    ]
    drawn = list(arrows())
    for name, to, words, dash in drawn:
        (x0, y0), (x1, y1) = PLACES[name], PLACES[to]
        dx, dy = x1 - x0, y1 - y0
        far = (dx * dx + dy * dy) ** 0.5
        # two arrows between the same states stand apart, each to its own right
        apart = 14 if any(f == to and t == name for f, t, _, _ in drawn) else 0
        x0, x1, y0, y1 = x0 - dy / far * apart, x1 - dy / far * apart, y0 + dx / far * apart, y1 + dx / far * apart
        cut = min(74 / abs(dx) if dx else 9, 26 / abs(dy) if dy else 9)
        ax, ay, bx, by = x0 + dx * cut, y0 + dy * cut, x1 - dx * cut, y1 - dy * cut
        out.append(f'<line x1="{ax:.0f}" y1="{ay:.0f}" x2="{bx:.0f}" y2="{by:.0f}" stroke="black" marker-end="url(#tip)"{dash}/>')
        part = 0.5 if not apart else 0.42
        out.append(f'<text x="{ax + (bx - ax) * part:.0f}" y="{ay + (by - ay) * part - 5:.0f}" text-anchor="middle" '
                   f'stroke="white" stroke-width="4" paint-order="stroke">{words}</text>')
    for name, (x, y) in PLACES.items():
        out.append(f'<rect x="{x - 70}" y="{y - 22}" width="140" height="44" rx="8" fill="#eef" stroke="black"/>')
        out.append(f'<text x="{x}" y="{y + 5}" text-anchor="middle">{name}</text>')
    return "\n".join(out) + "\n</svg>\n"


# Each file and what it should be, from what it is.
FILES = ((CODE, with_code), (SPEC, with_spec), (PAGE, lambda old: page()), (PICTURE, lambda old: picture()))


def main(words):
    if words == ["make"]:
        for path, made in FILES:
            path.write_text(made(path.read_text() if path.exists() else ""))
        return 0
    if words == ["check"]:
        wrong = [path.relative_to(ROOT) for path, made in FILES if not path.exists() or path.read_text() != made(path.read_text())]
        for path in wrong:
            print(f"{path} is not what tests/command_table.py writes")
        return 1 if wrong else 0
    if words in (["page"], ["picture"]):
        sys.stdout.write(page() if words == ["page"] else picture())
        return 0
    print(__doc__)
    return 2


if __name__ == "__main__":
    sys.exit(main(sys.argv[1:]))
