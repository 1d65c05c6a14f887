#!/usr/bin/env python3
"""Comments as a person reads them.

    python3 tests/comments.py      names every fault, and ends with 1 where there is one

A fault is: a public definition of specs/ without a comment in the line above it, and a public item of src/ without one (attributes may
stand between); the sentence that a file assumes nothing, which docs/ARCHITECTURE.md says once for all; a comment of more than 140
characters, wherever it stands, a line of code in specs/ or src/ and a line of a paper that is longer. A row of a table in a paper may
be, and so may a line of a proof, and words in a script, which cannot be broken."""
import pathlib
import re
import sys

ROOT = pathlib.Path(__file__).resolve().parent.parent
MOST = 140
ONCE = "Assumes" + " nothing."
DEFINITION = re.compile(r" *(?:(?:unfoldable|abbrev) pub |pub (?:record |data )?(?!mod\b|use\b))([^\s:]+)")
ITEM = re.compile(r'pub (?:extern "C" )?(?:fn|struct|enum|const|static|type|trait) (\w+)')
METHOD = re.compile(r"    fn (\w+)")
OWN = re.compile(r"    pub fn (\w+)")
FIELDS = re.compile(r"( *)(?:pub )?(?:record|data) ")
TEXTS = ["*.md", "docs/**/*.md", "include/*.h", "crates.txt", "tests/**/*", "commands/**/*", "example/*", "bench/*", ".ci/run", "torfbarke"]
MARKS = {".py": "#", ".sh": "#", ".awk": "#", ".txt": "#", "": "#", ".c": ("/*", "* ", "//"), ".h": ("/*", "* ", "//"), ".md": ""}
faults = []


def lines(file):
    return file.read_text(encoding="utf-8").split("\n")


def told(above, mark):
    """Whether the line above is a comment; attributes are passed over."""
    while above and above[-1].lstrip().startswith("#["):
        above = above[:-1]
    return bool(above) and above[-1].lstrip().startswith(mark)


def definitions(file):
    """Each public definition of a file of specs/ that is no field of a record and no variant: its line and its name."""
    inside = None
    for at, line in enumerate(lines(file)):
        if inside is not None and line.strip() and len(line) - len(line.lstrip()) <= inside:
            inside = None
        found = DEFINITION.match(line) if inside is None else None
        if found:
            yield at, found.group(1)
        fields = FIELDS.match(line) if inside is None else None
        if fields:
            inside = len(fields.group(1))


def items(file):
    """Each public item of a file of src/, each method of a public trait and each public one of a type itself: its line and its name."""
    block = ""
    for at, line in enumerate(lines(file)):
        if line[:1].strip():
            block = line
        found = ITEM.match(line) or block.startswith("pub trait ") and METHOD.match(line) or block.startswith("impl") and OWN.match(line)
        if found:
            yield at, found.group(1)


def crates():
    """How many definitions and items there are; their faults, and those of every comment."""
    counted = [0, 0]
    for file in sorted((ROOT / "crates").rglob("*")):
        if file.suffix not in (".antt", ".rt") or file.relative_to(ROOT).parts[2] == "out":
            continue
        name, here, mark = file.relative_to(ROOT).as_posix(), lines(file), "--" if file.suffix == ".antt" else "//"
        for place, (folder, public) in enumerate((("/specs/", definitions), ("/src/", items))):
            for at, what in public(file) if folder in name else ():
                counted[place] += 1
                if not told(here[:at], mark):
                    faults.append(f"{name}:{at + 1}: {what} has no comment")
        for number, line in enumerate(here, 1):
            if ONCE in line:
                faults.append(f"{name}:{number}: '{ONCE}' is said once for all, in docs/ARCHITECTURE.md")
            if (line.lstrip().startswith(mark) or "/proofs/" not in name) and len(line) > MOST:
                faults.append(f"{name}:{number}: a line of {len(line)} characters")
    return counted


def papers():
    """How many papers, scripts and tests there are; their long lines."""
    found = sorted({file for pattern in TEXTS for file in ROOT.glob(pattern) if file.is_file() and file.suffix in MARKS})
    for file in found:
        for number, line in enumerate(lines(file), 1):
            if len(line) > MOST and not line.startswith("|") and line.lstrip().startswith(MARKS[file.suffix]):
                faults.append(f"{file.relative_to(ROOT).as_posix()}:{number}: a line of {len(line)} characters")
    return len(found)


def main():
    (specs, src), texts = crates(), papers()
    print("\n".join(faults + [f"comments: {specs} definitions, {src} items and {texts} texts, {len(faults)} faults"]))
    return 1 if faults else 0


sys.exit(main())
