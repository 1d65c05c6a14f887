#!/usr/bin/env python3
"""Holds docs/REFERENCE.md against what it is about: each function of the header has a heading with its prototype, in the header's words and
order of arguments; each program on the page is a file of example/ref, byte for byte, each file is on the page and calls the functions of
its part of it; each number that is named is one of the header's; the words of the numbers are those of the crates.

    python3 tests/reference.py           names every difference, and ends with 1 where there is one
    python3 tests/reference.py write     puts prototypes, programs and words into the page as they are elsewhere
    python3 tests/reference.py prints    a line for each program: its name and what it prints by the page
"""
import pathlib
import re
import sys

ROOT = pathlib.Path(__file__).resolve().parent.parent
HEADER = (ROOT / "include/torfbarke.h").read_text()
PAGE = ROOT / "docs/REFERENCE.md"
PROGRAMS = ROOT / "example/ref"
HEADING = re.compile(r"^### (tb_\w+)\n\n```c\n(.*?)```$", re.M | re.S)
PROGRAM = re.compile(r"^Example `example/ref/(\w+)\.c`:\n\n```c\n(.*?)```\n\nPrints: `([^`]*)`$", re.M | re.S)
SHOWN = "Example `example/ref/{0}.c`:\n\n```c\n{1}```\n\nPrints: `{2}`"
ROW = re.compile(r"^\| (\d+) \| `(\w+)` \| (.*) \|$", re.M)

plain = re.sub(r"/\*.*?\*/", "", HEADER, flags=re.S)
declared = re.sub(r"static inline [^;{]*\{.*?\n\}", "", plain, flags=re.S)
prototypes = {m.group(1): m.group(0) + "\n" for m in re.finditer(r"^\w+ (tb_\w+)\([^)]*\);", declared, re.M)}
numbers = {int(n): name for name, n in re.findall(r"\b(TB_\w+) = (\d+)", re.search(r"enum \{\s*TB_OK = 0,.*?\};", plain, re.S).group(0))}


def words():
    """The words of each number, from the definitions."""
    lines = "".join((ROOT / "crates" / name / "specs/Words.antt").read_text() for name in ("c_words", "refusal_words"))
    told = {int(n): text for n, text in re.findall(r'if eqb n (\d+) then bytes "([^"]*)\\n"', lines) if text}
    told[9] = re.search(r'^cycle_line n =.*?else bytes "([^"]+)\\n"$', lines, re.M | re.S).group(1)
    return told


def written(page):
    page = HEADING.sub(lambda m: f"### {m.group(1)}\n\n```c\n{prototypes.get(m.group(1), '')}```", page)
    page = PROGRAM.sub(lambda m: SHOWN.format(m.group(1), (PROGRAMS / f"{m.group(1)}.c").read_text(), m.group(3)), page)
    head = page[:page.index("|---:|---|---|\n")] + "|---:|---|---|\n"
    return head + "".join(f"| {n} | `{numbers[n]}` | {text} |\n" for n, text in sorted(words().items()))


def faults(page):
    headings = dict(HEADING.findall(page))
    if list(headings) != [h for h in re.findall(r"^### (\w+)", page, re.M)]:
        yield "a heading without a prototype"
    for name in sorted(prototypes.keys() ^ headings.keys()):
        yield f"{name}: in the header or on the page, not in both"
    for name in sorted(prototypes.keys() & headings.keys()):
        if prototypes[name] != headings[name]:
            yield f"{name}: another prototype than the header's"
    files = {path.stem: path.read_text() for path in sorted(PROGRAMS.glob("*.c"))}
    shown = {name: text for name, text, _ in PROGRAM.findall(page)}
    for name in sorted(files.keys() ^ shown.keys()):
        yield f"example/ref/{name}.c: a file or on the page, not both"
    for name in sorted(files.keys() & shown.keys()):
        if files[name] != shown[name]:
            yield f"example/ref/{name}.c: other text than on the page"
    for part in re.split(r"^## ", page, flags=re.M)[1:]:
        program = " ".join(text for _, text, _ in PROGRAM.findall(part))
        for name in re.findall(r"^### (\w+)", part, re.M):
            if not re.search(rf"\b{name}\b", re.sub(r"/\*.*?\*/", "", program, flags=re.S)):
                yield f"{name}: no program beside it calls it"
    for name, told in re.findall(r"^### (\w+)\n\n```c\n.*?\*\*Numbers\*\*:(.*?)(?=\n\n)", page, re.M | re.S):
        for number in re.findall(r"(?<![-\w,])(\d+)(?![\w,]\d)(?! to)", re.sub(r"\([^)]*\)", "", told)):
            if int(number) not in numbers:
                yield f"{name}: {number} is no number of the header's"
    if page.count("**Numbers**:") != len(headings):
        yield "a function without its numbers"
    table = {int(n): (name, text) for n, name, text in ROW.findall(page)}
    if table != {n: (numbers.get(n), text) for n, text in words().items()}:
        yield "the words of the numbers are others than those of the crates"


def main():
    page = PAGE.read_text()
    if sys.argv[1:] == ["write"]:
        PAGE.write_text(written(page))
        return 0
    if sys.argv[1:] == ["prints"]:
        for name, _, line in PROGRAM.findall(page):
            print(name, line)
        return 0
    found = list(faults(page))
    print("\n".join(found) if found else f"tests/reference.py: {len(prototypes)} functions, {len(PROGRAM.findall(page))} programs: page, header and files agree")
    return 1 if found else 0


sys.exit(main())
