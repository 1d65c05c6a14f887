#!/usr/bin/env python3
"""How large the project is: the table of sizes in docs/TRUST.md.

    python3 tests/size.py          prints the table
    python3 tests/size.py make     writes it into docs/TRUST.md
    python3 tests/size.py check    ends with 1 where the paper has another

A line counts where it is neither blank nor a comment alone. Lines of code are those of src/ without imports (`use`, `ghost use`, `mod`)
and without contracts (from `requires` or `ensures` up to the body), which count for themselves. Definitions are the functions, records
and types of specs/, laws the names of proofs/ whose signature begins a line. A claim is a public name of a crate's proofs/Claims.antt,
a uniqueness theorem one of its proofs/Unique.antt. An edit is a file of must-fail/. A case is a line that a vector program must print."""
import pathlib
import re
import sys

ROOT = pathlib.Path(__file__).resolve().parent.parent
PAPER, BEGIN, END = ROOT / "docs/TRUST.md", "<!-- the table of tests/size.py -->\n", "<!-- its end -->\n"
DEFINITION = re.compile(r"^(  )?((unfoldable|abbrev) (pub )?\S+ :|(pub )?(record|data) )")
LAW = re.compile(r"^(pub )?[^\s(){}:;=|]+ : ")
PUBLIC = re.compile(r"^(  )?pub (?!mod\b|record\b|data\b)\S+ :")


def lines(file, comment):
    """The lines that count."""
    for line in file.read_text(encoding="utf-8").split("\n"):
        if line.strip() and not line.strip().startswith(comment):
            yield line


def code(file):
    """Lines of code, lines of contracts, functions, public ones."""
    body = contracts = functions = public = 0
    inside = False
    for line in lines(file, "//"):
        if re.match(r"(pub )?(ghost )?(use|mod) ", line):
            continue
        if re.match(r"\s*(pub )?(extern \"C\" )?fn ", line):
            functions += 1
            public += line.lstrip().startswith("pub ")
        if re.match(r"\s+(requires|ensures)\b", line):
            inside = True
        elif inside and re.match(r"\s*\{\s*$", line):
            inside = False
        contracts += inside
        body += not inside
    return body, contracts, functions, public


def counted():
    """The rows: what, how many."""
    rows = (ROOT / "crates.txt").read_text(encoding="utf-8").split("\n")
    crates = [line.split(":")[0].split()[0] for line in rows if re.match(r"\w+( staticlib)?:", line)]
    total, kinds, claims, tests = [0, 0, 0, 0], {"program": 0, "library": 0, "none": 0}, 0, 0
    specs = proofs = definitions = laws = unique = edits = 0
    for name in crates:
        home = ROOT / "crates" / name
        here = [code(file) for file in sorted(home.glob("src/**/*.rt"))]
        total = [sum(column) for column in zip(total, *here)]
        tests += sum(row[0] for row in here) if name.startswith("vectors_") else 0
        kinds["program" if (home / "src/main.rt").exists() else "library" if any(row[2] for row in here) else "none"] += 1
        for file in home.glob("specs/*.antt"):
            got = list(lines(file, "--"))
            specs += len(got)
            definitions += sum(1 for line in got if DEFINITION.match(line))
        for file in home.glob("proofs/**/*.antt"):
            got = list(lines(file, "--"))
            proofs += len(got)
            laws += sum(1 for line in got if LAW.match(line))
            claims += sum(1 for line in got if PUBLIC.match(line)) if file.name == "Claims.antt" else 0
            unique += sum(1 for line in got if PUBLIC.match(line)) if file.name == "Unique.antt" else 0
        edits += len(list(home.glob("must-fail/*.edit")))
    cases = sum(len(file.read_text(encoding="utf-8").splitlines()) for file in (ROOT / "crates").glob("vectors_*/stdout"))
    second = sum(1 for file in (ROOT / "tests/host").glob("second*.[ch]") for _ in lines(file, "//"))
    return [
        ("crates", f"{len(crates)}: {kinds['library']} libraries with code, {kinds['program']} programs, "
                   f"{kinds['none']} with definitions and laws alone"),
        ("lines of code", f"{total[0]:,}, {tests:,} of them of the vector programs; {total[2]:,} functions, {total[3]:,} of them public"),
        ("lines of contracts", f"{total[1]:,}"),
        ("lines of definitions (specs/)", f"{specs:,}, in {definitions:,} definitions"),
        ("lines of proofs (proofs/)", f"{proofs:,}, in {laws:,} laws"),
        ("claims, and uniqueness theorems", f"{claims:,} and {unique:,}"),
        ("wrong programs that the prover must refuse", f"{edits:,}"),
        ("cases of the vector programs", f"{cases:,}"),
        ("lines of the second implementation, in C", f"{second:,}"),
    ]


def table():
    return "| What | How many |\n|---|---|\n" + "".join(f"| {what} | {how} |\n" for what, how in counted())


def main(words):
    made = table()
    if not words:
        print(made, end="")
        return 0
    text = PAPER.read_text(encoding="utf-8")
    before, rest = text.split(BEGIN)
    wanted = before + BEGIN + "\n" + made + "\n" + END + rest.split(END, 1)[1]
    if words == ["make"]:
        PAPER.write_text(wanted, encoding="utf-8")
    elif wanted != text:
        print("docs/TRUST.md: its table of sizes is another; `python3 tests/size.py make` writes it")
        return 1
    return 0


if __name__ == "__main__":
    sys.exit(main(sys.argv[1:]))
