#!/usr/bin/env python3
"""The tags of the rules. docs/RULES.md defines each once, as the bold beginning of a list item; a definition in specs/ carries the tag of
its rule in its comment, and CLAIMS, DECISIONS, OPERATORS, the header for C and the tests cite rules by their tags. `R-load-1 to R-load-3`
cites all three.

    python3 tests/rules.py            compares, and ends with 1 where something is wrong; names the rules that no test cites
    python3 tests/rules.py list       prints each rule with the definitions, papers and tests that carry its tag
    python3 tests/rules.py RULE ..    the same of these rules

Wrong is a tag that is no rule's, a tag that is defined twice, a rule without a definition and without a claim (docs/CLAIMS.md) that
ELSEWHERE does not name, and a rule in ELSEWHERE or UNTESTED that has what these say it has not. A rule that no test cites and that
UNTESTED does not name is told, and is not wrong."""
import pathlib
import re
import sys

ROOT = pathlib.Path(__file__).resolve().parent.parent
RULES, CLAIMS = "docs/RULES.md", "docs/CLAIMS.md"
PLACES = ["crates", "docs", "tests", "include", "commands", "example", "bench", "crates.txt", "README.md", "CONTRIBUTING.md",
          "CHANGELOG.md"]
KINDS = {".antt", ".rt", ".edit", ".md", ".py", ".sh", ".awk", ".c", ".h", ".txt", ""}
TAG = re.compile(r"\bR-[a-z]+-[0-9]+\b")
RANGE = re.compile(r"\bR-([a-z]+)-([0-9]+) to R-\1-([0-9]+)\b")
DEFINED = re.compile(r"- \*\*(R-[a-z]+-[0-9]+)\*\*")
NAME = re.compile(r"\s*(?:unfoldable |abbrev )?(?:pub )?(?:record |data )?([^\s:]+)")

# Rules that no definition and no claim can answer, each with its reason.
ELSEWHERE = {
    "R-scope-2": "it says what is in no rule",
    "R-form-10": "it is about what DECISIONS must name",
    "R-landing-1": "it is about the notes in docs/landings/",
}

# Rules that no run of anything shows, each with its reason.
UNTESTED = dict(ELSEWHERE, **{
    "R-scope-1": "it names what is built",
    "R-reading-4": "it is about which crate stands on which: crates.txt",
    "R-touch-1": "it is about any cycles whatever: a theorem",
    "R-touch-2": "it is about any cycles whatever: a theorem",
    "R-card-13": "it is about the cards as one theorem",
    "R-promise-2": "it is about what a contract says",
    "R-promise-3": "it is about what is proved once",
    "R-slip-2": "it is about contracts that a wrong program must not meet: must-fail edits",
})
UNTESTED.update({f"R-form-{n}": "it is about the form of code" for n in (1, 2, 3, 4, 5, 6, 8, 9)})


def files():
    """Every text of the repository that may cite a rule, by its name from the root."""
    for place in PLACES:
        path = ROOT / place
        for file in [path] if path.is_file() else sorted(path.rglob("*")):
            name = file.relative_to(ROOT).as_posix()
            if file.is_file() and file.suffix in KINDS and not re.match(r"crates/\w+/out/", name):
                yield name, file


def defines(lines, at):
    """The name of the definition under a comment."""
    while at < len(lines) and lines[at].lstrip().startswith("--"):
        at += 1
    found = NAME.match(lines[at]) if at < len(lines) else None
    return found.group(1) if found else "?"


def collect():
    """Where each rule is defined, and where each tag is used: rule -> places, tag -> (file, line, what)."""
    rules, uses, ranges = {}, {}, []
    for name, file in files():
        try:
            lines = file.read_text(encoding="utf-8").split("\n")
        except UnicodeDecodeError:
            continue
        for number, line in enumerate(lines, 1):
            start = DEFINED.match(line) if name == RULES else None
            if start:
                rules.setdefault(start.group(1), []).append(number)
                line = line[start.end():]
            for tag in TAG.findall(line):
                what = defines(lines, number) if "/specs/" in name else ""
                uses.setdefault(tag, []).append((name, number, what))
            ranges += [(tag, (name, number, "")) for tag in between(line)]
    for tag, at in ranges:
        if tag in rules:
            uses.setdefault(tag, []).append(at)
    return rules, uses


def between(line):
    """The tags that stand between the two of a range."""
    return [f"R-{kind}-{n}" for kind, first, last in RANGE.findall(line) for n in range(int(first) + 1, int(last))]


def tested(tag, uses):
    """The tests that cite a rule."""
    return sorted({name for name, _, _ in uses.get(tag, []) if name.startswith("tests/") and name != "tests/rules.py"})


def told(tag, uses):
    """A rule with its places, in one paragraph."""
    definitions = [f"{name.split('/')[1]}: {what}" for name, _, what in uses.get(tag, []) if "/specs/" in name]
    papers = sorted({name for name, _, _ in uses.get(tag, [])
                     if "/specs/" not in name and name != RULES and not name.startswith("tests/")})
    return (f"{tag}\n  definitions: {', '.join(definitions) or 'none'}\n  papers: {', '.join(papers) or 'none'}\n"
            f"  tests: {', '.join(tested(tag, uses)) or 'none'}")


def main(words):
    rules, uses = collect()
    if words:
        asked = list(rules) if words == ["list"] else words
        for tag in asked:
            print(told(tag, uses) if tag in rules else f"{tag}: there is no such rule")
        return 0 if all(tag in rules for tag in asked) else 1
    wrong = [f"{RULES}: {tag} is defined {len(at)} times" for tag, at in rules.items() if len(at) > 1]
    wrong += [f"{name}:{number}: {tag} is no rule's" for tag, at in uses.items() if tag not in rules for name, number, _ in at]
    defined = {tag for tag in rules if any("/specs/" in name for name, _, _ in uses.get(tag, []))}
    claimed = {tag for tag in rules if any(name == CLAIMS for name, _, _ in uses.get(tag, []))}
    for tag in rules:
        if tag not in defined | claimed and tag not in ELSEWHERE:
            wrong.append(f"{RULES}: {tag} has no definition and no claim")
    wrong += [f"tests/rules.py: {tag} of ELSEWHERE has a definition or a claim" for tag in ELSEWHERE if tag in defined | claimed]
    wrong += [f"tests/rules.py: {tag} of UNTESTED is cited by {', '.join(tested(tag, uses))}" for tag in UNTESTED if tested(tag, uses)]
    wrong += [f"tests/rules.py: {tag} of UNTESTED is no rule's" for tag in UNTESTED if tag not in rules]
    bare = [tag for tag in rules if not tested(tag, uses) and tag not in UNTESTED]
    for line in wrong + ([f"no test cites {', '.join(bare)}"] if bare else []):
        print(line)
    cited = sum(len(at) for at in uses.values())
    print(f"rules: {len(rules)} rules, {len(defined)} with a definition, {len(claimed)} with a claim, {len(ELSEWHERE)} with neither and "
          f"why; {len(rules) - len(bare) - len(UNTESTED)} cited by tests, {len(UNTESTED)} not and why, {len(bare)} not; {cited} citations, "
          f"{len(wrong)} wrong")
    return 1 if wrong else 0


if __name__ == "__main__":
    sys.exit(main(sys.argv[1:]))
