#!/usr/bin/env python3
"""Brings the repository's own definitions and lemmas to snake case: `byteAt` and `byte-at` become `byte_at`.

usage: port_names.py [--map]      at the top of the repository, once; --map prints the names and writes nothing

It reads each name that specs/ and proofs/ declare (definitions, lemmas, fields, constructors). Types, modules and names of the
source (functions of src/, its constants, C names) keep their spelling, and so do strings and comments of src/. Where a definition and
a lemma fall together in a file, the lemma's name ends in `_lem`.
"""

import collections
import os
import re
import sys

MARKS = r"(?:(?:unfoldable|abbrev|pub|pattern|axiom)\s+)*"
WORDS = {"use", "mod", "infixl", "infixr", "infix", "unfolding", "pub", "where", "syntax"}
KEEP = {"not-true", "not-false"}  # the library has names spelled so, and some files import them
GIVEN = {"atRest": "is_at_rest"}  # a field has the other spelling
WORD = re.compile(r"[A-Za-z_0-9'′₀-₉κσμ◌-]+")
CLAUSE = re.compile(r"^\s*(?:(?:also_)?(?:requires|ensures|owns|shares)\b|ghost\b)")


def files(ends):
    for folder, below, names in os.walk("crates"):
        below[:] = sorted(d for d in below if d != "out")
        for name in sorted(names):
            if name.endswith(ends):
                yield os.path.join(folder, name)


def declared():
    """Each own name, with whether some specs/ declares it."""
    found = {}
    for path in files((".antt",)):
        inside, specs = None, "/specs/" in path
        text = open(path, encoding="utf-8").read()
        nested = re.search(r"(?m)^(?:pub )?module\b", text) is not None
        for line in text.splitlines(keepends=True):
            if line.startswith("--") or not line.strip():
                continue
            if not line.startswith(" "):
                inside = None
                m = re.match(r"^" + MARKS + r"(?:(data|record)\s+)?(?:pub\s+)?([^\s:{}()=,]+)(.*)$", line.rstrip("\n"))
                if not m or m.group(2) in WORDS:
                    continue
                if m.group(1):
                    inside = m.group(1)
                elif not re.match(r"^\s*(\{[^}]*\})?\s*:(\s|$)", m.group(3)):
                    continue
                found[m.group(2)] = found.get(m.group(2), False) or specs
            elif nested:
                m = re.match(r"^ +" + MARKS + r"(?:(?:data|record)\s+)?([^\s:{}()=,]+)\s*(?:\{[^}]*\})?\s*:(\s|$)", line)
                if m:
                    found[m.group(1)] = found.get(m.group(1), False) or specs
            elif inside:
                m = re.match(r"^  (?:pub )?([^\s:{}()=,]+)\s*:", line)
                if m:
                    found[m.group(1)] = True
    return found


def snake(name):
    return re.sub(r"(?<=[a-z0-9])(?=[A-Z])", "_", name.replace("-", "_")).lower()


def mapping():
    own = declared()
    new = {w: snake(w) for w in own if w[0].islower() and snake(w) != w and w not in KEEP}
    new.update({w: n for w, n in GIVEN.items() if w in own})
    together = collections.defaultdict(set)
    for w in own:
        together[new.get(w, w)].add(w)
    together = {n: s for n, s in together.items() if len(s) > 1}
    by_old = {w: n for n, s in together.items() for w in s}
    meet = set()
    for path in files((".antt",)):
        seen = collections.defaultdict(set)
        for w in WORD.findall(open(path, encoding="utf-8").read()):
            if w in by_old:
                seen[by_old[w]].add(w)
        meet |= {n for n, s in seen.items() if len(s) > 1}
    for n in sorted(meet):
        # the definition keeps the plain name: the one that specs/ declares, or else the one that was in camel case
        order = sorted(together[n], key=lambda w: (not own[w], "-" in w, w != n, w))
        for w in order[1:]:
            new[w] = n + "_lem"
    return new


def renamed(text, new):
    def one(m):
        w = m.group(0)
        after_dot = m.start() > 0 and text[m.start() - 1] == "."
        if w in new and not (after_dot and new[w].endswith("_lem")):
            return new[w]
        return w

    return WORD.sub(one, text)


def in_comment(text, new):
    camel = {a: b for a, b in new.items() if re.search(r"[a-z0-9][A-Z]", a)}
    return re.sub(r"`[^`]*`", lambda m: renamed(m.group(0), new), renamed(text, camel))


def antt(text, new):
    out = []
    for line in text.splitlines(keepends=True):
        at = line.find("-- ") if not line.startswith("--") else 0
        out.append(renamed(line, new) if at < 0 else renamed(line[:at], new) + in_comment(line[at:], new))
    return "".join(out)


def source(text, new):
    """Clauses, ghost items and `ghost use` lines alone."""
    out, depth = [], 0
    for line in text.splitlines(keepends=True):
        if depth > 0 or CLAUSE.match(line):
            out.append(renamed(line, new))
            depth += line.count("{") - line.count("}")
        else:
            out.append(line)
    return "".join(out)


def main():
    new = mapping()
    if "--map" in sys.argv[1:]:
        for a in sorted(new):
            print(a, new[a])
        return
    for path in files((".antt", ".rt")):
        text = open(path, encoding="utf-8").read()
        turned = (antt if path.endswith(".antt") else source)(text, new)
        if turned != text:
            open(path, "w", encoding="utf-8").write(turned)


main()
