#!/usr/bin/env python3
"""Every public function, a trait's methods among them, has its uniqueness: for each equation of its contract a theorem NAME_unique or
NAME_.._unique stands in proofs/Unique.antt of its crate, and says the contract's own right-hand side, its bound variables standing for the
arguments. The C functions leave out `tb_`, and those of a static library NAME_c have the theorems of NAME. A slice that is told by its
units and its spare byte, both of them in the contract, is covered by the one law `left_unique` of units: what has the same units and the
same spare byte is the same. (R-promise-1)

`unique.py` compares and ends with 1 where one is missing or says something else; `unique.py list` prints the pairs too."""
import pathlib
import re
import sys

ROOT = pathlib.Path(__file__).resolve().parent.parent / "crates"
TOKEN = re.compile(r"[()\[\]{};,]|λ|[^\s()\[\]{};,]+")
# what is looked at, by a source written by hand: a trait's method, a type's own public one, a public function, and no other
SAMPLE = """\
pub trait Engine {
    fn cycle(d: Device) -> Answer
        ensures { result ≡ answer_of d };
}

impl Engine for Rules {
    fn cycle(d: Device) -> Answer {
        model::cycle(d)
    }
}

impl FileRefusal {
    pub fn number(self) -> u8
        ensures { result ≡ number_of self }
    {
        self.own()
    }

    fn own(self) -> u8
        ensures { result ≡ number_of self }
    {
        30
    }
}

pub fn fresh() -> State
    ensures { result ≡ fresh_state }
{
    State { left: 0 }
}

fn inner() -> u8 {
    0
}
"""
SEEN = [("cycle", "result ≡ answer_of d"), ("number", "result ≡ number_of self"), ("fresh", "result ≡ fresh_state")]


def tree(text):
    """Words and bracketed groups, as nested lists."""
    stack = [[]]
    for word in TOKEN.findall(text):
        if word in "([{":
            stack.append([])
        elif word in ")]}":
            group = stack.pop()
            stack[-1].append(group[0] if len(group) == 1 else group)
        elif "." in word[1:]:
            stack[-1].append(re.findall(r"\.?[^.]+", word))
        else:
            stack[-1].append(word)
    return stack[0]


def clauses(contract):
    """The facts of each `ensures`: what stands between its braces."""
    found = []
    for start in re.finditer(r"^\s+ensures\b[^{]*\{", contract, re.M):
        at, open_ = start.end(), 1
        while open_:
            open_ += {"{": 1, "}": -1}.get(contract[at], 0)
            at += 1
        found.append(" ".join(contract[start.end():at - 1].split()).replace("Prim.Native.Nat.", ""))
    return found


def simple(term):
    """What a slice or a record holds at the entry is its own name."""
    if isinstance(term, str):
        return term
    if len(term) > 1 and isinstance(term[0], str) and term[1] in (".now", ".old"):
        term = term[:1] + term[2:]
    out = [simple(it) for it in term]
    return out[0] if len(out) == 1 else out


def halves(words):
    """Left and right of the first equation of a list of words, or nothing."""
    if isinstance(words, list) and "≡" in words:
        i = words.index("≡")
        return words[:i], words[i + 1:]
    return None


def bind(pattern, term, free, bound):
    """Whether the term is the pattern with its free variables put in, each always for the same."""
    if isinstance(pattern, str):
        if pattern in free:
            return bound.setdefault(pattern, term) == term
        return pattern == term
    if isinstance(term, str) or len(pattern) != len(term):
        return False
    return all(bind(p, t, free, bound) for p, t in zip(pattern, term))


def sides(words):
    """Every right-hand side of an equation inside a statement, in any bracket."""
    if isinstance(words, str):
        return
    rest = list(words)
    for i, word in enumerate(rest):
        if word == "≡":
            end = i + 1
            while end < len(rest) and rest[end] not in ("×", "→", ",", "≡"):
                end += 1
            yield rest[i + 1:end]
    for word in rest:
        if isinstance(word, list):
            yield from sides(word)


def functions_in(text):
    """Name and contract of each public function of a source, of each method of a public trait and of each public one of a type itself:
    the lines from its `fn` to the one that opens its body or, in a trait, ends the promise. What a type does for a trait has the promise
    there."""
    name, lines, block = None, [], ""
    for line in text.split("\n"):
        if line[:1].strip():
            block = line
        trait = block.startswith("pub trait ")
        own = block.startswith("impl") and " for " not in block
        start = re.match(r'pub (?:extern "C" )?fn (\w+)', line) or trait and re.match(r"    fn (\w+)", line)
        start = start or own and re.match(r"    pub fn (\w+)", line)
        if start:
            name, lines = start.group(1), []
        if name:
            lines.append(line)
            if line.endswith("{") and not line.lstrip().startswith(("ensures", "requires")) or trait and line.endswith(";"):
                yield name, "\n".join(lines)
                name = None


def theorems(path):
    """Name, free variables and statement of each public theorem of a file."""
    if not path.exists():
        return
    name, lines = None, []
    for line in path.read_text().split("\n") + ["."]:
        if name and not line.startswith(" "):
            statement = " ".join(lines)
            free = set()
            for group in re.findall(r"[({]([^(){}:]+) :", statement):
                free.update(group.split())
            yield name, free, tree(re.sub(r"λ \(\w+ : [^().]*\)\.", "", statement))
            name = None
        start = re.match(r"pub (\S+) : (.*)", line)
        if start and not line.startswith("pub mod "):
            name, lines = start.group(1), [start.group(2)]
        elif name:
            lines.append(line)


def equations(contract):
    for fact in clauses(contract):
        words = tree(fact)
        for part in split(words, "×"):
            part = part[0] if len(part) == 1 and isinstance(part[0], list) else part
            pair = halves(part)
            if pair and not (isinstance(pair[1], list) and not pair[1]):
                yield fact, simple(pair[1])


def told_by_units(fact, facts):
    """Whether a fact is one of the two that tell a slice by its units and its spare byte, or a slice is told whole beside it."""
    pairs = {"units": "spare", "pairs": "unpaired"}
    pairs.update({b: a for a, b in pairs.items()})
    found = re.match(r"\(?\w+\b.*? (\w+)\.new ≡", fact)
    if found and any(f.startswith(f"{found.group(1)}.new ≡") for f in facts):
        return True
    found = re.match(r"\(?(units|spare|pairs|unpaired)\b(.*? )(\w+)\.new ≡", fact, re.S)
    if not found:
        return False
    head, width, slice_ = found.groups()
    other = re.compile(r"(^|[( ])" + pairs[head] + re.escape(width) + slice_ + r"\.new ≡")
    return any(other.search(f) for f in facts)


def split(words, at):
    out = [[]]
    for word in words:
        if word == at:
            out.append([])
        else:
            out[-1].append(word)
    return out


def as_list(term):
    return term if isinstance(term, list) else [term]


def main():
    wrong = pairs = functions = 0
    if [(name, fact.strip()) for name, contract in functions_in(SAMPLE) for fact in clauses(contract)] != SEEN:
        wrong += 1
        print("unique.py does not see each function of its own sample")
    for crate in sorted(ROOT.iterdir()):
        # streams reaches the system, and no contract can say what that gives or takes
        if not (crate / "src/lib.rt").exists() or crate.name == "streams":
            continue
        below = ROOT / crate.name[:-2]
        stated = list(theorems((below if crate.name.endswith("_c") and below.exists() else crate) / "proofs/Unique.antt"))
        root = (crate / "src/lib.rt").read_text()
        for source in sorted(crate.glob("src/*.rt")):
            if source.name != "lib.rt" and f"pub mod {source.stem};" not in root:
                continue
            for name, contract in functions_in(source.read_text()):
                functions += 1
                facts = clauses(contract)
                short = re.sub(r"^tb_", "", name)
                own = [t for t in stated if t[0].startswith(short + "_") and t[0].endswith("unique")]
                for fact, right in equations(contract):
                    if told_by_units(fact, facts):
                        continue
                    pairs += 1
                    found = [t[0] for t in own for side in sides(t[2])
                             if bind(as_list(side[0] if len(side) == 1 else side), as_list(right), t[1], {})]
                    if "list" in sys.argv:
                        print(crate.name, name, "|", fact.replace("\n", " "), "|", ", ".join(found))
                    if not found:
                        wrong += 1
                        print(f"{source.relative_to(ROOT.parent)}: {name}: no theorem in proofs/Unique.antt says: {' '.join(fact.split())}")
                if not facts:
                    print(f"{source.relative_to(ROOT.parent)}: {name}: a public function without a promise")
                    wrong += 1
    print(f"unique: {functions} public functions, {pairs} equations, {wrong} without their theorem")
    return 1 if wrong else 0


sys.exit(main())
