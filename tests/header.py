"""Holds include/torfbarke.h against the crates: structs field by field, functions parameter by parameter, the numbers of modes,
phases, kinds, stages, answers and turns, the refusals and which of them have words, the parts' blocks, the supply bands, the limits of
the load file, of wear and of a busy time; the version beside the file VERSION; that every call which an overlap threatens is tested; and
that each export of a crate NAME_c promises, word for word, what the function of its name in NAME does.

    python3 tests/header.py        names every difference, and ends with 1 where there is one

What is compared on the other side is what the proofs speak of: the structs and functions of the code, the clauses of specs/.
"""
import pathlib
import re
import sys

ROOT = pathlib.Path(__file__).resolve().parent.parent
HEADER = (ROOT / "include/torfbarke.h").read_text()
faults = []


def text(pattern):
    """All files of the crates that fit a pattern, without comments. What a check keeps in a crate's out/ is no file of the crate."""
    found = sorted(it for it in (ROOT / "crates").glob(pattern) if it.relative_to(ROOT).parts[2] != "out")
    if not found:
        faults.append(f"no file crates/{pattern}")
    return "\n".join(re.sub(r"(//|--)[^\n]*", "", path.read_text()) for path in found)


def same(what, header, code):
    if header != code:
        faults.append(f"{what}: the header has {header}, the crates have {code}")


def snake(name):
    return re.sub(r"(?<!^)([A-Z])", r"_\1", name).upper()


plain = re.sub(r"/\*.*?\*/", "", HEADER, flags=re.S)
constants = {name: int(value, 0) for name, value in re.findall(r"\b(TB_\w+) = (0x[0-9A-F]+|\d+)", plain)}

# structs
STRUCTS = {"Device": "tb_device", "State": "tb_state", "Bus": "tb_bus", "Answer": "tb_answer", "Loader": "tb_loader", "Saying": "tb_turn",
           "Response": "tb_given", "Ran": "tb_ran", "Sized": "tb_sized", "Block": "tb_span", "Reading": "tb_reading", "Wear": "tb_wear",
           "Tally": "tb_tally", "Record": "tb_record", "Checked": "tb_checked", "Report": "tb_report", "Reported": "tb_reported",
           "Hold": "tb_hold", "Held": "tb_held", "HeldResponse": "tb_held_given", "Knot": "tb_knot"}
TYPES = {"u8": "uint8_t", "u16": "uint16_t", "u32": "uint32_t", "u64": "uint64_t", "usize": "size_t", "i32": "int32_t", "i16": "int16_t", "f64": "double", "": "void"}
TYPES.update({f"{crate}Numbers": c for crate, c in STRUCTS.items()})


def without_unit(name):
    return re.sub(r"_mv$", "", name)


def places(field):
    """A field of the header's, or one for each place of it: block[7] is block0 to block6."""
    row = re.match(r"(\w+)\[(\w+)\]$", field)
    if not row:
        return [without_unit(field)]
    return [row.group(1) + str(i) for i in range(constants[row.group(2)])]


in_code = {}
for name, body in re.findall(r"#\[repr\(C\)\]\s*(?:#\[derive\([^)]*\)\]\s*)*pub struct (\w+)Numbers \{(.*?)\n\}", text("*/src/*.rt"), re.S):
    in_code[STRUCTS.get(name, name)] = [(TYPES[t], f) for f, t in re.findall(r"pub (\w+): (\w+),", body)]
in_header = {}
for body, name in re.findall(r"typedef struct \{(.*?)\} (\w+);", plain, re.S):
    in_header[name] = [(t, place) for t, fs in re.findall(r"(\w+) ([^;]+);", body) for f in fs.split(",") for place in places(f.strip())]
same("structs", sorted(in_header), sorted(in_code))
for name in sorted(in_header.keys() & in_code.keys()):
    same(f"struct {name}", in_header[name], in_code[name])

# functions: those that the static libraries export, which are the crates NAME_c; each hands on to the function of its name in NAME
EXPORT = re.compile(r'#\[unsafe\(no_mangle\)\]\s*pub extern "C" fn (\w+)(\(.*?\)(?: -> \w+)?\s+(?:requires|ensures)\b.*?)\n\{\n(.*?)\n\}', re.S)
for thin in sorted((ROOT / "crates").glob("c_*_c")):
    below = thin.name[:-2]
    exports, whole = ({n: (" ".join(p.split()), " ".join(body.split())) for n, p, body in EXPORT.findall(text(f"{crate}/src/lib.rt"))} for crate in (thin.name, below))
    same(f"exports of {thin.name}, beside the functions of {below}", sorted(exports), sorted(whole))
    for name in sorted(exports.keys() & whole.keys()):
        if exports[name][0] != whole[name][0]:
            faults.append(f"{thin.name}: {name} promises something else than {below}::{name}")
        if not exports[name][1].startswith(f"{below}::{name}("):
            faults.append(f"{thin.name}: {name} does not hand on to {below}::{name}")
code_functions = {}
for name, arguments, result in re.findall(r'#\[unsafe\(no_mangle\)\]\s*pub extern "C" fn (\w+)\((.*?)\)(?: -> (\w+))?\s+ensures', text("c_*_c/src/*.rt"), re.S):
    parameters = []
    for argument, kind in re.findall(r"(\w+): ([^,]+)", arguments):
        kind = kind.strip()
        lent = re.match(r"&(mut )?\[(\w+)\]$", kind)
        if lent:
            parameters += [(("" if lent.group(1) else "const ") + TYPES[lent.group(2)] + " *", argument), ("size_t", argument + "_length")]
        elif kind.startswith("&mut "):
            parameters.append((TYPES[kind[5:]] + " *", argument))
        else:
            parameters.append((TYPES[kind], argument))
    code_functions[name] = (TYPES[result], parameters)
header_functions = {}
declared = re.sub(r"static inline [^;{]*\{.*?\n\}", "", plain, flags=re.S)
for result, name, arguments in re.findall(r"^(\w+) (tb_\w+)\(([^)]*)\);", declared, re.M):
    parameters = []
    for argument in re.sub(r"\s+", " ", arguments).split(","):
        kind, star, called = re.match(r" ?((?:const )?\w+) ?(\*?)(\w*)$", argument).groups()
        if called:
            parameters.append((kind + (" *" if star else ""), without_unit(called)))
    header_functions[name] = (result, parameters)
same("functions", sorted(header_functions), sorted(code_functions))
for name in sorted(header_functions.keys() & code_functions.keys()):
    same(f"function {name}", header_functions[name], code_functions[name])

# numbers of the variants, as the border's definitions have them
border = text("*/specs/Values.antt") + text("*/specs/Answers.antt") + text("*/specs/Records.antt")
for function, prefix in (("mode_out", "TB_MODE_"), ("phase_out", "TB_"), ("kind_out", "TB_CYCLE_"), ("stage_out", "TB_"), ("seen_out", "TB_")):
    clauses = re.findall(rf"^{function} \(?([A-Z]\w*)[^=\n]*= (\d+)$", border, re.M)
    if not clauses:
        faults.append(f"no clauses of {function}")
    for variant, number in clauses:
        same(prefix + snake(variant), constants.get(prefix + snake(variant)), int(number))
for variant, number in re.findall(r"^saying_out \((\w+)[^)]*\) = saying_at (\d+)", border, re.M):
    name = {"Out": "TB_CYCLE_OUT", "SayRefused": "TB_BARRED"}.get(variant, "TB_" + variant.upper())
    same(name, constants.get(name), int(number))

# refusals: the same set of numbers on both sides, and each with its number in the operators' list
listed = re.search(r"enum \{\s*TB_OK = 0,(.*?)\};", plain, re.S).group(1)
refusals = sorted(int(n) for n in re.findall(r"= (\d+)", listed))
told_of = (ROOT / "docs/OPERATORS.md").read_text().split("## Every number")[1]
operators = sorted(int(n) for n in re.findall(r"^- \*\*(\d+)\*\* ", told_of, re.M))
same("refusals, beside docs/OPERATORS.md", refusals, operators)
given = {int(n) for n in re.findall(r"\brow (\d+) \(", text("*/specs/*.antt"))}
given |= {int(n) for n in re.findall(r"\b(?:then|else) (2[0-4])\b", text("loader/specs/*.antt"))}
given |= {int(n) for n in re.findall(r"(?:ended_by l|stage = Ended) (2\d)\b", text("loader_moves/specs/*.antt"))}
given |= {int(n) for n in re.findall(r"refused (3\d)\b", text("*/specs/*.antt"))}
same("refusals, beside the tables of specs/", refusals, sorted(given))

# words: every number has some, no other has, and the room that the header names is what the code has
lines = text("c_words/specs/Words.antt") + text("refusal_words/specs/Words.antt")
worded = {int(n) for n, words in re.findall(r'eqb n (\d+) then bytes "([^"]*)\\n"', lines) if words} | {9}
same("words of numbers", sorted(refusals + [0]), sorted(worded))
same("words of 9, the last of the first ten", "an identifier read where there is none" in lines, True)
same("TB_WORDS_ROOM", constants["TB_WORDS_ROOM"], int(re.search(r"const ROOM: usize = (\d+);", text("c_words/src/lib.rt")).group(1)))
same("TB_TENTHS_TOO_WIDE", constants["TB_TENTHS_TOO_WIDE"], int(re.search(r"else (\d+)\) else 41$", text("c_words/specs/Knots.antt"), re.M).group(1)))

# the version: in the header, in the code, in its definition and in the file
version = [int(n) for n in (ROOT / "VERSION").read_text().strip().split(".")]
names = ("MAJOR", "MINOR", "PATCH")
same("version", [int(re.search(rf"^#define TB_VERSION_{n} (\d+)$", HEADER, re.M).group(1)) for n in names], version)
same("version of the code", [int(re.search(rf"^const {n}: u32 = (\d+);$", text("c_words/src/lib.rt"), re.M).group(1)) for n in names], version)
same("version of specs/", [int(re.search(rf"^{n.lower()} = (\d+)$", text("c_words/specs/Version.antt"), re.M).group(1)) for n in names], version)

# an overlap threatens every call with a slice that it writes to and another; each has its test and stands in for the plain one
threatened = {n for n, (_, ps) in header_functions.items() if any(k.endswith("*") and not k.startswith("const") for k, _ in ps) and sum(k.endswith("*") for k, _ in ps) > 1}
checked = set(re.findall(r"^#define (tb_\w+)\(\.\.\.\) \1_checked\(__VA_ARGS__\)$", HEADER, re.M))
same("calls that are tested for an overlap", sorted(checked), sorted(threatened))
same("NDEBUG in the code of the header", "NDEBUG" in plain, False)

# parts: size and blocks, in bytes, from the description of each
table = text("device/specs/Parts.antt")
more = re.search(r"lengths = (\d+) ∷ (\d+) ∷ (\d+) ∷ (\d+) ∷ (\d+) ∷ further ∷ further ∷ \[\]", table).groups()
parts = {}
for number, kind, lengths, top in re.findall(r"(?:eqb n (\d+) then|else) (four|more)_blocks ([\d ]+) (true|false)", table):
    number = int(number) if number else len(parts) + 1
    lengths = [int(n) for n in lengths.split()]
    if kind == "four":
        lengths = [lengths[0], lengths[1], lengths[1], lengths[2]]
    else:
        lengths = [int(n) for n in more] + [n for n in lengths * 2 if n]
    at, spans = 0, []
    for length in lengths:
        spans.append((sum(lengths) - at - length if top == "true" else at, length))
        at += length
    parts[number] = (sum(lengths), spans)
told = {}
for name, size, spans in re.findall(r"^ \*\s+(TB_\w+),\s+([\d,]+) bytes: ((?:[^\n*]|\n \* {20,})*)", HEADER, re.M):
    ranges = re.findall(r"\b([0-9A-F]{4,5})-([0-9A-F]{4,5})", spans)
    told[constants[name]] = (int(size.replace(",", "")), [(int(a, 16), int(b, 16) - int(a, 16) + 1) for a, b in ranges])
same("parts", told, parts)
same("TB_SIZE_MOST", constants["TB_SIZE_MOST"], max(size for size, _ in parts.values()))
same("TB_BLOCK_MOST", constants["TB_BLOCK_MOST"], max(length for _, spans in parts.values() for _, length in spans))
same("TB_BLOCKS_MOST", constants["TB_BLOCKS_MOST"], max(len(spans) for _, spans in parts.values()))

# wear: where a count stops, the most traces, the sheet's erases
refusing = text("wear/specs/Refusals.antt")
stop = int(re.search(r"^stop = (\d+)$", text("model_types/specs/Counts.antt"), re.M).group(1))
same("TB_WEAR_STOP", int(re.search(r"#define TB_WEAR_STOP (\d+)U$", HEADER, re.M).group(1)), stop)
most = {int(n) for n in re.findall(r"row 47 \((?:ltb|leb) (\d+) ", refusing)}
same("TB_TRACES_MOST", {constants["TB_TRACES_MOST"]}, most)
sheet = int(re.search(r"^passing a n = if ltb (\d+) n then", text("wear/specs/Reports.antt"), re.M).group(1))
same("TB_SHEET_ERASES", constants["TB_SHEET_ERASES"], sheet)

# recordings: the longest busy time
longest = int(re.search(r"^longest = (\d+)$", text("recording/specs/Recordings.antt"), re.M).group(1))
same("TB_BUSY_MOST", constants["TB_BUSY_MOST"], longest)

# supply bands, load file, letters
levels = text("*/specs/Levels.antt")
low = re.search(r"^vpp_low part p = if is_large part then leb p\.vpp (\d+) else leb p\.vpp (\d+)$", levels, re.M)
high = [re.search(rf"^{band} p = leb (\d+) p\.vpp && leb p\.vpp (\d+)$", levels, re.M) for band in ("at_five", "at_twelve")]
bands = ("BR_LOW_MOST", "LOW_MOST", "BR_5V_LEAST", "BR_5V_MOST", "HIGH_LEAST", "HIGH_MOST")
same("supply bands", [constants[f"TB_VPP_{n}_MV"] for n in bands], [int(n) for found in (low, *high) for n in found.groups()])
limit = int(re.search(r"^limit = (\d+)", text("*/specs/File.antt"), re.M).group(1))
limits = [constants[n] for n in ("TB_FILE_BLOCKS_MOST", "TB_FILE_MOST", "TB_PAYLOAD_MOST")]
same("limits of a load file", limits, [limit, 512 * limit, 505 * limit])
letters = re.search(r"^letters = (.*)$", text("*/specs/Block.antt"), re.M).group(1)
same("letters", re.search(r'TB_LETTERS "(\w+)"', HEADER).group(1), "".join(chr(int(n)) for n in re.findall(r"\d+", letters)))

good = f"tests/header.py: {len(in_header)} structs, {len(header_functions)} functions, {len(constants)} numbers: as in the crates"
print("\n".join(faults) if faults else good)
sys.exit(1 if faults else 0)
