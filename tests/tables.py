#!/usr/bin/env python3
"""The tables that ship, tables/B.txt to tables/T.txt, and the pictures of docs/, made from the reference functions of
commands/lib/reference.py.

    python3 tests/tables.py make     writes them
    python3 tests/tables.py check    whether they are what the script makes; whether the reference functions give the remembered values,
                                     join piece to piece, and each table is as far off as it says
    python3 tests/tables.py slips    tries every slip of one digit in a coefficient: how many the check would miss, and how many
                                     microvolts the worst of those would do

Knots are whole microvolts and whole tenths of a degree. From a knot on, the next one is the farthest for which the straight line keeps to
BUDGET at every whole microvolt between; where there is none it is the next microvolt, with half a tenth of rounding.
"""
import pathlib
import sys

sys.dont_write_bytecode = True
ROOT = pathlib.Path(__file__).resolve().parent.parent
sys.path.insert(0, str(ROOT / "commands" / "lib"))
from picture import INK, BLUE, RED, GREY, Panel, label, legend, sheet, table_picture  # noqa: E402
from reference import (  # noqa: E402
    DOWNWARD, K_BUMP, LETTERS, PIECES, all_degrees, by_piece, degrees, ends, looks_like, microvolts, off, readings, span, verdict)

# Values of the types, degrees and millivolts to the microvolt, as remembered of the tables of IEC 60584-1 and NIST Monograph 175. No copy
# of either was at hand, for these or for the coefficients: docs/DECISIONS.md, 'The figures of the types have no source at hand'
REMEMBERED = {
    "B": """0 0.000  20 -0.003  50 0.002  100 0.033  150 0.092  200 0.178  250 0.291  300 0.431  400 0.787  500 1.242  600 1.792  700 2.431
        800 3.154  900 3.957  1000 4.834  1100 5.780  1200 6.786  1300 7.848  1400 8.956  1500 10.099  1600 11.263  1700 12.433  1800 13.591
        1820 13.820""",
    "E": """-270 -9.835  -250 -9.718  -200 -8.825  -150 -7.279  -100 -5.237  -50 -2.787  0 0.000  25 1.495  50 3.048  100 6.319  200 13.421
        300 21.036  400 28.946  500 37.005  600 45.093  700 53.112  800 61.017  900 68.787  1000 76.373""",
    "J": """-210 -8.095  -200 -7.890  -150 -6.500  -100 -4.633  -50 -2.431  0 0.000  25 1.277  50 2.585  100 5.269  200 10.779  300 16.327
        400 21.848  500 27.393  600 33.102  700 39.132  760 42.919  800 45.494  900 51.877  1000 57.953  1100 63.792  1200 69.553""",
    "K": """-270 -6.458  -260 -6.441  -250 -6.404  -200 -5.891  -150 -4.913  -100 -3.554  -50 -1.889  0 0.000  25 1.000  50 2.023  100 4.096
        150 6.138  200 8.138  250 10.153  300 12.209  400 16.397  500 20.644  600 24.905  700 29.129  800 33.275  900 37.326  1000 41.276
        1100 45.119  1200 48.838  1300 52.410  1372 54.886""",
    "N": """-270 -4.345  -250 -4.313  -200 -3.990  -150 -3.336  -100 -2.407  -50 -1.269  0 0.000  25 0.659  50 1.340  100 2.774  200 5.913
        300 9.341  400 12.974  500 16.748  600 20.613  700 24.527  800 28.455  900 32.371  1000 36.256  1100 40.087  1200 43.846
        1300 47.513""",
    "R": """-50 -0.226  0 0.000  25 0.141  50 0.296  100 0.647  200 1.469  300 2.401  400 3.408  500 4.471  600 5.583  700 6.743  800 7.950
        900 9.205  1000 10.506  1100 11.850  1200 13.228  1300 14.629  1400 16.040  1500 17.451  1600 18.849  1700 20.222  1768 21.101""",
    "S": """-50 -0.236  0 0.000  25 0.143  50 0.299  100 0.646  200 1.441  300 2.323  400 3.259  500 4.233  600 5.239  700 6.275  800 7.345
        900 8.449  1000 9.587  1100 10.757  1200 11.951  1300 13.159  1400 14.373  1500 15.582  1600 16.777  1700 17.947  1768 18.693""",
    "T": """-270 -6.258  -250 -6.180  -200 -5.603  -150 -4.648  -100 -3.379  -50 -1.819  0 0.000  25 0.992  50 2.036  100 4.279  150 6.704
        200 9.288  250 12.013  300 14.862  350 17.819  400 20.872""",
}
# The slope of type N is another on either side of 0 in the functions as remembered, by so many microvolts for a degree
SLOPE_JUMP = {("N", 0.0): -0.2297}

METALS = {
    "B": "platinum with 30 % rhodium against platinum with 6 % rhodium", "E": "nickel-chromium against copper-nickel",
    "J": "iron against copper-nickel", "K": "nickel-chromium against nickel-aluminium",
    "N": "nickel-chromium-silicon against nickel-silicon", "R": "platinum with 13 % rhodium against platinum",
    "S": "platinum with 10 % rhodium against platinum", "T": "copper against copper-nickel",
}
# Below 250 degrees a microvolt is more than 0.4 degrees of type B, so the table begins there
FIRST = {"B": 250.0}
# in degrees; with it every table goes into one block of a load file, 84 knots
BUDGET = 0.04
BLOCK_KNOTS = 505 // 6
# no table may be further off: half of the last digit that is shown
WORST = 0.05

# an S probe at these degrees, read by the table of type K, and what is shown
MISHAP = [(100, "16.2"), (400, "79.8"), (800, "180.1"), (1000, "236.0"), (1200, "293.8"), (1600, "409.0")]


def remembered(letter):
    words = REMEMBERED[letter].split()
    return [(float(t), round(1000 * float(v))) for t, v in zip(words[::2], words[1::2])]


def next_knot(found, i, tenths):
    """From the knot at place i on, the place and the tenths of the farthest next one."""
    low, high, best = -1e9, 1e9, None
    for j in range(i + 1, len(found)):
        exact = 10 * found[j]
        low = max(low, (exact - 10 * BUDGET - tenths) / (j - i))
        high = min(high, (exact + 10 * BUDGET - tenths) / (j - i))
        if low > high:
            break
        if low <= (round(exact) - tenths) / (j - i) <= high:
            best = j, round(exact)
    return best or (i + 1, round(10 * found[i + 1]))


class Table:
    """The table of a letter, and at each of its whole microvolts what it gives and what the reference function does."""

    def __init__(self, letter):
        first, last = span(letter)
        if letter in FIRST:
            first = round(microvolts(letter, FIRST[letter]))
        found = all_degrees(letter, first, last)
        place, tenths = 0, round(10 * found[0])
        self.letter, self.knots = letter, [(first, tenths)]
        while place < len(found) - 1:
            place, tenths = next_knot(found, place, tenths)
            self.knots.append((first + place, tenths))
        xs = range(first, last + 1)
        self.errors = list(zip(xs, readings(self.knots, xs), found))
        self.worst = max(self.errors, key=off)

    def text(self):
        (x0, t0), (x1, t1) = self.knots[0], self.knots[-1]
        head = [
            f"type {self.letter}: {METALS[self.letter]}",
            "source: the reference function of IEC 60584-1 and ITS-90 (NIST Monograph 175), as remembered, inverted by tests/tables.py",
            "not compared with a copy of the standard: compare it before a card is sold with it",
            f"range: {t0 / 10:.1f} to {t1 / 10:.1f} degrees, {x0} to {x1} microvolts",
            f"worst error at a whole microvolt: {off(self.worst):.3f} degrees, at {self.worst[0]} microvolts",
            f"knots: {len(self.knots)}; each line has microvolts and tenths of a degree",
        ]
        return "".join(f"# {line}\n" for line in head) + "".join(f"{x} {t}\n" for x, t in self.knots)


def shown(t):
    """As the reading program shows a temperature: the nearest tenth, a half away from zero."""
    tenths = int(20 * abs(t) + 1) // 2
    return f"{'-' if t <= -0.05 else ''}{tenths // 10}.{tenths % 10}"


def mishap(table):
    """What an S probe shows through the table of type K: at the degrees of MISHAP, and as a picture."""
    sight = lambda t: next(readings(table, [round(microvolts("S", t))]))
    panel = Panel(90, 84, 680, 440, (0, 1800), (-120, 1800))
    panel.axes("true temperature of the S probe, degrees Celsius", "shown, degrees Celsius", 9, 9)
    panel.line([(0, 0), (1768, 1768)], BLUE, 4)
    panel.line([(t, sight(t)) for t in range(0, 1769, 8)], RED, 2)
    for t, _ in MISHAP:
        panel.line([(t, t), (t, sight(t))], GREY, 1, "3 4")
        panel.dot(t, sight(t), RED, 4)
        panel.note(t, sight(t), shown(sight(t)), 7, 17, colour=RED)
    heading = label(90, 34, "The mishap: an S probe read through the table of type K", size=17, weight="bold")
    words = legend(90, 62, [(BLUE, 4, "", False, "what is true"), (RED, 2, "", True, "what is shown")])
    return sheet(800, 590, [heading, *words, *panel.parts])


def made():
    """The tables, and every file by its name."""
    tables = {letter: Table(letter) for letter in LETTERS}
    files = {f"tables/{letter}.txt": table.text() for letter, table in tables.items()}
    files["docs/mishap.svg"] = mishap(tables["K"].knots)
    files["docs/table-k.svg"] = table_picture("K", "tables/K.txt", tables["K"].knots, tables["K"].errors)
    return tables, files


def reference_faults(letter):
    """What is wrong with a reference function: remembered values to the microvolt; value and slope at each join."""
    for t, x in remembered(letter):
        if abs(microvolts(letter, t) - x) > 0.5001:
            yield f"type {letter} at {t} degrees: {microvolts(letter, t):.2f} microvolts, {x} are remembered"
    for i, (_, t, _) in enumerate(PIECES[letter][:-1]):
        (v0, s0), (v1, s1) = by_piece(letter, i, t), by_piece(letter, i + 1, t)
        if abs(v1 - v0) > 1e-4 or abs(s1 - s0 - SLOPE_JUMP.get((letter, t), 0.0)) > 2e-5:
            yield f"type {letter}: the pieces do not join at {t} degrees"
    low, high = ends(letter)
    if remembered(letter)[0][0] != low or remembered(letter)[-1][0] < high - 1:
        yield f"type {letter}: no remembered value at an end"


def table_faults(table):
    """What is wrong with a table: its size, its error, readings at remembered values, and whether another type's limits hold it."""
    letter, ours = table.letter, table.knots
    if len(ours) > BLOCK_KNOTS:
        yield f"type {letter}: {len(ours)} knots, more than a block holds"
    if off(table.worst) > WORST:
        yield f"type {letter}: {off(table.worst):.4f} degrees off at {table.worst[0]} microvolts"
    for x, _, t in table.errors[::97]:
        if abs(degrees(letter, x) - t) > 1e-6:
            yield f"type {letter} at {x} microvolts: {t:.6f} degrees by Newton's steps, {degrees(letter, x):.6f} by halving"
    fits, words = verdict(letter, ours, table.errors)
    if not fits:
        yield words
    for t, x in remembered(letter):
        if ours[0][0] <= x <= ours[-1][0]:
            # remembered microvolts are rounded: the temperature may be that of half a microvolt less or more
            given = next(readings(ours, [x]))
            if not degrees(letter, x - 0.5001) - WORST <= given <= degrees(letter, x + 0.5001) + WORST:
                yield f"type {letter} at {x} microvolts: {given:.2f} degrees, {t} are remembered"
            if not degrees(letter, x - 0.5001) - 1e-6 <= t <= degrees(letter, x + 0.5001) + 1e-6:
                yield f"type {letter} at {x} microvolts: the inverse is not {t} degrees"
    for other in LETTERS:
        if other != letter and looks_like(other, ours):
            yield f"the table of type {letter} is taken for one of type {other}"


def mishap_faults(table):
    for t, words in MISHAP:
        given = shown(next(readings(table.knots, [round(microvolts("S", t))])))
        if given != words:
            yield f"the mishap: an S probe at {t} degrees shows {given}, not {words}"


def paper_faults():
    """The rows of the mishap as the papers have them."""
    operators, readme = (ROOT / "docs" / "OPERATORS.md").read_text(), " ".join((ROOT / "README.md").read_text().split())
    for t, words in MISHAP:
        if f"| {t:,} | {round(microvolts('S', t)):,} | {words} |\n" not in operators:
            yield f"docs/OPERATORS.md lacks the mishap at {t} degrees"
    rest = ", ".join(f"{words} at {t:,}" for t, words in MISHAP[1:-1])
    if f"{MISHAP[0][1]} degrees at {MISHAP[0][0]}, {rest} and {MISHAP[-1][1]} at {MISHAP[-1][0]:,}" not in readme:
        yield "README.md has other numbers of the mishap"


def check():
    tables, files = made()
    wrong = [*(fault for letter in LETTERS for fault in reference_faults(letter)),
             *(fault for table in tables.values() for fault in table_faults(table)),
             *mishap_faults(tables["K"]), *paper_faults()]
    for name, data in files.items():
        path = ROOT / name
        if not path.is_file() or path.read_text() != data:
            wrong.append(f"{name} is not what the script makes")
    strangers = {path.name for path in (ROOT / "tables").glob("*")} - {f"{letter}.txt" for letter in LETTERS}
    wrong += [f"tables/{name} is none of the script's" for name in sorted(strangers)]
    if wrong:
        sys.exit("\n".join(f"tests/tables.py: {line}" for line in wrong))
    values = sum(len(remembered(letter)) for letter in LETTERS)
    print(f"tables: eight tables and two pictures are what the script makes; {values} remembered values hold, not compared with a copy of "
          "the standard")


def slipped(number):
    """Every number that one digit of the twelve makes of a coefficient."""
    digits, power = f"{number:.11e}".split("e")
    for place, digit in enumerate(digits):
        for other in "0123456789" if digit.isdigit() else "":
            if other != digit:
                yield float(f"{digits[:place]}{other}{digits[place + 1:]}e{power}")


def slips():
    for letter in LETTERS:
        degrees_tried = [first + (last - first) * i / 20 for first, last, _ in PIECES[letter] for i in range(20)] + [ends(letter)[1]]
        true = [microvolts(letter, t) for t in degrees_tried]
        tried = missed = 0
        most = 0.0
        for numbers in DOWNWARD[letter] + ([K_BUMP] if letter == "K" else []):
            for k, number in enumerate(numbers):
                for other in slipped(number) if number else ():
                    numbers[k] = other
                    tried += 1
                    if not any(reference_faults(letter)):
                        missed += 1
                        most = max(most, *(abs(microvolts(letter, t) - x) for t, x in zip(degrees_tried, true)))
                numbers[k] = number
        print(f"type {letter}: {tried} slips, {missed} missed, none of those by more than {most:.2f} microvolts")


def main(asked):
    if asked == ["make"]:
        (ROOT / "tables").mkdir(exist_ok=True)
        for name, data in made()[1].items():
            (ROOT / name).write_text(data)
    elif asked == ["check"]:
        check()
    elif asked == ["slips"]:
        slips()
    else:
        sys.exit(__doc__)


if __name__ == "__main__":
    main(sys.argv[1:])
