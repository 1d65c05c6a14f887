#!/usr/bin/env python3
"""The reference functions of the eight thermocouple types, and a table held against them.

    python3 commands/lib/reference.py LETTER <TABLE    a line: how far the table is off, or why it is not that letter's

TABLE is a table in text without comments: a line for each knot, microvolts, a space, tenths of a degree. It ends with 0, with 1 where
the table is not that letter's, or with 5 where the text is no table; the line is then the one that the program says.
Standard library alone, and no file is written. picture.py draws the same.

The functions are those of IEC 60584-1, which are those of ITS-90 (NIST Monograph 175): millivolts at t degrees Celsius, reference
junction at 0. Coefficients and limits are as remembered: no copy of either was at hand, so compare them with one before relying on them.
tests/tables.py holds them against remembered values and makes the tables that ship.
"""
import math
import re
import sys

LETTERS = "BEJKNRST"

# For each letter: first and last degree of each piece, and its coefficients by powers of t, in millivolts
PIECES = {
    "B": [
        (0.0, 630.615, [
            0.0, -0.246508183460e-03, 0.590404211710e-05, -0.132579316360e-08, 0.156682919010e-11, -0.169445292400e-14,
            0.629903470940e-18]),
        (630.615, 1820.0, [
            -0.389381686210e+01, 0.285717474700e-01, -0.848851047850e-04, 0.157852801640e-06, -0.168353448640e-09,
            0.111097940130e-12, -0.445154310330e-16, 0.989756408210e-20, -0.937913302890e-24]),
    ],
    "E": [
        (-270.0, 0.0, [
            0.0, 0.586655087080e-01, 0.454109771240e-04, -0.779980486860e-06, -0.258001608430e-07, -0.594525830570e-09,
            -0.932140586670e-11, -0.102876055340e-12, -0.803701236210e-15, -0.439794973910e-17, -0.164147763550e-19,
            -0.396736195160e-22, -0.558273287210e-25, -0.346578420130e-28]),
        (0.0, 1000.0, [
            0.0, 0.586655087100e-01, 0.450322755820e-04, 0.289084072120e-07, -0.330568966520e-09, 0.650244032700e-12,
            -0.191974955040e-15, -0.125366004970e-17, 0.214892175690e-20, -0.143880417820e-23, 0.359608994810e-27]),
    ],
    "J": [
        (-210.0, 760.0, [
            0.0, 0.503811878150e-01, 0.304758369300e-04, -0.856810657200e-07, 0.132281952950e-09, -0.170529583370e-12,
            0.209480906970e-15, -0.125383953360e-18, 0.156317256970e-22]),
        (760.0, 1200.0, [
            0.296456256810e+03, -0.149761277860e+01, 0.317871039240e-02, -0.318476867010e-05, 0.157208190040e-08,
            -0.306913690560e-12]),
    ],
    "K": [
        (-270.0, 0.0, [
            0.0, 0.394501280250e-01, 0.236223735980e-04, -0.328589067840e-06, -0.499048287770e-08, -0.675090591730e-10,
            -0.574103274280e-12, -0.310888728940e-14, -0.104516093650e-16, -0.198892668780e-19, -0.163226974860e-22]),
        (0.0, 1372.0, [
            -0.176004136860e-01, 0.389212049750e-01, 0.185587700320e-04, -0.994575928740e-07, 0.318409457190e-09,
            -0.560728448890e-12, 0.560750590590e-15, -0.320207200030e-18, 0.971511471520e-22, -0.121047212750e-25]),
    ],
    "N": [
        (-270.0, 0.0, [
            0.0, 0.261591059620e-01, 0.109574842280e-04, -0.938411115540e-07, -0.464120397590e-10, -0.263033577160e-11,
            -0.226534380030e-13, -0.760893007910e-16, -0.934196678350e-19]),
        (0.0, 1300.0, [
            0.0, 0.259293946010e-01, 0.157101418800e-04, 0.438256272370e-07, -0.252611697940e-09, 0.643118193390e-12,
            -0.100634715190e-14, 0.997453389920e-18, -0.608632456070e-21, 0.208492293390e-24, -0.306821961510e-28]),
    ],
    "R": [
        (-50.0, 1064.18, [
            0.0, 0.528961729765e-02, 0.139166589782e-04, -0.238855693017e-07, 0.356916001063e-10, -0.462347666298e-13,
            0.500777441034e-16, -0.373105886191e-19, 0.157716482367e-22, -0.281038625251e-26]),
        (1064.18, 1664.5, [
            0.295157925316e+01, -0.252061251332e-02, 0.159564501865e-04, -0.764085947576e-08, 0.205305291024e-11,
            -0.293359668173e-15]),
        (1664.5, 1768.1, [
            0.152232118209e+03, -0.268819888545e+00, 0.171280280471e-03, -0.345895706453e-07, -0.934633971046e-14]),
    ],
    "S": [
        (-50.0, 1064.18, [
            0.0, 0.540313308631e-02, 0.125934289740e-04, -0.232477968689e-07, 0.322028823036e-10, -0.331465196389e-13,
            0.255744251786e-16, -0.125068871393e-19, 0.271443176145e-23]),
        (1064.18, 1664.5, [
            0.132900444085e+01, 0.334509311344e-02, 0.654805192818e-05, -0.164856259209e-08, 0.129989605174e-13]),
        (1664.5, 1768.1, [
            0.146628232636e+03, -0.258430516752e+00, 0.163693574641e-03, -0.330439046987e-07, -0.943223690612e-14]),
    ],
    "T": [
        (-270.0, 0.0, [
            0.0, 0.387481063640e-01, 0.441944343470e-04, 0.118443231050e-06, 0.200329735540e-07, 0.901380195590e-09,
            0.226511565930e-10, 0.360711542050e-12, 0.384939398830e-14, 0.282135219250e-16, 0.142515947790e-18,
            0.487686622860e-21, 0.107955392700e-23, 0.139450270620e-26, 0.797951539270e-30]),
        (0.0, 400.0, [
            0.0, 0.387481063640e-01, 0.332922278800e-04, 0.206182434040e-06, -0.218822568460e-08, 0.109968809280e-10,
            -0.308157587720e-13, 0.454791352900e-16, -0.275129016730e-19]),
    ],
}
# type K above 0 has besides a exp(b (t - c)^2)
K_BUMP = [0.118597600000e+00, -0.118343200000e-03, 0.126968600000e+03]


# the highest power first, as they are summed up
DOWNWARD = {letter: [coefficients[::-1] for _, _, coefficients in pieces] for letter, pieces in PIECES.items()}


def piece_of(letter, t):
    """The place of the piece that holds t; at a join the upper one."""
    i = 0
    for _, last, _ in PIECES[letter][:-1]:
        if t < last:
            break
        i += 1
    return i


def by_piece(letter, i, t):
    """Microvolts at t degrees and microvolts for a degree there, by the piece i of the letter."""
    value = slope = 0.0
    for c in DOWNWARD[letter][i]:
        slope = slope * t + value
        value = value * t + c
    if letter == "K" and i == 1:
        a, b, c = K_BUMP
        bump = a * math.exp(b * (t - c) ** 2)
        value, slope = value + bump, slope + 2 * b * (t - c) * bump
    return 1000 * value, 1000 * slope


def microvolts(letter, t):
    """The reference function: microvolts at t degrees."""
    return by_piece(letter, piece_of(letter, t), t)[0]


def ends(letter):
    """First and last degree of the reference function."""
    return PIECES[letter][0][0], PIECES[letter][-1][1]


# Type B gives the same microvolts twice below 42 degrees, with a least of -2.6 at 21: a temperature is told from here on
B_FIRST = 50.0


def told_from(letter):
    return B_FIRST if letter == "B" else ends(letter)[0]


def degrees(letter, x):
    """The inverse: the degrees at which the letter gives x microvolts, by halving."""
    low, high = told_from(letter), ends(letter)[1]
    for _ in range(60):
        middle = (low + high) / 2
        if microvolts(letter, middle) <= x:
            low = middle
        else:
            high = middle
    return (low + high) / 2


def span(letter):
    """First and last whole microvolt that a temperature is told for: those of the ends, rounded."""
    first = microvolts(letter, told_from(letter))
    return math.ceil(first) if letter == "B" else round(first), round(microvolts(letter, ends(letter)[1]))


def all_degrees(letter, first, last):
    """The degrees at every whole microvolt from first to last, both in the letter's span: each by Newton's steps from the one before.
    A microvolt that rounding puts past an end of the function has the temperature of that end."""
    low, high = told_from(letter), ends(letter)[1]
    t, slope = degrees(letter, first), math.inf
    found = []
    for x in range(first, last + 1):
        t = min(t + 1 / slope, high)
        for _ in range(50):
            value, slope = by_piece(letter, piece_of(letter, t), t)
            step = (x - value) / slope
            t = min(max(t + step, low), high)
            # what is left is of the order of the square of the last step
            if -1e-4 < step < 1e-4 or (t == low and step < 0) or (t == high and step > 0):
                break
        else:
            t = degrees(letter, x)
        found.append(t)
    return found


def allowed(letter, t):
    """How far off, in degrees, a probe may be at t by class 2 of IEC 60584-1; below -40 degrees by class 3, where the letter has one.
    Where the standard has no tolerance the nearest one goes on."""
    if letter in "BRS":
        return max(1.5, 0.0025 * t)
    fixed = 1.0 if letter == "T" else 2.5
    if t >= -40:
        return max(fixed, 0.0075 * abs(t))
    return fixed if letter == "J" else max(fixed, 0.015 * -t)


class NoTable(Exception):
    """Why a text is no table, as the program says it."""


# two numbers of at most nine digits behind zeros
KNOT = re.compile(rb"(-?)0*([0-9]{1,9}) (-?)0*([0-9]{1,9})")


def knots_of(text):
    """The knots of a table in text, which is bytes; what the program refuses is refused."""
    lines = text.split(b"\n")
    table = []
    for number, line in enumerate(lines if lines[-1] else lines[:-1], 1):
        knot = KNOT.fullmatch(line)
        if not knot or number == len(lines) or number > 18853 or not -32768 <= int(knot[3] + knot[4]) <= 32767:
            raise NoTable(f"no knot, or one too many, in line {number}")
        table.append((int(knot[1] + knot[2]), int(knot[3] + knot[4])))
    if len(table) < 2:
        raise NoTable("refused 40")
    for number, (x, _) in enumerate(table, 1):
        if not -10000 <= x <= 80000 or (number > 1 and x <= table[number - 2][0]):
            raise NoTable(f"refused 41 in line {number}")
    return table


def from_standard_input():
    """The table of standard input; the end with 5 where it is none."""
    try:
        return knots_of(sys.stdin.buffer.read())
    except NoTable as why:
        print(why)
        sys.exit(5)


def readings(table, xs):
    """The degrees that a table gives at rising microvolts, all between its first knot and its last: linear between knots."""
    i = 0
    for x in xs:
        while i + 2 < len(table) and x >= table[i + 1][0]:
            i += 1
        (x0, t0), (x1, t1) = table[i], table[i + 1]
        yield (t0 + (t1 - t0) * (x - x0) / (x1 - x0)) / 10


def judged(letter, table):
    """The first and the last whole microvolt that the table and the letter have in common."""
    first, last = span(letter)
    return max(first, table[0][0]), min(last, table[-1][0])


def errors(letter, table):
    """At each whole microvolt in common: the microvolts, the degrees by the table, by the reference function."""
    first, last = judged(letter, table)
    if first > last:
        return []
    xs = range(first, last + 1)
    return list(zip(xs, readings(table, xs), all_degrees(letter, first, last)))


def reach(letter):
    """The least and the most microvolts that a table of the letter may have: those of its ends, and one for rounding."""
    low = -3 if letter == "B" else span(letter)[0]
    return low - 1, span(letter)[1] + 1


def looks_like(letter, table, scale=1.0):
    """Whether a table, its temperatures scaled, keeps the letter's limits: at some hundred places alone."""
    first, last = judged(letter, table)
    if table[0][0] < reach(letter)[0] or table[-1][0] > reach(letter)[1] or first >= last:
        return False
    xs = sorted({first + (last - first) * i // 200 for i in range(201)})
    for x, given in zip(xs, readings(table, xs)):
        t = degrees(letter, x)
        if abs(scale * given - t) > allowed(letter, t):
            return False
    return True


def guess(letter, table):
    """What a table that is not the letter's looks like."""
    like = [other for other in LETTERS if other != letter and looks_like(other, table)]
    if like:
        return "; it looks like type " + " or ".join(like)
    if looks_like(letter, table, 10.0):
        return "; with ten times its temperatures it would be one: a knot has tenths of a degree"
    if looks_like(letter, table, 0.1):
        return "; with a tenth of its temperatures it would be one"
    return "; it looks like none of the eight"


def off(error):
    """How far off the table is at a place."""
    return abs(error[1] - error[2])


def verdict(letter, table, found):
    """Whether the table is the letter's, by its errors, and a line that says why."""
    low, high = reach(letter)
    none = f"no table of type {letter}: "
    if not found:
        return False, f"{none}it has no microvolts in common with the type{guess(letter, table)}"
    # the worst place; where that keeps its limit, the one that keeps it least
    worst = over = max(found, key=off)
    if off(worst) <= allowed(letter, worst[2]):
        over = max(found, key=lambda e: off(e) / allowed(letter, e[2]))
    x, given, t = over
    if off(over) > allowed(letter, t):
        return False, (f"{none}at {x} microvolts it gives {given:.1f} degrees, and the type has {t:.1f}: {off(over):.1f} off, "
                       f"{allowed(letter, t):.1f} allowed{guess(letter, table)}")
    if table[0][0] < low:
        return False, f"{none}it begins at {table[0][0]} microvolts, and the type has none below {low + 1}{guess(letter, table)}"
    if table[-1][0] > high:
        return False, f"{none}it ends at {table[-1][0]} microvolts, and the type has none above {high - 1}{guess(letter, table)}"
    x, given, t = worst
    return True, (f"a table of type {letter}: at worst {off(worst):.2f} degrees off, at {x} microvolts, where it gives {given:.2f} and "
                  f"the type has {t:.2f}; {allowed(letter, t):.1f} are allowed")


def main(asked):
    if len(asked) != 1 or len(asked[0]) != 1 or asked[0] not in LETTERS:
        sys.exit(__doc__)
    table = from_standard_input()
    fits, words = verdict(asked[0], table, errors(asked[0], table))
    print(words)
    sys.exit(0 if fits else 1)


if __name__ == "__main__":
    main(sys.argv[1:])
