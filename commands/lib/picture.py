#!/usr/bin/env python3
"""Pictures of a table as SVG, in plain text and without a library.

    python3 commands/lib/picture.py LETTER NAME <TABLE    the table's curve beside the letter's reference function; below it the error

TABLE and the end are as for reference.py, NAME is what the heading calls it. tests/tables.py draws the pictures of docs/ with the same pen.
"""
import math
import sys

from reference import LETTERS, allowed, errors, from_standard_input, off

INK, PALE, BLUE, RED, GREY = "#1b1b1b", "#d9d9d9", "#7fb2e5", "#b3261e", "#777777"


def plain(text):
    """A text that may stand in SVG, in ASCII."""
    text = "".join(c if c.isprintable() and not 0xD800 <= ord(c) <= 0xDFFF else "?" for c in text)
    text = text.replace("&", "&amp;").replace("<", "&lt;").replace(">", "&gt;")
    return text.encode("ascii", "xmlcharrefreplace").decode()


def steps(low, high, about):
    """Round numbers from low to high, about so many, and the decimals that they need."""
    rough = (high - low) / about
    ten = 10 ** math.floor(math.log10(rough))
    step = min((k * ten for k in (1, 2, 5, 10)), key=lambda s: abs(math.log(s / rough)))
    decimals = max(0, -math.floor(math.log10(step) + 1e-9))
    return [step * i for i in range(math.ceil(low / step - 1e-9), math.floor(high / step + 1e-9) + 1)], decimals


class Panel:
    """A frame with two scales: x from left to right, y from bottom to top."""

    def __init__(self, left, top, width, height, xs, ys):
        self.left, self.top, self.width, self.height = left, top, width, height
        (self.x0, self.x1), (self.y0, self.y1) = xs, ys
        self.parts = []

    def at(self, x, y):
        return (self.left + self.width * (x - self.x0) / (self.x1 - self.x0),
                self.top + self.height * (self.y1 - y) / (self.y1 - self.y0))

    def line(self, points, colour, width, dashes=""):
        if points:
            path = " ".join("%.1f,%.1f" % self.at(x, y) for x, y in points)
            dashed = f' stroke-dasharray="{dashes}"' if dashes else ""
            self.parts.append(f'<polyline points="{path}" fill="none" stroke="{colour}" stroke-width="{width}" '
                              f'stroke-linejoin="round"{dashed}/>')

    def dot(self, x, y, colour, radius):
        self.parts.append('<circle cx="%.1f" cy="%.1f" r="%s" fill="%s"/>' % (*self.at(x, y), radius, colour))

    def note(self, x, y, words, right, down, anchor="start", colour=INK):
        px, py = self.at(x, y)
        self.parts.append(label(px + right, py + down, words, anchor=anchor, colour=colour))

    def axes(self, across, upward, ticks_x=8, ticks_y=6):
        """Grid, numbers and names; what is drawn afterwards lies over them."""
        bottom, right = self.top + self.height, self.left + self.width
        for x in (x for x in steps(self.x0, self.x1, ticks_x)[0] if abs(x - round(x)) < 1e-6):
            px = self.at(x, self.y0)[0]
            self.parts.append(f'<line x1="{px:.1f}" y1="{self.top}" x2="{px:.1f}" y2="{bottom + 5}" stroke="{PALE}"/>')
            self.parts.append(label(px, bottom + 19, f"{x:,.0f}", anchor="middle"))
        places, decimals = steps(self.y0, self.y1, ticks_y)
        for y in places:
            py = self.at(self.x0, y)[1]
            self.parts.append(f'<line x1="{self.left - 5}" y1="{py:.1f}" x2="{right}" y2="{py:.1f}" stroke="{PALE}"/>')
            self.parts.append(label(self.left - 9, py + 4, f"{y:,.{decimals}f}", anchor="end"))
        self.parts.append(f'<rect x="{self.left}" y="{self.top}" width="{self.width}" height="{self.height}" fill="none" stroke="{GREY}"/>')
        self.parts.append(label(self.left + self.width / 2, bottom + 38, across, anchor="middle"))
        px, py = self.left - 62, self.top + self.height / 2
        self.parts.append(f'<text x="{px}" y="{py}" text-anchor="middle" fill="{INK}" transform="rotate(-90 {px} {py})">{upward}</text>')


def label(x, y, words, anchor="start", colour=INK, size=13, weight="normal"):
    return f'<text x="{x:.1f}" y="{y:.1f}" text-anchor="{anchor}" fill="{colour}" font-size="{size}" font-weight="{weight}">{words}</text>'


def legend(left, y, entries):
    """Entries side by side: colour, width of the stroke, dashes, whether a dot stands on it, words."""
    parts = []
    for colour, width, dashes, dotted, words in entries:
        dashed = f' stroke-dasharray="{dashes}"' if dashes else ""
        parts.append(f'<line x1="{left}" y1="{y - 4}" x2="{left + 30}" y2="{y - 4}" stroke="{colour}" stroke-width="{width}"{dashed}/>')
        if dotted:
            parts.append(f'<circle cx="{left + 15}" cy="{y - 4}" r="2.6" fill="{colour}"/>')
        parts.append(label(left + 37, y, words))
        left += 37 + 7 * len(words) + 26
    return parts


def sheet(width, height, parts):
    return "\n".join([
        f'<svg xmlns="http://www.w3.org/2000/svg" width="{width}" height="{height}" viewBox="0 0 {width} {height}" '
        'font-family="DejaVu Sans, Verdana, sans-serif" font-size="13">',
        f'<rect width="{width}" height="{height}" fill="white"/>', *parts, "</svg>", ""])


def envelope(found, columns):
    """Errors as a line of few points: of each column's places the lowest and the highest, in their order."""
    size = max(1, -(-len(found) // columns))
    points = []
    for i in range(0, len(found), size):
        some = [(x, given - t) for x, given, t in found[i:i + size]]
        points += sorted({min(some, key=lambda p: p[1]), max(some, key=lambda p: p[1])})
    return points


def table_picture(letter, name, table, found):
    """The curve of a table and of its letter's reference function; below it the error, in degrees. found is the table's errors."""
    xs = table[0][0], table[-1][0]
    truth = [(x, t) for x, _, t in found[::max(1, len(found) // 400)] + found[-1:]]
    shown = [t / 10 for _, t in table] + [t for _, t in truth]
    low, high = min(shown), max(shown)
    pad = (high - low or 1.0) * 0.05
    upper = Panel(90, 84, 840, 300, xs, (low - pad, high + pad))
    upper.axes("microvolts", "degrees Celsius")
    upper.line(truth, BLUE, 5)
    upper.line([(x, t / 10) for x, t in table], INK, 1.2)
    dotted = len(table) <= 200
    if dotted:
        for x, t in table:
            upper.dot(x, t / 10, INK, 2.2)
    entries = [(BLUE, 5, "", False, f"reference function of type {letter}"), (INK, 1.2, "", dotted, f"the table, {len(table):,} knots")]
    lower, below = error_panel(letter, xs, truth, found)
    if any("dasharray" in part for part in lower.parts):
        entries.append((GREY, 1.5, "6 4", False, "limits of class 2"))
    heading = label(90, 34, f"{plain(name)} as a table of type {letter}", size=17, weight="bold")
    return sheet(960, 740, [heading, *legend(90, 62, entries), *upper.parts, label(90, 456, below), *lower.parts])


def error_panel(letter, xs, truth, found):
    """The lower panel, and the line above it. The limits are drawn where they are near enough to be seen beside the error."""
    worst = max(found, key=off, default=None)
    most = max(off(worst), 0.01) if worst else 0.01
    limits = [(x, allowed(letter, t)) for x, t in truth]
    least = min((limit for _, limit in limits), default=0.0)
    near = 0.05 * most < least < 3 * most
    scale = 1.25 * max(most, least if near else 0.0)
    lower = Panel(90, 470, 840, 200, xs, (-scale, scale))
    lower.axes("microvolts", "error, degrees", ticks_y=5)
    lower.line([(xs[0], 0.0), (xs[1], 0.0)], GREY, 1)
    if near:
        for sign in (1, -1):
            lower.line([(x, sign * limit) for x, limit in limits if limit <= scale], GREY, 1.5, "6 4")
    lower.line(envelope(found, 420), RED, 1.2)
    if not worst:
        return lower, "The table has no microvolts in common with the type."
    x, given, t = worst
    lower.dot(x, given - t, RED, 4)
    return lower, (f"Error: the table less the reference function. At worst {given - t:+,.2f} degrees, at {x:,} microvolts "
                   f"({t:,.1f} degrees; {allowed(letter, t):.1f} allowed)")


def main(asked):
    if len(asked) != 2 or len(asked[0]) != 1 or asked[0] not in LETTERS:
        sys.exit(__doc__)
    table = from_standard_input()
    sys.stdout.write(table_picture(*asked, table, errors(asked[0], table)))


if __name__ == "__main__":
    main(sys.argv[1:])
