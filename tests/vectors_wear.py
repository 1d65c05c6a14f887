#!/usr/bin/env python3
"""The cases of the program `vectors_wear`, the report on the wear of many traces, and the lines that it must print.

    python3 tests/vectors_wear.py table        the cases, as in crates/vectors_wear/stdin
    python3 tests/vectors_wear.py expected     the lines, as in crates/vectors_wear/stdout
    python3 tests/vectors_wear.py check        whether both files are what the script prints

The report here is written from document 02 (xii) and shares nothing with the crates: for each block the total, the largest and the
smallest count, and how many traces passed the sheet's 100,000; no traces give zeros. Refusals in this order: 1 an unknown device number,
11 counts that are not seven for each trace, 47 over 65,535 traces, 48 a trace from another device number; refused, the report on no
traces, and where one trace is added the report that was.

A line shows: group and number; the row's letter; the number given, 0 for none; the traces; for each of seven blocks its total, largest,
smallest and passed.

A row is one of these; what stands from column 90 on is a note to the reader.
    G name                          the group's four letters
    N number                        the device number that is reported on; nothing is held
    T from times and seven counts   so many traces more, each from this device number and with these counts; all that is held is lent
    L numbers counts                how many device numbers and how many counts are lent
    R                               told: the report on what is lent
    H traces high low largest smallest passed     the report held, as a host may hand it back: these for every block, the total by halves
    A from, places 6 to 10, and seven counts      told: the report held with one trace more, which is held then
    P, places 2 to 10, and seven counts           the same with no question which device it is from, and how many there are
    O                               told: the report held
"""
from collections import namedtuple

from vectors_model import called

STOP, TOP, SHEET, MOST = 2**32 - 1, 2**64 - 1, 100000, 65535
DEVICES = range(1, 9)
Tally = namedtuple("Tally", "total largest smallest passed")
Report = namedtuple("Report", "traces blocks")
NONE = Report(0, (Tally(0, 0, 0, 0),) * 7)


def tally(counts):
    """One block, from its count in each trace. (R-wear-2)"""
    return Tally(sum(counts), max(counts, default=0), min(counts, default=0), sum(n > SHEET for n in counts))


def report(traces):
    """The report on traces, each seven counts. (R-wear-2)"""
    return Report(len(traces), tuple(tally([t[k] for t in traces]) for k in range(7)))


def refusal(number, froms, counts):
    """The first number that applies to a report on many traces; counts is how many are lent. (R-number-47, R-number-48)"""
    if number not in DEVICES:
        return 1
    if counts != 7 * len(froms):
        return 11
    if len(froms) > MOST:
        return 47
    if any(f != number for f in froms):
        return 48
    return 0


def refusal_of_one(number, report_, from_):
    """The same where one trace is added to a report."""
    if number not in DEVICES:
        return 1
    if report_.traces >= MOST:
        return 47
    return 48 if from_ != number else 0


def one_more(r, trace):
    """A report as a host may hold it, with one trace more: sums stop where their bits end."""
    blocks = []
    for t, n in zip(r.blocks, trace):
        least = n if r.traces == 0 else min(t.smallest, n)
        blocks.append(Tally(min(t.total + n, TOP), max(t.largest, n), least, min(t.passed + (n > SHEET), STOP)))
    return Report(min(r.traces + 1, STOP), tuple(blocks))


class Desk:
    """Runs the cases one after the other, and keeps the rows of the table and the expected lines."""

    def __init__(self):
        self.number, self.froms, self.traces, self.lent = 0, [], [], (0, 0)
        self.held, self.added = NONE, []
        self.name, self.count, self.rows, self.lines = "    ", 0, [], []

    def row(self, text, note=""):
        self.rows.append(f"{text:90}{note}".rstrip())

    def say(self, letter, given, r):
        self.count += 1
        blocks = "".join(" | " + " ".join(map(str, t)) for t in r.blocks)
        self.lines.append(f"{self.name} {self.count} {letter} {given} {r.traces}{blocks}")

    def group(self, name, note):
        self.name = name
        self.row(f"G {name}", note)

    def about(self, number):
        self.number, self.froms, self.traces, self.lent, self.held, self.added = number, [], [], (0, 0), NONE, []
        self.row(f"N {number:03d}")

    def more(self, trace, from_=None, times=1, note=""):
        from_ = self.number if from_ is None else from_
        self.froms += [from_] * times
        self.traces += [tuple(trace)] * times
        self.lent = len(self.froms), 7 * len(self.froms)
        self.row(f"T {from_:03d} {times:05d} " + " ".join(f"{n:010d}" for n in trace), note)

    def lend(self, numbers, counts):
        self.lent = numbers, counts
        self.row(f"L {numbers:05d} {counts:06d}")

    def whole(self, note, expected=0):
        numbers, counts = self.lent
        given = refusal(self.number, self.froms[:numbers], counts)
        assert given == expected, (note, given)
        self.row("R", note)
        self.say("R", given, NONE if given else report(self.traces[:numbers]))

    def hand(self, traces, total, largest, smallest, passed, note=""):
        self.held, self.added = Report(traces, (Tally(total, largest, smallest, passed),) * 7), None
        self.row(f"H {traces:010d} {total >> 32:010d} {total & STOP:010d} {largest:010d} {smallest:010d} {passed:010d}", note)

    def add(self, trace, from_=None, note="", expected=0):
        """One trace more. Where the report began with none here, what is held is the report on the traces so far."""
        from_ = self.number if from_ is None else from_
        given = refusal_of_one(self.number, self.held, from_)
        assert given == expected, (note, given)
        if not given and self.added is not None:
            self.added.append(tuple(trace))
            self.held = report(self.added)
        elif not given:
            self.held = one_more(self.held, trace)
        self.row(f"A {from_:03d} {'':5} " + " ".join(f"{n:010d}" for n in trace), note)
        self.say("A", given, self.held)

    def put(self, trace, note):
        """One trace more, by the rule that asks nothing."""
        self.held, self.added = one_more(self.held, trace), None
        self.row(f"P {'':9} " + " ".join(f"{n:010d}" for n in trace), note)
        self.say("P", 0, self.held)

    def show(self, note):
        self.row("O", note)
        self.say("O", 0, self.held)


# ---------------------------------------------------------------- the cases

SOME = (11, 22, 33, 44, 55, 66, 77)


def alike(n):
    return (n,) * 7


def no_traces(d):  # R-wear-2
    d.group("none", "no traces give zeros, the smallest too; numbers that no device has")
    for number in DEVICES:
        d.about(number)
        d.show(f"device {number}: the report on no traces")
        d.whole("and over slices")
    for number in (0, 9, 255):
        d.about(number)
        d.whole(f"1: number {number}", 1)
        d.add(SOME, note="1", expected=1)
        d.more(SOME, number)
        d.whole("1: a trace from it", 1)


def one_trace(d):
    d.group("one ", "one trace: its counts are total, largest and smallest")
    for number in DEVICES:
        d.about(number)
        d.more(SOME)
        d.whole(f"device {number}")
        d.add(SOME, note="added to none")
    for k in range(7):
        d.about(8)
        d.more(tuple(SOME[k] if j == k else 0 for j in range(7)))
        d.whole(f"block {k} alone")


def many_traces(d):  # R-wear-2
    d.group("many", "several traces, in one order and in another; added one by one, the report on the first of them each time")
    traces = (SOME, (3, 100, 33, 0, 9, 100001, 1), (7, 1, 99, 5, 8, 100000, 2), alike(0), (50, 2, 32, 45, 54, 67, 76), alike(12), SOME)
    for order in (traces, traces[::-1], traces[3:] + traces[:3]):
        d.about(7)
        for trace in order:
            d.more(trace)
            d.add(trace)
        d.whole("over slices")
        for n in (1, 2, 6):
            d.lend(n, 7 * n)
            d.whole(f"the first {n} of them")


def passed(d):  # R-wear-2
    d.group("pass", "the sheet's 100,000: passed is over it")
    for n in (99999, 100000, 100001):
        d.about(3)
        d.more(alike(n))
        d.whole(f"{n}")
        d.more(alike(0))
        d.more(alike(n), times=5)
        d.whole(f"{n}, six times")
    for k in range(7):
        d.about(5)
        for n in (99999, 100000, 100001, 100002):
            d.add(tuple(n if j == k else 100000 for j in range(7)), note=f"block {k}: {n}")


def at_the_stop(d):  # R-wear-1, R-wear-2
    d.group("stop", "counts at the stop, and totals over 32 bits")
    d.about(8)
    d.more(alike(STOP))
    d.whole("one")
    d.more((STOP, STOP - 1, 0, 1, STOP, 2, STOP))
    d.whole("two: totals over 32 bits")
    d.more(alike(STOP), times=998)
    d.whole("a thousand")
    d.about(4)
    d.more((0, STOP, 0, STOP, 0, STOP, 0), times=256)
    d.add((STOP, 1, STOP, 1, STOP, 1, STOP))
    d.add((STOP, 1, STOP, 1, STOP, 1, STOP))
    d.whole("every second block")


def lengths(d):  # R-number-11
    d.group("leng", "11: counts that are not seven for each trace, before 47 and 48")
    d.about(6)
    for counts in (1, 6, 7):
        d.lend(0, counts)
        d.whole(f"no traces and {counts} counts", 11)
    d.more(SOME, times=3)
    for numbers, counts in ((3, 20), (3, 22), (3, 14), (3, 28), (3, 0), (3, 3), (2, 21), (0, 21), (1, 8)):
        d.lend(numbers, counts)
        d.whole(f"{numbers} traces and {counts} counts", 11)
    d.lend(3, 21)
    d.whole("3 and 21")
    d.more(SOME, 5)
    d.lend(4, 27)
    d.whole("11 before 48", 11)
    d.lend(4, 28)
    d.whole("48", 48)
    d.lend(3, 21)
    d.whole("what is not lent is not looked at")


def most_traces(d):  # R-number-47
    d.group("most", "65,535 traces, and one more: 47, before 48")
    d.about(3)
    d.more(alike(STOP), times=65534, note="all but one at the stop")
    d.more((0, 1, 100000, 100001, STOP, 5, 6))
    d.whole("65,535")
    d.more(SOME, 4)
    d.whole("65,536: 47, although the last is from another", 47)
    d.lend(65536, 458751)
    d.whole("11 before 47", 11)
    d.lend(65535, 458745)
    d.whole("65,535 again")
    d.about(9)
    d.more(SOME, times=65535)
    d.more(SOME, 4)
    d.lend(65536, 458751)
    d.whole("1 before 11, 47 and 48", 1)


def others(d):  # R-number-48
    d.group("othr", "48: the first, a middle or the last trace from another device number, any other")
    for number, other in ((1, 2), (2, 1), (3, 4), (8, 7), (5, 0), (6, 9), (7, 255)):
        for place in (0, 1, 2):
            d.about(number)
            for i in range(3):
                d.more(SOME, other if i == place else number)
            d.whole(f"48: device {number}, trace {place} from {other}", 48)
        d.add(SOME)
        d.add(alike(1), other, "48: the report as it was", 48)


def handed(d):
    d.group("host", "reports as a host may hand them back: 47 at 65,535, sums that stop where their bits end")
    d.about(2)
    d.hand(65534, 7 * 2**40, 5, 3, 9)
    d.add(SOME, note="the last that is taken")
    d.add(SOME, note="47: the report as it was", expected=47)
    d.add(SOME, 1, "47 before 48", 47)
    d.put(alike(100001), "65,536 where nothing is asked")
    d.hand(STOP, 1, 1, 1, 1)
    d.add(SOME, note="47", expected=47)
    d.put(SOME, "and where nothing is asked: the number of traces has no room")
    d.put(alike(0), "and once more")
    for total in (TOP, TOP - 11, TOP - 10, TOP - 77, TOP - STOP):
        d.hand(1, total, 40, 40, 1)
        d.add(SOME, note=f"a total of {total}")
        d.hand(1, total, 40, 40, 1)
        d.add(alike(STOP), note="and counts at the stop")
    d.hand(1, 0, 0, 0, STOP)
    d.add((100000, 100001, 0, STOP, 100001, 1, 2), note="passed has no room")
    d.hand(0, 5, 6, 7, 8)
    d.add(SOME, note="no traces: the smallest is this one's own")
    d.hand(1, 5, 6, 7, 8)
    d.add(SOME, note="one trace: the smaller")
    d.about(0)
    d.put(SOME, "a first trace where nothing is asked")
    d.put(alike(40), "and a second")
    d.hand(65535, 5, 6, 7, 8)
    d.add(SOME, 3, "1 before 47 and 48", 1)


PARTS = (no_traces, one_trace, many_traces, passed, at_the_stop, lengths, most_traces, others, handed)


def all_cases():
    d = Desk()
    for part in PARTS:
        part(d)
    return d


if __name__ == "__main__":
    called("vectors_wear", all_cases, __doc__)
