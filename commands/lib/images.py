#!/usr/bin/env python3
"""Images and load files as text: Intel HEX and Motorola S-records, in plain Python and without a library.

    python3 commands/lib/images.py take FORMAT MOST [SIZE] <TEXT    the bytes of a text
    python3 commands/lib/images.py give FORMAT <BYTES               a text of the bytes

FORMAT is hex or srec. With SIZE the text is a part's: it has SIZE bytes, and those that no record gives are FFH. Without, it is a file's:
it begins at address 0, has MOST bytes at most, and ends at the highest address given. `take` prints how many bytes no record gives, and
on a second line the bytes, each as \\xNN. Status 0: done; 1: the text is at fault, and standard output says in which line and how; 2: it
could not be read.
"""
import sys

WIDTH = 16
TEXT_MOST = 16 << 20
DIGITS = "0123456789ABCDEFabcdef"
STARTS = {"3": 4, "5": 4}
BASES = {"2": 4, "4": 16}
ADDRESS = {"0": 2, "1": 2, "2": 3, "3": 4, "5": 2, "6": 3, "7": 4, "8": 3, "9": 2}


class Fault(Exception):
    """What is wrong with a text: a line and words."""

    def __init__(self, number, words):
        super().__init__(f"line {number}: {words}")


def shown(sign):
    """A letter of the text as one may print it."""
    named = {"\t": "a tab", " ": "a space", "\r": "a carriage return"}
    return named.get(sign, f"'{sign}'" if "!" <= sign <= "~" else "the byte %02XH" % ord(sign))


def lines(data):
    """The lines that are not blank, each with its number, without line ends. A carriage return may stand before a newline."""
    text = data.decode("latin-1")
    for number, line in enumerate(text.split("\n"), 1):
        line = line[:-1] if line.endswith("\r") else line
        if line:
            yield number, line


def octets(number, line, skip):
    """The bytes that a record's digits stand for, behind its first letters."""
    for column, sign in enumerate(line[skip:], skip + 1):
        if sign not in DIGITS:
            raise Fault(number, f"column {column} has {shown(sign)} where a hexadecimal digit stands")
    if (len(line) - skip) % 2:
        raise Fault(number, "its digits are no whole number of bytes")
    return bytes.fromhex(line[skip:])


def first_words(line, sign):
    """Why a line does not begin as a record does."""
    if line.startswith("\xef\xbb\xbf"):
        return "the text begins with a byte-order mark; save it as plain text"
    if line.startswith(("\xff\xfe", "\xfe\xff")):
        return "the text is in two-byte letters (UTF-16); save it as plain text"
    return f"it begins with {shown(line[0])} and not with {sign}, as a record does"


def summed(number, got, want):
    if got != want:
        raise Fault(number, "its checksum is %02X and not %02X: the record is damaged" % (got, want))


class Bytes:
    """The bytes given so far, and the line that gave each."""

    def __init__(self, most, size):
        self.size = size
        self.room = size if size is not None else most
        self.value = bytearray(b"\xff" * self.room)
        self.line = [0] * self.room
        self.end = 0

    def put(self, number, address, data):
        if address + len(data) > self.room:
            owner = "part" if self.size is not None else "file"
            raise Fault(number, "address %04X is outside: a %s has %s bytes here, 0000 to %04X"
                        % (max(address, self.room), owner, f"{self.room:,}", self.room - 1))
        for at, byte in enumerate(data, address):
            if self.line[at] and self.value[at] != byte:
                raise Fault(number, "it gives %02X at address %04X, where line %d gives %02X" % (byte, at, self.line[at], self.value[at]))
            self.value[at] = byte
            self.line[at] = self.line[at] or number
        if data:
            self.end = max(self.end, address + len(data))

    def whole(self):
        """All bytes, and how many of them no record gives."""
        length = self.size if self.size is not None else self.end
        if self.size is None and self.end and not self.line[0]:
            low = next(at for at in range(self.end) if self.line[at])
            raise Fault(self.line[low], "the lowest address is %04X, and a load file begins at 0000" % low)
        return bytes(self.value[:length]), self.line[:length].count(0)


def hex_record(number, line):
    """Type, address and data of a record of Intel HEX."""
    if line[0] != ":":
        raise Fault(number, first_words(line, "':'"))
    record = octets(number, line, 1)
    if len(record) < 5:
        raise Fault(number, "it is too short for a record")
    if len(record) != 5 + record[0]:
        raise Fault(number, f"its length says {record[0]} data bytes, and it has {len(record) - 5}")
    summed(number, record[-1], -sum(record[:-1]) & 255)
    return "%X" % record[3], record[1] << 8 | record[2], record[4:-1]


def hex_take(data, out):
    """Intel HEX: records 00 to 05. Start addresses are taken and ignored."""
    base, ended = 0, 0
    number = 0
    for number, line in lines(data):
        kind, address, body = hex_record(number, line)
        if ended:
            raise Fault(number, f"it stands behind the end record, which is line {ended}")
        want = {"1": 0, "2": 2, "4": 2, **STARTS}.get(kind, len(body))
        if len(body) != want:
            raise Fault(number, f"a record of type 0{kind} has {want} data bytes, not {len(body)}")
        if kind == "0":
            if address + len(body) > 0x10000:
                raise Fault(number, "its bytes go past the end of 64K, where addresses begin anew: which are meant is not told")
            out.put(number, base + address, body)
        elif kind == "1":
            ended = number
        elif kind in BASES:
            base = (body[0] << 8 | body[1]) << BASES[kind]
        elif kind not in STARTS:
            raise Fault(number, f"there is no record of type {int(kind, 16):02X}")
    if not ended:
        raise Fault(number + 1, "the text ends, and there is no end record (:00000001FF)")


def srec_record(number, line):
    """Type, address and data of an S-record."""
    if line[0] != "S":
        raise Fault(number, first_words(line, "'S'"))
    kind = line[1:2]
    if kind not in ADDRESS:
        raise Fault(number, f"there is no record of type S{kind}" if kind and "0" <= kind <= "9" else "behind S stands no digit")
    record = octets(number, line, 2)
    wide = ADDRESS[kind]
    if len(record) < wide + 2:
        raise Fault(number, f"it is too short for a record of type S{kind}")
    if len(record) != 1 + record[0]:
        raise Fault(number, f"its length says {record[0]} bytes behind it, and it has {len(record) - 1}")
    summed(number, record[-1], ~sum(record[:-1]) & 255)
    return kind, int.from_bytes(record[1:1 + wide], "big"), record[1 + wide:-1]


def srec_take(data, out):
    """S-records: S0 and start addresses are taken and ignored, a count is held against the data records."""
    ended, counted, records = 0, 0, 0
    number = 0
    for number, line in lines(data):
        kind, address, body = srec_record(number, line)
        if ended:
            raise Fault(number, f"it stands behind the end record, which is line {ended}")
        if kind in "56789" and body:
            raise Fault(number, f"a record of type S{kind} has no data")
        if kind in "123":
            if counted:
                raise Fault(number, f"data stands behind the count, which is line {counted}")
            records += 1
            out.put(number, address, body)
        elif kind in "56":
            counted = number
            if address != records:
                raise Fault(number, f"it counts {address:,} data records, and there are {records:,}")
        elif kind in "789":
            ended = number
    if not ended:
        raise Fault(number + 1, "the text ends, and there is no end record (S9, S8 or S7)")


def hex_line(kind, address, data):
    record = bytes([len(data), address >> 8 & 255, address & 255, kind]) + data
    return ":" + (record + bytes([-sum(record) & 255])).hex().upper()


def hex_give(data):
    high = 0
    for at in range(0, len(data), WIDTH):
        if at >> 16 != high:
            high = at >> 16
            yield hex_line(4, 0, high.to_bytes(2, "big"))
        yield hex_line(0, at & 0xFFFF, data[at:at + WIDTH])
    yield hex_line(1, 0, b"")


def srec_line(kind, address, data=b""):
    wide = ADDRESS[kind]
    record = bytes([wide + len(data) + 1]) + address.to_bytes(wide, "big") + data
    return f"S{kind}" + (record + bytes([~sum(record) & 255])).hex().upper()


def srec_give(data):
    """S1 and S9, S2 and S8 or S3 and S7, by the highest address."""
    kind = "1" if len(data) <= 1 << 16 else "2" if len(data) <= 1 << 24 else "3"
    records = [srec_line(kind, at, data[at:at + WIDTH]) for at in range(0, len(data), WIDTH)]
    count = srec_line("5" if len(records) < 1 << 16 else "6", len(records))
    return [srec_line("0", 0), *records, count, srec_line({"1": "9", "2": "8", "3": "7"}[kind], 0)]


TAKE = {"hex": hex_take, "srec": srec_take}
GIVE = {"hex": hex_give, "srec": srec_give}


def take(form, most, size=None):
    data = sys.stdin.buffer.read(TEXT_MOST + 1)
    if len(data) > TEXT_MOST:
        print(f"the text is longer than {TEXT_MOST:,} bytes")
        return 1
    out = Bytes(int(most), None if size is None else int(size))
    try:
        TAKE[form](data, out)
        value, missing = out.whole()
    except Fault as fault:
        print(fault)
        return 1
    print(missing)
    print("".join("\\x%02x" % byte for byte in value))
    return 0


def main(asked):
    try:
        if asked[:1] == ["take"]:
            return take(*asked[1:])
        sys.stdout.write("".join(line + "\n" for line in GIVE[asked[1]](sys.stdin.buffer.read())))
        return 0
    except OSError:
        return 2


if __name__ == "__main__":
    sys.exit(main(sys.argv[1:]))
