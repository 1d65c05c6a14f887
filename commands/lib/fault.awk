# The bytes from the bad line on, as numbers: says in words what is wrong with the line. -v number: the line's number. -v form=recording:
# it is to be a line of a recording, a trace's with the answer seen and the busy count behind it.
BEGIN { letters = form == "recording" ? 30 : 19 }
{ for (i = 1; i <= NF; i++) byte[++n] = $i + 0 }

function show(b) { return b == 9 ? "a tab" : b == 32 ? "a space" : b > 32 && b < 127 ? sprintf("'%c'", b) : sprintf("byte %02XH", b) }
function digit(b) { return b >= 48 && b <= 57 }
function hex(b) { return digit(b) || (b >= 65 && b <= 70) }

# what a column asks for, and whether a byte is that
function wanted(c) {
    if (c == 2 || c == 4 || c == 6 || c == 12 || c == 17 || c == 20 || c == 22 || c == 25) return "a space"
    if (c == 21) return "D or N"
    if (c == 23 || c == 24) return byte[21] == 78 ? "a dash" : "a hexadecimal digit"
    if (c == 26) return "a digit or a dash"
    if (c > 26) return byte[26] == 45 ? "a dash" : "a digit"
    return c == 1 ? "R, W or I" : c >= 13 ? "a hexadecimal digit" : "a digit"
}
function fits(c, b, want) {
    want = wanted(c)
    if (want == "a space") return b == 32
    if (want == "a dash") return b == 45
    if (want == "D or N") return b == 68 || b == 78
    if (want == "R, W or I") return b == 82 || b == 87 || b == 73
    if (want == "a digit or a dash") return digit(b) || b == 45
    return want == "a digit" ? digit(b) : hex(b)
}

END {
    if (number == 9999 && form == "recording") {
        print "a recording has at most 9,998 lines; split it where the part is idle (each check begins with a fresh chip)"
        exit
    }
    if (number == 9999) { print "a trace has at most 9,998 lines; split it (each replay begins with a fresh chip)"; exit }
    for (len = 0; len < n && byte[len + 1] != 10; len++) ;
    ended = len < n
    if (number == 1 && byte[1] == 239 && byte[2] == 187 && byte[3] == 191) {
        print "the file begins with a byte-order mark; save it as plain text without one"
        exit
    }
    if (number == 1 && ((byte[1] == 255 && byte[2] == 254) || (byte[1] == 254 && byte[2] == 255))) {
        print "the file is in two-byte letters (UTF-16); save it as plain text"
        exit
    }
    if (ended && (len == 0 || (len == 1 && byte[1] == 13))) { print "it is blank"; exit }
    if (len > 0 && byte[len] == 13) { print "it ends in a carriage return; save the file with Unix line ends"; exit }
    if (!ended && len == letters) { print "it has no newline at its end"; exit }
    if (len < letters) { print "it is too short: " len (len == 1 ? " letter" : " letters") " before its end, not " letters; exit }
    if (len > letters) {
        print "it is too long: " (n == 200 && !ended ? "more than 199" : len) " letters before its end, not " letters
        exit
    }
    for (c = 1; c <= letters; c++) if (!fits(c, byte[c])) {
        small = byte[c] >= 97 && byte[c] <= 122 ? ", a small letter," : ""
        print "column " c " has " show(byte[c]) small " where " wanted(c) " stands" (small != "" ? " (capitals only)" : "")
        exit
    }
    print "look at its form in docs/OPERATORS.md"
}
