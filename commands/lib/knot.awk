# The bytes of a table in text, as numbers: says in words why it is none. -v refused: 40 or 41 where its lines are knots and the table is
# refused, else nothing; -v number: the line at fault, where it is known. Lines that begin with # are comments: the number counts none of
# them, but the words do.
{ for (i = 1; i <= NF; i++) byte[++n] = $i + 0 }

function show(b) { return b == 9 ? "a tab" : b > 32 && b < 127 ? sprintf("'%c'", b) : sprintf("byte %02XH", b) }
function digit(b) { return b >= 48 && b <= 57 }

# the line that begins at a place: its bytes are those from `first` to `last`, and `ended` says whether a newline stands behind them
function line_at(place) {
    first = place
    for (last = place - 1; last < n && byte[last + 1] != 10; last++) ;
    ended = last < n
}

# the number that stands from one place to another: a minus or none and digits. `size` is its digits without leading zeros, ten at most
function number_at(from, to,    i) {
    minus = byte[from] == 45
    size = ""
    for (i = from + minus; i <= to && length(size) < 10; i++) if (size != "" || byte[i] != 48) size = size sprintf("%c", byte[i])
    if (size == "") size = "0"
    return (minus ? -size : size + 0)
}

# the place of the first space of the line
function gap(    i) {
    for (i = first; i <= last && byte[i] != 32; i++) ;
    return i
}

# a byte that is no digit, minus or space
function alien(i,    b, c) {
    b = byte[i]
    c = "column " (i - first + 1) " has "
    if (b == 44 || b == 59) return c show(b) "; one space stands between the two numbers, and nothing else parts them"
    if (b == 9) return c "a tab; one space stands between the two numbers"
    if (b == 46) return c "a point; microvolts and tenths of a degree are whole numbers"
    if (b == 43) return c "'+'; a number has a minus or no sign"
    return c show(b) "; a knot is two numbers with one space between them"
}

# a number that is none: a minus and nothing, a minus inside, too many digits
function crooked(from, to, name,    i) {
    if (from == to && byte[from] == 45) return "its " name " are a minus without a digit"
    for (i = from + 1; i <= to; i++) if (byte[i] == 45) return "column " (i - first + 1) " has a minus inside a number"
    number_at(from, to)
    if (length(size) > 9) return "its " name " have more than nine digits"
    return ""
}

# what is wrong with the line
function fault(    i, spaces, at, why) {
    if (first == 1 && byte[1] == 239 && byte[2] == 187 && byte[3] == 191)
        return "the text begins with a byte-order mark; save it as plain text without one"
    if (first == 1 && ((byte[1] == 255 && byte[2] == 254) || (byte[1] == 254 && byte[2] == 255)))
        return "the text is in two-byte letters (UTF-16); save it as plain text"
    for (i = first; i <= last; i++) if (byte[i] == 13) return "it has a carriage return; save the text with Unix line ends"
    for (i = first; i <= last && (byte[i] == 32 || byte[i] == 9); i++) ;
    if (i > last) return "it is blank"
    for (i = first; i <= last; i++) if (byte[i] != 32 && byte[i] != 45 && !digit(byte[i])) return alien(i)
    if (byte[first] == 32) return "it begins with a space"
    for (i = first; i <= last; i++) if (byte[i] == 32) {
        if (i < last && byte[i + 1] == 32) return "column " (i - first + 2) " has a second space; one stands between the two numbers"
        spaces++
    }
    if (byte[last] == 32) return "it ends in a space"
    if (spaces == 0) return "it has one number; a knot is two, with one space between them"
    if (spaces > 1) return "it has " (spaces + 1) " numbers; a knot is two, microvolts and tenths of a degree"
    at = gap()
    why = crooked(first, at - 1, "microvolts")
    if (why == "") why = crooked(at + 1, last, "tenths of a degree")
    if (why != "") return why
    i = number_at(at + 1, last)
    if (i < -32768 || i > 32767) return "its tenths of a degree, " (minus ? "-" : "") size ", are not from -32768 to 32767"
    if (!ended) return "it has no newline at its end"
    return "look at its form in docs/OPERATORS.md"
}

# the microvolts of the line as text
function volts() {
    number_at(first, gap() - 1)
    return (minus ? "-" : "") size
}

# microvolts that no knot has
function wide(x) { return x + 0 < -10000 || x + 0 > 80000 }

END {
    # the line, and the one before it with its microvolts; where no line is named it is the first whose microvolts are refused
    place = 1
    for (at = 1; place <= n; at++) {
        line_at(place)
        place = last + 2
        if (byte[first] == 35 && first <= last) continue
        count++
        if (number != "" && count == number + 0) break
        if (refused == 41) {
            now = volts()
            if (number == "" && (wide(now) || (count > 1 && now + 0 <= before + 0))) break
            before = now
        }
        prior = at
    }
    if (refused == 40) {
        print "refused 40: a table has two knots at least, and the text has " (count ? "one, in line " prior : "none")
        exit
    }
    if (refused == 41) {
        now = volts()
        print "line " at ": refused 41: its microvolts, " now ", are " (wide(now) ? "not from -10000 to 80000" : "not above those of line " prior ", " before)
        exit
    }
    why = fault()
    if (count > 18853 && why ~ /^look/) print "line " at " is a knot too many: a table has at most 18,853"
    else print "line " at " is no knot: " why
}
