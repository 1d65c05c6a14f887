# A table as CSV becomes a table in text, line by line, so that line numbers stay: microvolts, a space, tenths of a degree. Comments, blank
# lines and one heading become '#'. At the first line that is no knot the last line of the output says so, and the status is 1.
function trimmed(s) {
    sub(/^[ \t]+/, "", s)
    sub(/[ \t]+$/, "", s)
    if (s ~ /^".*"$/ && length(s) >= 2) {
        s = substr(s, 2, length(s) - 2)
        sub(/^[ \t]+/, "", s)
        sub(/[ \t]+$/, "", s)
    }
    return s
}

function fault(why) {
    print "line " NR " is no knot: " why
    exit 1
}

# a number as whole multiples of its last place: `places` digits behind the point count, and any further ones are 0
function scaled(s, name, places,    sign, whole, part) {
    if (s !~ /^[-+]?[0-9]+([.][0-9]*)?$/) fault("its " name " are no number: '" shown(s) "'")
    sign = s ~ /^-/ ? "-" : ""
    sub(/^[-+]/, "", s)
    whole = s
    part = ""
    if (index(s, ".")) {
        whole = substr(s, 1, index(s, ".") - 1)
        part = substr(s, index(s, ".") + 1)
    }
    if (substr(part, places + 1) ~ /[1-9]/)
        fault("its " name ", " shown(sign s) ", are finer than " (places ? "tenths" : "whole ones") ", and a knot is not")
    whole = whole (places ? (part == "" ? "0" : substr(part, 1, 1)) : "")
    sub(/^0+/, "", whole)
    return sign (whole == "" ? "0" : whole)
}

# what may be shown of a text
function shown(s) {
    gsub(/[^ -~]/, "?", s)
    return length(s) > 40 ? substr(s, 1, 40) ".." : s
}

{
    if (NR == 1) sub(/^\357\273\277/, "")
    sub(/\r$/, "")
    if ($0 ~ /^[ \t]*(#|$)/) { print "#"; next }
    by = index($0, ";") ? ";" : index($0, "\t") ? "\t" : ","
    n = split($0, field, by)
    if (n == 1) fault("no comma, semicolon or tab parts two numbers")
    for (i = 1; i <= n; i++) field[i] = trimmed(field[i])
    if (!knots && !heading && field[1] ~ /^[^-+.0-9]/ && field[2] ~ /^[^-+.0-9]/) { heading = 1; print "#"; next }
    if (n > 2) fault("it has " n " fields; a knot is two, microvolts and degrees")
    if (by != ",") for (i = 1; i <= 2; i++) if (field[i] ~ /^[-+]?[0-9]+,[0-9]*$/) sub(/,/, ".", field[i])
    knots++
    x = scaled(field[1], "microvolts", 0)
    print x " " scaled(field[2], "degrees", 1)
}
