# The bytes from the line at fault on, as numbers: says in words which rule of groups and limits it breaks, and nothing where it is just
# no line. -v number: the line's number; -v before: a file with the lines before it, which are good.
BEGIN {
    while ((getline good < before) > 0) {
        at++
        if (substr(good, 1, 1) == "(") opened[++depth] = at
        else if (good == ")") depth--
    }
}
{ for (i = 1; i <= NF; i++) byte[++n] = $i + 0 }

# the line's letters, as far as they are letters
function letters(    text, i) {
    for (i = 1; i <= n && byte[i] != 10; i++) text = text (byte[i] >= 32 && byte[i] < 127 ? sprintf("%c", byte[i]) : "?")
    ended = i <= n
    return text
}

END {
    if (n == 0) { print "the script ends, and the group that line " opened[depth] " opens is not closed"; exit }
    if (number == 3001) { print "a script has at most 3,000 lines"; exit }
    text = letters()
    first = substr(text, 1, 1)
    if ((first == "(" || first == ")") && length(text) > 1 && byte[length(text)] == 13) {
        print "it ends in a carriage return; save the file with Unix line ends"
        exit
    }
    if (text ~ /^\( [0-9][0-9][0-9]$/ || text == ")") {
        if (!ended) print "it has no newline at its end"
        else if (text == "( 000") print "a group is repeated 001 to 999 times, not 000"
        else if (first == "(") print "a ninth level: groups stand at most eight deep"
        else if (depth == 0) print "it closes a group, and none is open"
        else print "the group that line " opened[depth] " opens is empty"
        exit
    }
    if (first == "(") { print "a group is opened by '(', a space and three digits, as in '( 012'"; exit }
    if (first == ")") { print "a group is closed by ')' alone on its line"; exit }
    if (ended && text ~ /^[RWI] [0-9] [0-9] [0-9][0-9][0-9][0-9][0-9] [0-9A-F][0-9A-F][0-9A-F][0-9A-F] [0-9A-F][0-9A-F]$/)
        print "with it more than 9,998 lines are written out; it counts as often as the groups around it repeat it"
}
