# A script without a fault: prints its lines written out.
{ line[NR] = $0 }

# the lines from a place on, so many times each time round, to the end of their list; gives the place behind it
function list(at, times,    round, next_at) {
    for (round = 1; round <= times; round++) {
        next_at = at
        while (next_at <= NR && line[next_at] != ")") {
            if (substr(line[next_at], 1, 1) == "(") next_at = list(next_at + 1, substr(line[next_at], 3) + 0)
            else { print line[next_at]; next_at++ }
        }
    }
    return next_at + 1
}

END { list(1, 1) }
