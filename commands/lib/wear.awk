# The wear program's table: its columns put under each other, each number as it stands; with -v words=yes a sentence for each block.
# -v traces: how many traces there were.
BEGIN {
    place[0] = "boot block, 3C00-3FFF"; place[1] = "parameter block, 3A00-3BFF"
    place[2] = "parameter block, 3800-39FF"; place[3] = "main block, 0000-37FF"
}
{
    for (c = 1; c <= NF; c++) {
        cell[NR, c] = $c
        if (length($c) > width[c]) width[c] = length($c)
    }
}
function many(n, one, more) { return n == "1" ? "1 " one : n " " more }
END {
    for (r = words == "" ? 1 : 2; r <= NR; r++) {
        if (words == "") {
            line = ""
            for (c = 1; c <= 5; c++) line = line (c > 1 ? "  " : "") sprintf("%" width[c] "s", cell[r, c])
            print line
        } else
            printf "block %s (%s): %s begun in %s; %s at most and %s at least in one; %s passed 100,000\n",
                cell[r, 1], place[cell[r, 1]], many(cell[r, 2], "erase", "erases"), many(traces, "trace", "traces"),
                cell[r, 3], cell[r, 4], cell[r, 5] == "0" ? "none" : cell[r, 5]
    }
}
