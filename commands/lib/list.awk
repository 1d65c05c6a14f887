# The tables that ship, a row for each file, by the comments at its head. The status is 1 where one is missing.
BEGIN { printf "%-6s  %-13s %19s  %19s  %5s  %11s\n", "letter", "file", "degrees", "microvolts", "knots", "worst error" }
# range: -270.0 to 1372.0 degrees, -6458 to 54886 microvolts
/^# type / { letter = substr($3, 1, 1) }
/^# range: / { warm = $3 " to " $5; volts = $7 " to " $9 }
/^# worst error / { worst = $8 }
/^# knots: / {
    printf "%-6s  %-13s %19s  %19s  %5d  %11s\n", letter, "tables/" letter ".txt", warm, volts, $3, worst
    rows++
}
END { exit rows == 8 ? 0 : 1 }
