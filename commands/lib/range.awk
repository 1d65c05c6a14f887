# The knots of a table, as the program prints them: how many, and the lowest and highest temperature and microvolts.
NR == 1 { low = high = $2; from = $1 }
{
    if ($2 < low) low = $2
    if ($2 > high) high = $2
    to = $1
}
END { printf "knots       %d\ndegrees     %.1f to %.1f\nmicrovolts  %d to %d\n", NR, low / 10, high / 10, from, to }
