#!/usr/bin/env bash
# Time on the wall: a million trace lines through `torfbarke replay`, as 100 traces of 9,998 lines and one of 200; as many calls on an empty
# trace, which is the start-up; and the same million through the program alone, without the command around it. Beside each stand the
# seconds of the processor, which a busy machine does not lengthen. Times are of the machine at hand and differ from run to run; run.sh
# and scripts.sh count. After the clock every answer is looked at: a line for each line, and the long traces all alike.
set -eu
here=$(dirname -- "$(readlink -f -- "$0")")
# shellcheck source=tests/host/tools.sh
. "$here/../tests/host/tools.sh"
program trace # what is proved and built at a first call is so before the clock starts

# trace LINES: 40H, 5AH and a read, address after address of the main block
trace() {
    awk -v lines="$1" 'BEGIN { for (i = 0; i < lines; i++)
        printf i % 3 == 0 ? "W 1 0 12000 %04X 40\n" : i % 3 == 1 ? "W 1 0 12000 %04X 5A\n" : "R 1 0 12000 %04X 00\n", int(i / 3) }'
}
trace 9998 >"$out/long"
trace 200 >"$out/short"
: >"$out/empty"

# replayed FILE TIMES: so many calls; the answers of call i are in FILE.i. alone FILE TIMES: the program without the command
replayed() {
    local i
    for ((i = 1; i <= $2; i++)); do "$root/torfbarke" replay "$1" >"$1.$i" || fail 1 "a replay failed"; done
}
alone() {
    local i
    for ((i = 1; i <= $2; i++)); do start <"$1" >"$1.alone.$i" 2>/dev/null || fail 1 "the program failed"; done
}
million() { "$1" "$out/long" 100 && "$1" "$out/short" 1; }

# clocked COMMAND ..: leaves its seconds in $wall, and those of the processor in $busy
clocked() {
    local user system
    { time "$@" 2>&3; } 3>&2 2>"$out/clock"
    read -r wall user system <"$out/clock"
    busy=$(awk -v a="$user" -v b="$system" 'BEGIN { print a + b }')
}
TIMEFORMAT='%R %U %S'

clocked million replayed
all=$wall all_busy=$busy
clocked replayed "$out/empty" 101
first=$wall first_busy=$busy
clocked million alone

answers() { cat "$@" | grep -c '^[DN] '; }
for ((i = 1; i <= 100; i++)); do
    cmp -s "$out/long.1" "$out/long.$i" || fail 1 "the same trace has other answers"
    cmp -s "$out/long.1" "$out/long.alone.$i" || fail 1 "the program alone has other answers"
done
[ "$(answers "$out"/long.? "$out"/long.?? "$out"/long.??? "$out/short.1")" = 1000000 ] ||
    fail 1 "not every line of the million has an answer"
awk -v all="$all" -v all_busy="$all_busy" -v first="$first" -v first_busy="$first_busy" -v alone="$wall" -v alone_busy="$busy" 'BEGIN {
    printf "wall clock: a million lines in 101 calls of replay %.1f s (processor %.1f), ", all, all_busy
    printf "of them start-up %.1f (%.1f); ", first, first_busy
    printf "the program alone %.1f (%.1f)\n", alone, alone_busy
    printf "lines a second: %.0f, %.0f without the start-up, %.0f by the program alone\n", 1e6 / all, 1e6 / (all - first), 1e6 / alone
    printf "lines a second of the processor: %.0f, %.0f and %.0f\n", 1e6 / all_busy, 1e6 / (all_busy - first_busy), 1e6 / alone_busy }'
