#!/usr/bin/env bash
# run.sh: counts instructions, the library's and those of the second implementation in C (tests/host/second*) at gcc -O3, in
# one run, and prints a table. The counts are exact: every run of the same two gives the same numbers, on any machine. Both run under
# qemu-x86_64 with count.c.
set -eu
here=$(dirname -- "$(readlink -f -- "$0")")
# shellcheck source=tests/host/tools.sh
. "$here/../tests/host/tools.sh"
archive
table_archive
store_archive
recording_archive
held_archive
compiler
emulator
want 'command -v gcc' gcc libc6-dev

# the emulator's plugin interface is at 1 before qemu 9, and 2 is taken from then on
major=$(qemu-x86_64 --version | sed -n 's/^qemu-x86_64 version \([0-9]*\).*/\1/p')
gcc -O2 -fPIC -shared -DVERSION=$((major < 9 ? 1 : 2)) "$here/count.c" -o "$out/count.so" || fail 3 "the counter could not be built"
second=$here/../tests/host
$CC -std=gnu11 -O3 -Wall -Wextra -Werror -static -I "$inc" -I "$second" "$here/main.c" "$second"/second_*.c "$lib" "$table" "$store" \
    "$recording" "$held" -o "$out/bench" ||
    fail 3 "the bench could not be built"
qemu-x86_64 -cpu qemu64 -plugin "$out/count.so" -d plugin -D "$out/marks" "$out/bench" >"$out/rows" ||
    fail 1 "the library and the second implementation differ: $(tail -n 1 "$out/rows")"

awk '
    function line(name, a, b) {
        if (!rows++) printf "| %-50s | %10s | %10s | %5s |\n|---|---:|---:|---:|\n", "work", "library", "C", "ratio"
        printf "| %-50s | %10.0f | %10.0f | %5.2f |\n", name, a, b, a / b
        if (a / b > worst) worst = a / b
        if (a / b > 1.2) over++
    }
    $1 == "mark" { count[$2] = $3; next }
    $1 == "end" { next }
    { k = 4 * $2; name = $0; sub(/^[a-z]+ [0-9]+ [0-9]+ /, "", name) }
    $1 == "row" { line(name, count[k + 1] / $3, count[k + 3] / $3) }
    $1 == "more" { line(name, (count[k + 1] - count[k - 3]) / $3, (count[k + 3] - count[k - 1]) / $3) }
    END { printf "bench: %d rows, highest ratio %.2f, %d above 1.2\n", rows, worst, over }
' "$out/marks" "$out/rows"
