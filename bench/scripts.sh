#!/usr/bin/env bash
# Counts the instructions of the program's word script on one group of 999 lines, ten times over, and those of its word trace on the
# same 9,990
# lines written out: whole runs, from their start to their end. Both must print the same. Under qemu-x86_64 with count.c.
set -eu
here=$(dirname -- "$(readlink -f -- "$0")")
# shellcheck source=tests/host/tools.sh
. "$here/../tests/host/tools.sh"
emulator
want 'command -v gcc' gcc libc6-dev
kit=$(rt doc) && kit=${kit%/docs/*}
loader=/lib64/ld-linux-x86-64.so.2 paths=
if [ "$(uname -m)" != x86_64 ]; then
    paths=$kit/on/$(uname -m)/toolchain/lib
    loader=$paths/ld-linux-x86-64.so.2
fi

major=$(qemu-x86_64 --version | sed -n 's/^qemu-x86_64 version \([0-9]*\).*/\1/p')
gcc -O2 -fPIC -shared -DVERSION=$((major < 9 ? 1 : 2)) "$here/count.c" -o "$out/count.so" || fail 3 "the counter could not be built"

lines() { awk 'BEGIN { for (i = 0; i < 333; i++) printf "W 1 0 12000 %04X 40\nW 1 0 12000 %04X 5A\nR 1 0 12000 %04X 00\n", i, i, i }'; }
{ printf '( 010\n' && lines && printf ')\n'; } >"$out/script"
for _ in 1 2 3 4 5 6 7 8 9 10; do lines; done >"$out/trace"

# counted WORD: the instructions of the program by that word on the text of that name
counted() {
    program "$1"
    qemu-x86_64 -cpu qemu64 -plugin "$out/count.so" -d plugin -D "$out/$1.marks" "$loader" ${paths:+--library-path "$paths"} "$built" "$1" \
        <"$out/$1" >"$out/$1.out" || fail 1 "the program failed by $1"
    sed -n 's/^end //p' "$out/$1.marks"
}
one=$(counted script)
other=$(counted trace)
cmp -s "$out/script.out" "$out/trace.out" || fail 1 "the two print different answers"
awk -v a="$one" -v b="$other" 'BEGIN {
    printf "| script: a group of 999 lines, ten times | %d | %d | %.2f |\n", a, b, a / b
    printf "bench of scripts: %.0f instructions a line, %.0f written out\n", a / 9990, b / 9990
}'
