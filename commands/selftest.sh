# about: tries what was built on samples with known answers, in less than a minute
# shellcheck shell=bash
# Sourced by torfbarke, after commands/lib/common. Standard output is one line; what is not as expected goes to standard error.
root=${root:?}

selftest_help() {
    put "usage: torfbarke selftest

Runs the words of the command on what is built and holds each answer against a stored one: the samples of each word, bench cards of
document 01 as a trace, a load into a blank image of each of the eight devices with the count of cycles by the formula and a verify of what
it left, a table that is read, and a probe's letter that is not the table's, which must be refused. Nothing is proved or built.

One line comes: 'selftest: N of N as expected'; where something is not, standard error says which.

Exit status: 0 all as expected, 1 something is not, 2 a wrong call, 3 the program is not built ('torfbarke build' does it) or cannot be run,
4 the output could not be written, 141 its reader went away.
"
}

# tried NAME STATUS EXPECTED WORDS: the command by these words ends with that status, and prints what the file EXPECTED has
tried() {
    local name=$1 status=$2 expected=$3
    shift 3
    tries=$((tries + 1))
    set +e
    "$root/torfbarke" "$@" 2>/dev/null | cmp -s - "$expected"
    set -- "${PIPESTATUS[@]}"
    set -e
    if [ "$1" = "$status" ] && [ "$2" = 0 ]; then fine=$((fine + 1)); else say "selftest: $name is not as expected"; fi
}

# samples: each a call, a word to a line, what it reads, what it must print, and its status where that is not 0
samples() {
    local sample words input status
    for sample in tests/samples/*.args; do
        mapfile -t words <"$sample"
        sample=${sample%.args} input=/dev/null status=0
        [ ! -e "$sample.stdin" ] || input=$sample.stdin
        [ ! -e "$sample.status" ] || status=$(cat "$sample.status")
        tried "the sample ${sample##*/}" "$status" "$sample.stdout" "${words[@]}" <"$input"
    done
    tried 'the long sample' 1 crates/desk/stdout replay crates/desk/stdin
    tried 'the long sample by the table' 1 crates/desk/stdout replay --engine table crates/desk/stdin
}

blank() { head -c "$1" /dev/zero | tr '\0' '\377'; }

# loads: 2,362 of the 2,560 bytes of k.load are not FFH, so a load into the n bytes of a blank main block has 2n + 3 + 2362 * (2 + 1) cycles
loads() {
    local file=tests/samples/k.load device size n line
    while read -r device size n; do
        line="dry, nothing is written: cycles $((2 * n + 3 + 2362 * 3)), erases begun 0, bytes programmed 2362"
        tried "the count of a load into device $device" 0 <(printf '%s\n' "$line") load --dry - "$device" 3 "$file" K < <(blank "$size")
        tried "a load into device $device" 0 <(echo 'the block holds the file') verify - "$device" 3 "$file" K \
            < <("$root/torfbarke" load -o - - "$device" 3 "$file" K 2>/dev/null < <(blank "$size"))
    done <<'DEVICES'
1 131072 114688
2 131072 114688
3 16384 14336
4 16384 14336
5 262144 98304
6 262144 98304
7 524288 98304
8 524288 98304
DEVICES
    tried 'a load under another letter' 1 <(echo "refused 35: the file's letter is not the one asked for") load --dry - 3 3 "$file" S < <(blank 16384)
}

case ${1-} in
--help | -h)
    selftest_help
    exit 0
    ;;
esac
[ $# = 0 ] || fail 2 "selftest takes nothing behind it; 'torfbarke selftest --help' says more"
unbuilt=yes
program none
export TORFBARKE_PROGRAMS=${built%/*}
cd -- "$root" || fail 3 "the folder $root is closed to you"
tries=0 fine=0
samples
loads
put "selftest: $fine of $tries as expected"$'\n'
[ "$fine" = "$tries" ] || exit 1
