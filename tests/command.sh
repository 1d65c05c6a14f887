#!/usr/bin/env bash
# command.sh: drives ./torfbarke the way a person would: every way to hand over a trace or a script, either engine, every fault of a line,
# wrong calls, recordings, stores, tables, output that cannot be written, dumps, a first call that builds, is killed or finds another's
# folder, calls at the same time. Where TORFBARKE_PROGRAMS names a folder with the programs they are taken from there; otherwise the first
# call proves and builds them. Expected answers are those of the page's own example.
# A caller that ignores HUP, as nohup does, would make all that is tried here ignore it. (Python ignores PIPE: that is put back too.)
case $(trap -p HUP) in *"''"*)
    exec python3 -c 'import os, sys
from signal import SIGHUP, SIGPIPE, SIG_DFL, signal
signal(SIGHUP, SIG_DFL), signal(SIGPIPE, SIG_DFL)
os.execvp("bash", ["bash"] + sys.argv[1:])' "$0" "$@" ;;
esac
set -eu
unset CDPATH
root=$(cd "$(dirname "$0")/.." && pwd)
work=$(mktemp -d)
trap 'umount "$work/small" 2>/dev/null || :; rm -rf "$work"' EXIT
cases=0

wrong() {
    printf 'tests/command.sh: %s\n' "$1" >&2
    sed 's/^/  out: /' "$work/out" | head -n 5 >&2
    sed 's/^/  err: /' "$work/err" | head -n 5 >&2
    exit 1
}

# try NAME STATUS OUT ERR: the last call, kept by `call`, ended so: standard output is the text OUT, standard error has the words ERR
call() {
    status=0
    "$@" >"$work/out" 2>"$work/err" || status=$?
}
try() {
    cases=$((cases + 1))
    [ "$status" = "$2" ] || wrong "$1: status $status, not $2"
    [ "$3" = '*' ] || printf '%s' "$3" | cmp -s - "$work/out" || wrong "$1: other answers"
    if [ -z "$4" ]; then [ ! -s "$work/err" ] || wrong "$1: words on standard error"; else grep -qF -- "$4" "$work/err" || wrong "$1: standard error lacks '$4'"; fi
}

# one NAME STATUS OUT ERR: the same, and standard error is one line
one() {
    try "$@"
    [ "$(wc -l <"$work/err")" = 1 ] || wrong "$1: not one line on standard error"
}

page='W 1 0 12000 0010 40
W 1 0 12000 0010 5A
R 1 0 12000 0010 00
R 1 0 12000 0010 00
W 1 0 12000 0000 FF
R 1 0 12000 0010 00
W 1 0 12000 0000 00
R 1 0 05000 4000 00
'
answers='N -- 80
N -- 00
D 00 00
D 80 80
N -- 80
D 5A 80
X 07 80
X 05 80
'
printf '%s' "$page" >"$work/page.txt"
tb=$root/torfbarke
# whatever has to be built is built here
"$tb" replay "$work/page.txt" >/dev/null
"$tb" replay --engine table "$work/page.txt" >/dev/null

# the ways to hand over a trace (R-trace-1, R-trace-2, R-trace-4)
call "$tb" replay "$work/page.txt"; try 'a file' 0 "$answers" ''
call "$tb" replay <"$work/page.txt"; try 'standard input' 0 "$answers" ''
# shellcheck disable=SC2002
piped() { cat "$work/page.txt" | "$tb" replay "$@"; }
call piped; try 'a pipe' 0 "$answers" ''
call piped -; try 'a pipe, by its name' 0 "$answers" ''
call piped /dev/stdin; try '/dev/stdin' 0 "$answers" ''
mkfifo "$work/fifo"
cat "$work/page.txt" >"$work/fifo" &
call "$tb" replay "$work/fifo"; try 'a FIFO' 0 "$answers" ''
ln -s "$tb" "$work/link"
call "$work/link" replay "$work/page.txt"; try 'through a link' 0 "$answers" ''
[ ! -e "$work/target" ] || wrong 'a folder is left beside the link'
cp "$work/page.txt" "$work/-x"
in_work() { (cd "$work" && "$@"); }
call in_work "$tb" replay ./-x; try 'a file named -x' 0 "$answers" ''
call in_work "$tb" replay -- -x; try 'a file named -x, after --' 0 "$answers" ''
call in_work "$tb" replay -x; try 'an option that is none' 2 '' './-x'
call in_work env CDPATH=/tmp "$tb" replay page.txt; try 'with CDPATH' 0 "$answers" ''
: >"$work/empty"
call "$tb" replay "$work/empty"; try 'an empty trace' 0 '' ''
call "$tb" replay --sample; try 'the sample' 0 '*' ''
grep -q '^?' "$work/out" && wrong 'the sample does not end well'
call "$tb" replay "$root/samples/bad-line.txt"; try 'the sample of a bad line' 1 'N -- 80
? 0002
' 'small letter'
call "$tb" replay --words "$work/page.txt"; try 'in words' 0 '*' ''
[ "$(wc -l <"$work/out")" = 8 ] || wrong 'in words: not a line for each'
grep -q 'W 1 0 12000 0000 00  X 07 80 .*refused by 7' "$work/out" || wrong 'in words: 7 is not told'
grep -q 'R 1 0 12000 0010 00  D 5A 80 .*gave 5A; ready' "$work/out" || wrong 'in words: the byte is not told'

# the samples: a call, a word to a line, what it reads, what it must print, and its status where that is not 0
in_root() { (cd "$root" && "$@"); }
for sample in "$root"/tests/samples/*.args; do
    mapfile -t words <"$sample"
    sample=${sample%.args} input=/dev/null ends=0
    [ ! -e "$sample.stdin" ] || input=$sample.stdin
    [ ! -e "$sample.status" ] || ends=$(cat "$sample.status")
    call in_root "$tb" "${words[@]}" <"$input"; try "the sample ${sample##*/}" "$ends" '*' ''
    cmp -s "$sample.stdout" "$work/out" || wrong "the sample ${sample##*/}: other answers"
done
call "$tb" replay "$root/crates/desk/stdin"; one 'the long sample' 1 '*' 'is no line of a trace'
cmp -s "$root/crates/desk/stdout" "$work/out" || wrong 'the long sample: other answers'

# wrong calls
call "$tb"; try 'no word' 2 '' 'replay'
call "$tb" --help; try '--help' 0 '*' ''
call "$tb" --version; try '--version' 0 '*' ''
[ "$(head -n 1 "$work/out")" = "torfbarke $(cat "$root/VERSION")" ] || wrong '--version: another version'
grep -qF "proved with the kit: $(cat "$root/KIT")" "$work/out" || wrong '--version: another kit'
for word in build clean selftest; do
    call "$tb" "$word" --help; try "$word --help" 0 '*' ''
    grep -q 'Exit status' "$work/out" || wrong "$word --help: no statuses"
    call "$tb" "$word" now; one "$word: a word too many" 2 '' 'takes nothing behind it'
done
if [ -n "${TORFBARKE_PROGRAMS-}" ]; then
    call "$tb" selftest; try 'selftest' 0 'selftest: 29 of 29 as expected
' ''
    # a program that says nothing, and one that is not built
    mkdir "$work/mute"
    printf '#!/bin/sh\nexit 0\n' >"$work/mute/desk"
    chmod 755 "$work/mute" "$work/mute/desk"
    mute() { TORFBARKE_PROGRAMS=$work/mute "$tb" selftest; }
    call mute; try 'selftest of a program that says nothing' 1 'selftest: 0 of 29 as expected
' 'selftest: the sample cards is not as expected'
    [ "$(wc -l <"$work/err")" = 29 ] || wrong 'selftest of a program that says nothing: not a line for each'
    unbuilt() { env -u TORFBARKE_PROGRAMS XDG_CACHE_HOME="$work/unbuilt" "$tb" selftest; }
    if command -v rt >/dev/null; then call unbuilt; one 'selftest with nothing built' 3 '' "not proved and built yet: 'torfbarke build' does it"; fi
fi
call "$tb" replay --help; try 'replay --help' 0 '*' ''
grep -q 'Exit status' "$work/out" || wrong 'replay --help: no statuses'
call "$tb" reply; try 'a word that is none' 2 '' "no word 'reply'"
call "$tb" replay ''; try 'an empty name' 2 '' 'empty'
call "$tb" replay "$work/nowhere"; try 'no such file' 2 '' 'there is no file'
call "$tb" replay "$work"; try 'a folder' 2 '' 'folder'
call "$tb" replay "$work/page.txt" "$work/page.txt"; try 'two files' 2 '' 'one trace'
call "$tb" replay --sample "$work/page.txt"; try 'a file and the sample' 2 '' 'not both'
if command -v script >/dev/null; then
    call script -qec "'$tb' replay" /dev/null </dev/null
    cases=$((cases + 1))
    [ "$status" = 2 ] || wrong 'on a terminal: another status'
    grep -q 'no trace' "$work/out" || wrong 'on a terminal: nothing is told'
fi
call "$tb" replay "$work/page.txt" --words; try 'an option behind the file' 0 '*' ''
[ "$(wc -l <"$work/out")" = 8 ] || wrong 'an option behind the file: not in words'
call "$tb" replay "$work/page.txt" --word; one 'an option behind the file that is none' 2 '' 'no option --word'
call "$tb" replay <"$work"; one 'a folder as standard input' 2 '' 'standard input could not be read'
call "$tb" ''; one 'an empty word' 2 '' 'the word is empty'

# what is wrong with a line, in words: the bytes of the second line (the first where a mark has to come first) (R-trace-3)
line() { # line NAME WORDS BYTES
    printf 'W 1 0 12000 0010 40\n%b' "$3" >"$work/bad.txt"
    call "$tb" replay "$work/bad.txt"; try "$1" 1 'N -- 80
? 0002
' "$2"
}
line 'too short' 'too short: 5 letters' 'R 1 0\nR 1 0 12000 0010 00\n'
line 'too long' 'too long: 20 letters' 'R 1 0 12000 0010 000\n'
line 'a carriage return' 'carriage return' 'R 1 0 12000 0010 00\r\n'
line 'a blank line' 'blank' '\nR 1 0 12000 0010 00\n'
line 'a small letter at column 14' "column 14 has 'a', a small letter" 'R 1 0 12000 0a10 00\n'
line 'a tab' 'column 2 has a tab' 'R\t1 0 12000 0010 00\n'
line 'no newline' 'no newline' 'R 1 0 12000 0010 00'
line 'a wrong kind' 'column 1' 'X 1 0 12000 0010 00\n'
line 'a sign' "column 7 has '-'" 'R 1 0 -2000 0010 00\n'
line 'a byte of zero' 'byte 00H' 'R 1 0 12000\00000010 00\n'
printf '\357\273\277%s' "$page" >"$work/bad.txt"
call "$tb" replay "$work/bad.txt"; try 'a byte-order mark' 1 '? 0001
' 'byte-order mark'
yes 'I 1 0 12000 0000 00' | head -n 9998 >"$work/most.txt"
call "$tb" replay "$work/most.txt"; try '9,998 lines' 0 '*' ''
[ "$(grep -c '^N -- 80$' "$work/out")" = 9998 ] || wrong '9,998 lines: not all answered'
yes 'I 1 0 12000 0000 00' | head -n 20000 >"$work/more.txt"
call "$tb" replay "$work/more.txt"; try 'too many lines' 1 '*' 'at most 9,998'
[ "$(tail -n 1 "$work/out")" = '? 9999' ] || wrong 'too many lines: no mark'

# either engine: the answers, the words and the status are those of the call that names none, wherever the option stands (R-table-2)
either() { # either NAME STATUS ARGUMENTS
    local name=$1 ends=$2 engine
    shift 2
    call "$tb" replay "$@"
    [ "$status" = "$ends" ] || wrong "$name: status $status, not $ends"
    cp "$work/out" "$work/named.out"
    cp "$work/err" "$work/named.err"
    for engine in rules table; do
        call "$tb" replay --engine "$engine" "$@"
        cases=$((cases + 1))
        [ "$status" = "$ends" ] || wrong "$name, by the $engine: status $status, not $ends"
        cmp -s "$work/named.out" "$work/out" || wrong "$name, by the $engine: other answers"
        cmp -s "$work/named.err" "$work/err" || wrong "$name, by the $engine: other words on standard error"
    done
}
worn=$root/tests/samples
for words in '' --words; do
    # shellcheck disable=SC2086
    {
        either "the sample $words" 0 $words --sample
        either "the page's example $words" 0 $words "$work/page.txt"
        either "an empty trace $words" 0 $words "$work/empty"
        either "erases, one cut by a reset $words" 0 $words "$worn/first.txt"
        either "the boot block, a suspend and a resume $words" 0 $words "$worn/second.txt"
        either "the long sample, to its bad line $words" 1 $words "$root/crates/desk/stdin"
        either "the sample of a bad line $words" 1 $words "$root/samples/bad-line.txt"
        either "9,998 lines $words" 0 $words "$work/most.txt"
        either "too many lines $words" 1 $words "$work/more.txt"
    }
done
call "$tb" replay --engine table "$work/page.txt"; try 'by the table' 0 "$answers" ''
call "$tb" replay --engine rules "$work/page.txt"; try 'by the rules' 0 "$answers" ''
call piped --engine table; try 'by the table, from a pipe' 0 "$answers" ''
call piped --engine table -; try 'by the table, from a pipe by its name' 0 "$answers" ''
call "$tb" replay "$work/page.txt" --engine table; try 'an engine behind the file' 0 "$answers" ''
call "$tb" replay --engine rules --engine table "$work/page.txt"; try 'two engines: the last counts' 0 "$answers" ''
call in_work "$tb" replay --engine table -- -x; try 'by the table, a file named -x' 0 "$answers" ''
"$tb" replay --words --sample >"$work/named.out"
for words in '--words --engine table --sample' '--engine table --words --sample' '--sample --words --engine table' '--words --sample --engine table'; do
    # shellcheck disable=SC2086
    call "$tb" replay $words; try "$words" 0 '*' ''
    cmp -s "$work/named.out" "$work/out" || wrong "$words: other answers"
done
call "$tb" replay --engine; one 'no engine named' 2 '' '--engine has no name behind it: rules or table'
call "$tb" replay "$work/page.txt" --engine; one 'no engine named behind the file' 2 '' '--engine has no name behind it: rules or table'
call "$tb" replay --engine tables "$work/page.txt"; one 'an engine that is none' 2 '' "there is no engine 'tables': it is rules or table"
call "$tb" replay --engine Table "$work/page.txt"; one 'an engine in a capital' 2 '' "there is no engine 'Table'"
call "$tb" replay --engine '' "$work/page.txt"; one 'an empty engine' 2 '' "there is no engine ''"
call "$tb" replay --engine --words "$work/page.txt"; one 'an option for an engine' 2 '' "there is no engine '--words'"
call "$tb" replay --engine x --engine table "$work/page.txt"; one 'an engine that is none, then one' 2 '' "there is no engine 'x'"
call "$tb" replay --engine table "$work/nowhere"; one 'by the table: no such file' 2 '' 'there is no file'
call "$tb" replay --engine table --sample "$work/page.txt"; one 'by the table: a file and the sample' 2 '' 'not both'
call "$tb" replay --engine table --word; one 'by the table: an option that is none' 2 '' 'no option --word'
call "$tb" replay -- --engine; one 'a file named --engine that is not there' 2 '' 'there is no file --engine'
call "$tb" replay --help --engine; try 'replay --help before the rest' 0 '*' ''
call "$tb" script --engine table "$work/page.txt"; one 'a script has no engines' 2 '' 'script has no option --engine'

# a recording of a trace: the page's first six lines and an erase, the recording worked out by hand from the rules: P is 2, E is 3, an idle
# cycle counts nothing while an erase is awaited, and a count stands at the two starts alone (R-recording-3)
record_trace='W 1 0 12000 0010 40
W 1 0 12000 0010 5A
R 1 0 12000 0010 00
R 1 0 12000 0010 00
W 1 0 12000 0000 FF
R 1 0 12000 0010 00
W 1 0 12000 3A00 20
I 1 0 12000 0000 00
W 1 0 12000 3A00 D0
R 1 0 12000 3A00 00
R 1 0 12000 3A00 00
R 1 0 12000 3A00 00
'
recorded='W 1 0 12000 0010 40 N -- -----
W 1 0 12000 0010 5A N -- 00002
R 1 0 12000 0010 00 D 00 -----
R 1 0 12000 0010 00 D 80 -----
W 1 0 12000 0000 FF N -- -----
R 1 0 12000 0010 00 D 5A -----
W 1 0 12000 3A00 20 N -- -----
I 1 0 12000 0000 00 N -- -----
W 1 0 12000 3A00 D0 N -- 00003
R 1 0 12000 3A00 00 D 00 -----
R 1 0 12000 3A00 00 D 00 -----
R 1 0 12000 3A00 00 D 80 -----
'
printf '%s' "$record_trace" >"$work/record.txt"
"$tb" replay --record "$work/record.txt" >/dev/null
call "$tb" replay --record "$work/record.txt"; try 'a recording' 0 "$recorded" ''
call "$tb" replay "$work/record.txt" --record; try 'a recording, the option behind the file' 0 "$recorded" ''
call "$tb" replay --record <"$work/record.txt"; try 'a recording from standard input' 0 "$recorded" ''
call "$tb" replay --record "$work/empty"; try 'a recording of nothing' 0 '' ''
# what is recorded is accepted with the array that the trace leaves: 5AH at 0010H, the rest blank
python3 -c 'import sys; sys.stdout.buffer.write(bytes([255] * 16 + [90] + [255] * 16367))' >"$work/recorded.bin"
"$tb" replay --record "$work/record.txt" >"$work/recorded.txt"
call "$tb" recording --promised "$work/recorded.bin" "$work/recorded.txt"; try 'a recording is accepted' 0 '*' ''
grep -q '^accepted' "$work/out" || wrong 'a recording is accepted: other words'
# no recording: a refused cycle, a bad line, and of both the first
refusal=': the cycle is refused by 7, which is no answer of a device: there is no recording'
call "$tb" replay --record "$work/page.txt"; one 'a refused cycle is not recorded' 5 '' "line 7$refusal"
call "$tb" replay --record --sample; one 'the sample has a refused cycle' 5 '' 'line 19: the cycle is refused by 8, which is no answer of a device: there is no recording'
call "$tb" replay --record "$root/samples/bad-line.txt"; one 'a bad line is not recorded' 1 '' 'a hexadecimal digit stands (capitals only); there is no recording'
{ cat "$work/page.txt" && printf 'x\n'; } >"$work/both.txt"
call "$tb" replay --record "$work/both.txt"; one 'a refused cycle before a bad line' 5 '' "line 7$refusal"
call "$tb" replay --record "$work/more.txt"; one 'too many lines are not recorded' 1 '' 'at most 9,998'
# a recording that the check will not accept: a cut, an end that is not idle, and of both the cut
printf 'W 1 0 12000 3A00 20\nW 1 0 12000 3A00 D0\nR 0 0 12000 0000 00\n' >"$work/cut.txt"
call "$tb" replay --record "$work/cut.txt"; one 'a cut is recorded' 6 'W 1 0 12000 3A00 20 N -- -----
W 1 0 12000 3A00 D0 N -- 00003
R 0 0 12000 0000 00 N -- -----
' 'line 3 cuts an operation: the check does not accept this recording'
"$tb" replay --record "$work/cut.txt" >"$work/recorded.txt" 2>/dev/null || :
call "$tb" recording --promised "$work/recorded.bin" "$work/recorded.txt"; try 'the check does not accept a cut' 1 '*' ''
printf 'W 1 0 12000 3A00 40\n' >"$work/awaits.txt"
call "$tb" replay --record "$work/awaits.txt"; one 'an end that is not idle is recorded' 6 'W 1 0 12000 3A00 40 N -- -----
' 'the end is not idle: the check does not accept this recording'
{ cat "$work/cut.txt" "$work/awaits.txt"; } >"$work/both.txt"
call "$tb" replay --record "$work/both.txt"; one 'a cut and an end that is not idle' 6 '*' 'line 3 cuts an operation'
# wrong calls
call "$tb" replay --record --words "$work/record.txt"; one 'a recording in words' 2 '' '--record and --words do not go together'
call "$tb" replay --engine table --record "$work/record.txt"; one 'a recording by the table' 2 '' '--record and --engine do not go together'
call "$tb" replay --record "$work/nowhere"; one 'a recording of no file' 2 '' 'there is no file'
call "$tb" replay --record --sample "$work/record.txt"; one 'a recording of a file and the sample' 2 '' 'not both'
call "$tb" replay -- --record; one 'a file named --record that is not there' 2 '' 'there is no file --record'
call "$tb" script --record "$work/page.txt"; one 'a script is not recorded' 2 '' 'script has no option --record'

# scripts: the ways to hand one over, the answers of the lines written out, and what is wrong with a line, in words
# (R-script-1 to R-script-3)
printf '( 002\n%s( 003\nI 1 0 12000 0000 00\n)\n)\n' "$page" >"$work/script.txt"
again=$answers'N -- 80
N -- 80
N -- 80
'
# the second round finds 5AH held: its program leaves it
call "$tb" script "$work/script.txt"; try 'a script' 0 "$again$again" ''
call "$tb" script <"$work/script.txt"; try 'a script from standard input' 0 "$again$again" ''
call "$tb" script "$work/page.txt"; try 'a trace as a script' 0 "$answers" ''
call "$tb" script "$work/empty"; try 'an empty script' 0 '' ''
call "$tb" script --sample; try 'the sample script' 0 '*' ''
call "$tb" script --words "$work/script.txt"; try 'a script in words' 0 '*' ''
[ "$(wc -l <"$work/out")" = 22 ] || wrong 'a script in words: not a line for each'
grep -q '^  17  R 1 0 12000 0010 00  D 5A 80 .*gave 5A; ready' "$work/out" || wrong 'a script in words: the second round is not told'
call "$tb" script --help; try 'script --help' 0 '*' ''
call "$tb" script "$work/nowhere"; try 'no such script' 2 '' 'there is no file'
call "$tb" script "$work/page.txt" "$work/page.txt"; try 'two scripts' 2 '' 'one script'
call "$tb" script --sample "$work/page.txt"; try 'a script and the sample' 2 '' 'not both'
call "$tb" script "$root/samples/open-group.txt"; try 'the sample of an open group' 1 '? 0004
' 'the group that line 2 opens is not closed'
fault() { # fault NAME LINE WORDS BYTES
    printf '%b' "$4" >"$work/bad.txt"
    call "$tb" script "$work/bad.txt"; try "$1" 1 "? $2
" "$3"
}
idle='I 1 0 12000 0000 00\n'
fault 'a bad line in a group' 0002 "column 14 has 'a', a small letter" '( 002\nR 1 0 12000 0a10 00\n)\n'
fault 'an empty group' 0003 'the group that line 2 opens is empty' "$idle( 002\n)\n"
fault 'a closing line too many' 0002 'none is open' "$idle)\n"
fault 'a count of 000' 0001 'not 000' "( 000\n$idle)\n"
fault 'a count of two digits' 0001 'three digits' "( 12\n$idle)\n"
fault 'more behind a closing line' 0003 'alone on its line' "( 002\n$idle) 2\n"
fault 'a closing line without its newline' 0003 'no newline' "( 002\n$idle)"
fault 'an opening line without its newline' 0001 'no newline' '( 002'
fault 'a carriage return behind a count' 0001 'carriage return' "( 002\r\n$idle)\n"
fault 'a ninth level' 0009 'ninth level' '( 001\n( 001\n( 001\n( 001\n( 001\n( 001\n( 001\n( 001\n( 001\n'
fault 'too many written out' 0003 'more than 9,998 lines' "( 999\n( 999\n$idle)\n)\n"
head -n 3000 "$work/most.txt" >"$work/long.txt"
call "$tb" script "$work/long.txt"; try 'a script of 3,000 lines' 0 '*' ''
head -n 3500 "$work/most.txt" >"$work/long.txt"
call "$tb" script "$work/long.txt"; try 'a script of 3,500 lines' 1 '? 3001
' 'at most 3,000 lines'

# wear: the counts by hand. The first trace begins two erases of block 1 and one of block 3, which a reset cuts; the boot block is locked,
# and a D0 there starts nothing. The second begins one of block 0 (RP# at V_HH) and one of block 1, which it suspends and resumes
# (R-wear-1, R-wear-2)
call "$tb" wear "$worn/first.txt"; try 'wear of a trace' 0 'block  total  largest  smallest  passed
    0      0        0         0       0
    1      2        2         2       0
    2      0        0         0       0
    3      1        1         1       0
' ''
both='block  total  largest  smallest  passed
    0      1        1         0       0
    1      3        2         1       0
    2      0        0         0       0
    3      1        1         0       0
'
call "$tb" wear "$worn/first.txt" "$worn/second.txt"; try 'wear of two traces' 0 "$both" ''
call "$tb" wear "$worn/second.txt" "$worn/first.txt"; try 'wear of two traces, the other way round' 0 "$both" ''
none='block  total  largest  smallest  passed
    0      0        0         0       0
    1      0        0         0       0
    2      0        0         0       0
    3      0        0         0       0
'
call "$tb" wear "$work/empty"; try 'wear of an empty trace' 0 "$none" ''
call "$tb" wear "$work/page.txt" "$work/most.txt"; try 'wear of traces without an erase' 0 "$none" ''
# 2,499 erases of block 2, each cut by low VPP in the cycle after it
yes 'W 1 0 12000 3800 20
W 1 0 12000 3800 D0
I 1 0 00000 0000 00
W 1 0 12000 0000 50' | head -n 9996 >"$work/cuts.txt"
call "$tb" wear "$work/cuts.txt" "$worn/first.txt" "$work/cuts.txt"; try 'wear of a long trace' 0 'block  total  largest  smallest  passed
    0      0        0         0       0
    1      2        2         0       0
    2   4998     2499         0       0
    3      1        1         0       0
' ''
call "$tb" wear --words "$worn/first.txt" "$worn/second.txt"; try 'wear in words' 0 '*' ''
grep -q '^block 1 (parameter block, 3A00-3BFF): 3 erases begun in 2 traces; 2 at most and 1 at least in one; none passed 100,000$' "$work/out" || wrong 'wear in words: block 1 is not told'
# the sample's third D0 resumes a suspended erase
call "$tb" wear --sample; try 'wear of the sample' 0 'block  total  largest  smallest  passed
    0      0        0         0       0
    1      1        1         1       0
    2      0        0         0       0
    3      1        1         1       0
' ''
mkfifo "$work/worn"
cat "$worn/first.txt" >"$work/worn" &
call "$tb" wear "$work/worn" "$worn/second.txt"; try 'wear of a FIFO' 0 "$both" ''
cp "$worn/first.txt" "$work/a trace"
call in_work "$tb" wear 'a trace' "$worn/second.txt"; try 'wear of a file with a space in its name' 0 "$both" ''
call "$tb" wear "$worn/first.txt" "$root/samples/bad-line.txt"; try 'wear of a bad line' 1 '' 'bad-line.txt: line 2 is no line of a trace: column 19'
grep -q 'small letter' "$work/err" || wrong 'wear of a bad line: nothing is told'
call "$tb" wear "$root/samples/bad-line.txt" "$worn/first.txt" "$work/more.txt"; try 'wear of two bad traces' 1 '' 'more.txt: line 9999 is no line of a trace: a trace has at most 9,998 lines'
[ "$(wc -l <"$work/err")" = 2 ] || wrong 'wear of two bad traces: not a line for each'
# recordings: the sample begins one erase of block 1, busy for five cycles; a wrong answer, a bad line, and a recording of a part that was
# not blank have no counts
one_erase='block  total  largest  smallest  passed
    0      0        0         0       0
    1      1        1         1       0
    2      0        0         0       0
    3      0        0         0       0
'
call "$tb" wear "$root/samples/recording.txt"; try 'wear of a recording' 0 "$one_erase" ''
call "$tb" wear - <"$root/samples/recording.txt"; try 'wear of a recording from standard input' 0 "$one_erase" ''
call "$tb" wear "$worn/first.txt" "$root/samples/recording.txt" "$worn/second.txt"; try 'wear of traces and a recording' 0 'block  total  largest  smallest  passed
    0      1        1         0       0
    1      4        2         1       0
    2      0        0         0       0
    3      1        1         0       0
' ''
sed '6s/D 00/D 80/' "$root/samples/recording.txt" >"$work/wrong.txt"
call "$tb" wear "$worn/first.txt" "$work/wrong.txt"; one 'wear of a recording at fault' 1 '' 'wrong.txt looks like a recording, its first line goes on behind column 19; line 6 is no line of one, or at fault'
call "$tb" wear - <"$work/wrong.txt"; one 'wear of a recording at fault from standard input' 1 '' 'line 6 is no line of one, or at fault'
sed '3s/D 00/D 0/' "$root/samples/recording.txt" >"$work/wrong.txt"
call "$tb" wear "$work/wrong.txt"; one 'wear of a recording with a bad line' 1 '' 'line 3 is no line of one, or at fault'
head -n 4 "$root/samples/recording.txt" >"$work/early.txt"
call "$tb" wear "$work/early.txt"; try 'wear of a recording that ends too early' 0 "$one_erase" ''
call "$tb" wear; try 'wear of nothing' 2 '' 'no trace'
call "$tb" wear ''; try 'wear of an empty name' 2 '' 'empty'
call "$tb" wear "$worn/first.txt" "$work/nowhere"; try 'wear of no file' 2 '' 'there is no file'
call "$tb" wear "$work"; try 'wear of a folder' 2 '' 'folder'
call "$tb" wear --sample "$worn/first.txt"; try 'wear of a file and the sample' 2 '' 'not both'
call "$tb" wear --all; try 'wear: an option that is none' 2 '' 'no option --all'
call "$tb" wear --help; try 'wear --help' 0 '*' ''
full() { "$tb" wear "$worn/first.txt" >/dev/full; }
call full; try 'wear on a full disk' 4 '' 'could not be written'

# readings and tables: the table of three knots that the help shows, and that of type K (R-reading-3)
three='0 0
4096 1000
8138 2000
'
printf '%s' "$three" >"$work/three.txt"
written() { "$tb" table write "$1" <"$2"; }
# forced: a table that is no letter's; standard error says so, in one line
forced() { "$tb" table write --force "$1" <"$2"; }
call written K "$work/three.txt"; try 'a table written' 0 '*' ''
cp "$work/out" "$work/three.load"
call "$tb" table print "$work/three.load" K; try 'a table printed' 0 "$three" ''
call "$tb" read "$work/three.load" K 6138; try 'a reading' 0 '150.5
' ''
call "$tb" read "$work/three.load" K 8138; try 'the last knot' 0 '200.0
' ''
call "$tb" read "$work/three.load" K -1; try 'below' 1 'below the table, which begins at 0.0
' ''
call "$tb" read "$work/three.load" K 8139; try 'above' 1 'above the table, which ends at 200.0
' ''
call "$tb" read "$work/three.load" S 6138; try 'another letter' 1 "refused 35: the file's letter is not the one asked for
" ''
head -c 511 "$work/three.load" >"$work/cut.load"
call "$tb" read "$work/cut.load" K 6138; try 'a file cut short' 1 "refused 30: the file's length is wrong
" ''
head -c 1024 /dev/zero | tr '\0' '\377' >"$work/blank.load"
call "$tb" read "$work/blank.load" K 6138; try 'a blank file' 1 'refused 38: a block of the file is blank, not damaged: it was never loaded
' ''
call "$tb" table print "$work/blank.load" K; try 'a table of a blank file' 1 '' 'refused 38'
{ head -c 511 "$work/blank.load" && printf K; } >"$work/other.load"
call "$tb" read "$work/other.load" K 6138; try 'a blank file but for one byte' 1 "refused 31: a block's check is wrong
" ''
call "$tb" table print "$work/three.load" S; try 'a table of another letter' 1 '' 'refused 35'
call written X "$work/three.txt"; one 'a letter that is none' 1 '' 'refused 32: the letter is one of B E J K N R S T'
knot() { # knot NAME WORDS BYTES: the program that writes and the script that checks refuse it by the same words
    printf '%b' "$3" >"$work/bad.txt"
    call written K "$work/bad.txt"; one "$1" 1 '' "torfbarke: $2"
    call "$tb" table check K "$work/bad.txt"; one "$1, checked" 1 '' "torfbarke: $2"
}
knot 'a table that does not rise' 'line 2: refused 41: its microvolts, 0, are not above those of line 1, 0' '0 0\n0 1\n'
knot 'a table that falls' 'line 3: refused 41: its microvolts, -7, are not above those of line 2, 5' '-9 0\n5 1\n-7 2\n'
knot 'microvolts too large' 'line 2: refused 41: its microvolts, 80001, are not from -10000 to 80000' '0 0\n80001 1\n'
knot 'microvolts too small' 'line 1: refused 41: its microvolts, -10001, are not from -10000 to 80000' '-10001 0\n0 1\n'
knot 'an empty table' 'refused 40: a table has two knots at least, and the text has none' ''
knot 'one knot' 'refused 40: a table has two knots at least, and the text has one' '5 0\n'
knot 'a table: no newline' 'line 2 is no knot: it has no newline' '0 0\n1 1'
knot 'a table: a carriage return' 'line 1 is no knot: it has a carriage return' '0 0\r\n1 1\r\n'
knot 'a table: a byte-order mark' 'line 1 is no knot: the text begins with a byte-order mark' '\0357\0273\02770 0\n1 1\n'
knot 'a table: two-byte letters' 'line 1 is no knot: the text is in two-byte letters' '\0377\03760\00000 \0000'
knot 'a table: CSV' "line 2 is no knot: column 2 has ','" '0 0\n1,1\n'
knot 'a table: semicolons' "line 1 is no knot: column 2 has ';'" '0;0\n1;1\n'
knot 'a table: a tab' 'line 2 is no knot: column 2 has a tab' '0 0\n1\t1\n'
knot 'a table: a point' 'line 2 is no knot: column 4 has a point' '0 0\n1 1.5\n'
knot 'a table: a blank line' 'line 2 is no knot: it is blank' '0 0\n\n1 1\n'
knot 'a table: two spaces' 'line 2 is no knot: column 3 has a second space' '0 0\n1  1\n'
knot 'a table: a space first' 'line 2 is no knot: it begins with a space' '0 0\n 1 1\n'
knot 'a table: a space last' 'line 2 is no knot: it ends in a space' '0 0\n1 1 \n'
knot 'a table: one number' 'line 2 is no knot: it has one number' '0 0\n1\n'
knot 'a table: three numbers' 'line 2 is no knot: it has 3 numbers' '0 0\n1 1 1\n'
knot 'a table: a sign' "line 2 is no knot: column 1 has '+'" '0 0\n+1 1\n'
knot 'a table: a minus alone' 'line 2 is no knot: its tenths of a degree are a minus' '0 0\n1 -\n'
knot 'a table: a minus inside' 'line 2 is no knot: column 2 has a minus' '0 0\n1-1 1\n'
knot 'a table: a letter' "line 1 is no knot: column 1 has 'u'" 'uV T\n0 0\n1 1\n'
knot 'a table: ten digits' 'line 2 is no knot: its microvolts have more than nine digits' '0 0\n1000000000 1\n'
knot 'a table: tenths too large' 'line 2 is no knot: its tenths of a degree, 32768, are not' '0 0\n1 32768\n'
knot 'a table: tenths too small' 'line 2 is no knot: its tenths of a degree, -32769, are not' '0 0\n1 -32769\n'
printf '%s\n' '-10000 -32768' '-0 0' '00000000080000 32767' >"$work/ends.txt"
call written K "$work/ends.txt"; one 'the smallest and the largest numbers are no table of type K' 1 '' 'no table of type K'
call forced K "$work/ends.txt"; one 'the smallest and the largest numbers' 0 '*' 'It is written all the same'
cp "$work/out" "$work/ends.load"
call "$tb" table print "$work/ends.load" K; try 'the smallest and the largest numbers, printed' 0 '-10000 -32768
0 0
80000 32767
' ''
python3 "$root/tests/vectors_reading.py" text K >"$work/k.txt"
call written K "$work/k.txt"; try 'the table of type K' 0 '*' ''
cmp -s "$work/out" "$root/tests/samples/k.load" || wrong 'the table of type K: another file'
call "$tb" table print "$root/tests/samples/k.load" K; try 'the table of type K printed' 0 "$(cat "$work/k.txt")
" ''
python3 -c "for i in range(18853): print(4 * i - 10000, i % 3000)" >"$work/long.txt"
call forced K "$work/long.txt"; one 'the longest table' 0 '*' 'It is written all the same'
cp "$work/out" "$work/long.load"
[ "$(wc -c <"$work/long.load")" = 114688 ] || wrong 'the longest table: not 224 blocks'
call "$tb" table print "$work/long.load" K; try 'the longest table printed' 0 "$(cat "$work/long.txt")
" ''
call "$tb" read "$work/long.load" K 65408; try 'its last knot' 0 '85.2
' ''
echo '65412 0' >>"$work/long.txt"
call written K "$work/long.txt"; one 'a knot too many' 1 '' 'line 18854 is a knot too many'
head -c 327680 /dev/zero | tr '\0' 0 >"$work/zeros.txt"
call written K "$work/zeros.txt"; try 'a text that is too long' 1 '' 'longer than 327679 bytes'
call "$tb" read "$work/nothing" K 1; try 'no file to read' 2 '' 'there is no file'
call "$tb" read "$work" K 1; one 'a folder to read' 2 '' 'is a folder'
call "$tb" table print "$work" K; one 'a folder to print' 2 '' 'is a folder'
call written K "$work"; one 'a table from a folder' 2 '' 'standard input could not be read'
call "$tb" read - K 6138 <"$work/three.load"; try 'a reading from standard input' 0 '150.5
' ''
cat "$work/three.load" >"$work/fifo" &
call "$tb" read "$work/fifo" K 6138; try 'a reading from a FIFO' 0 '150.5
' ''
call "$tb" table print - K <"$work/three.load"; try 'a table from standard input' 0 "$three" ''
call "$tb" read "$work/three.load" $'\303\204' 1; one 'a letter of two bytes' 2 '' 'the letter is one of B E J K N R S T'
call "$tb" table print "$work/three.load" $'\303\204'; one 'a table: a letter of two bytes' 2 '' 'the letter is one of B E J K N R S T'
call "$tb" table write --help; try 'table write --help' 0 '*' ''
call "$tb" read "$work/three.load" K 1.5; try 'microvolts that are no whole number' 2 '' 'whole number'
call "$tb" read "$work/three.load" KK 1; try 'two letters' 2 '' 'the letter'
call "$tb" table erase; try 'no such part of a table' 2 '' 'table list, write, check, plot or print'

# the tables that ship: listed as their files are, written, printed, and read at published values (degrees at whole microvolts)
call "$tb" table list; try 'the tables that ship' 0 '*' ''
[ "$(wc -l <"$work/out")" = 9 ] || wrong 'the tables that ship: not a row for each letter'
while IFS= read -r row; do grep -qxF -- "    $row" "$root/docs/OPERATORS.md" || wrong "the tables that ship: docs/OPERATORS.md lacks '$row'"; done <"$work/out"
for letter in B E J K N R S T; do
    sed '/^#/d' "$root/tables/$letter.txt" >"$work/ship.txt"
    row=$(awk -v name="$letter" 'NR == 1 { x = $1; t = $2 } END { printf "%s tables/%s.txt %.1f to %.1f %d to %d %d", name, name, t / 10, $2 / 10, x, $1, NR }' "$work/ship.txt")
    call "$tb" table list
    tr -s ' ' <"$work/out" | grep -qE "^$row 0\.0[45][0-9]$" || wrong "the tables that ship: $letter is another"
    call "$tb" table write "$letter" "$root/tables/$letter.txt" "$work/$letter.load"; try "the table of type $letter that ships, written" 0 '' ''
    [ "$(wc -c <"$work/$letter.load")" = 512 ] || wrong "the table of type $letter that ships: not one block"
    call "$tb" table print "$work/$letter.load" "$letter"; try "the table of type $letter that ships, printed" 0 "$(cat "$work/ship.txt")
" ''
done
near() { # near LETTER MICROVOLTS DEGREES: published values are rounded to the microvolt
    call "$tb" read "$work/$1.load" "$1" "$2"; try "type $1 at $2 microvolts" 0 '*' ''
    awk -v t="$3" '{ d = $1 - t; if (d < 0) d = -d; exit d < 0.16 ? 0 : 1 }' "$work/out" || wrong "type $1 at $2 microvolts: not $3"
}
while read -r letter volts degrees; do near "$letter" "$volts" "$degrees"; done <<'PUBLISHED'
B 787 400
B 1792 600
B 4834 1000
B 10099 1500
B 13820 1820
E -8825 -200
E -5237 -100
E 6319 100
E 37005 500
E 76373 1000
J -7890 -200
J 5269 100
J 27393 500
J 42919 760
J 69553 1200
K -5891 -200
K -3554 -100
K 4096 100
K 41276 1000
K 54886 1372
N -3990 -200
N 2774 100
N 20613 600
N 36256 1000
N 47513 1300
R 647 100
R 4471 500
R 10506 1000
R 17451 1500
R 21101 1768
S 646 100
S 4233 500
S 9587 1000
S 15582 1500
S 18693 1768
T -5603 -200
T -3379 -100
T 4279 100
T 9288 200
T 20872 400
PUBLISHED
# the mishap: an S probe at 100, 400, 800, 1,000, 1,200 and 1,600 degrees through the table of type K
while read -r volts degrees; do
    call "$tb" read "$work/K.load" K "$volts"; try "the mishap at $volts microvolts" 0 "$degrees
" ''
done <<'MISHAP'
646 16.2
3259 79.8
7345 180.1
9587 236.0
11951 293.8
16777 409.0
MISHAP
call "$tb" table list K; one 'a list of one' 2 '' 'table list takes nothing'
call "$tb" table list --help; try 'table list --help' 0 '*' ''

# the check: a table against the reference function of its letter, and which letter it looks like
mishap='no table of type S: at 18694 microvolts it gives 454.2 degrees, and the type has 1768.1: 1313.9 off, 4.4 allowed; it looks like type K'
fits='a table of type K: at worst 0.65 degrees off, at 1553 microvolts, where it gives 37.92 and the type has 38.57; 2.5 are allowed
'
call "$tb" table check K "$work/three.txt"; try 'a table checked' 0 "$fits" ''
call "$tb" table check K - <"$work/three.txt"; try 'a table checked from standard input' 0 "$fits" ''
call "$tb" table check K "$root/tables/K.txt"; try 'the table of type K checked' 0 '*' ''
grep -q '^a table of type K: at worst 0.04 degrees off' "$work/out" || wrong 'the table of type K checked: other words'
call "$tb" table check S "$root/tables/K.txt"; try 'the table of type K under S' 1 "$mishap
" ''
"$tb" table print "$work/K.load" K | "$tb" table check K - >"$work/out" || wrong 'a load file checked: another status'
grep -q '^a table of type K' "$work/out" || wrong 'a load file checked: other words'
call "$tb" table check R "$root/tables/S.txt"; try 'the table of type S under R' 1 '*' ''
grep -q '; it looks like type S$' "$work/out" || wrong 'the table of type S under R: S is not told'
checks() { # checks NAME STATUS WORDS LETTER BYTES
    printf '%b' "$5" >"$work/table.txt"
    call "$tb" table check "$4" "$work/table.txt"; try "$1" "$2" '*' ''
    grep -qE -- "$3" "$work/out" || wrong "$1: other words"
}
checks 'whole degrees in the place of tenths' 1 'with ten times its temperatures it would be one: a knot has tenths' K '0 0\n4096 100\n8138 200\n'
checks 'ten times too much' 1 'with a tenth of its temperatures it would be one' T '0 0\n992 2500\n2036 5000\n'
checks 'one knot that is wrong' 1 '^no table of type K: at 4096 microvolts it gives 130.0 degrees, and the type has 100.0: 30.0 off, 2.5 allowed; it looks like none' K '0 0\n2023 500\n4096 1300\n6138 1500\n'
checks 'a table that begins too low' 1 '^no table of type K: it begins at -6600 microvolts, and the type has none below -6458' K '-6600 -2790\n-6458 -2700\n-6441 -2600\n'
checks 'a table that ends too high' 1 '^no table of type T: it ends at 21500 microvolts, and the type has none above 20872' T '20560 3950\n20872 4000\n21500 4100\n'
checks 'a table without a microvolt of its type' 1 '^no table of type S: it has no microvolts in common with the type; it looks like type K$' S '41276 10000\n41308 10008\n'
checks 'a limit that is kept' 0 '2.41 degrees off.*2.5 are allowed' K '4096 1024\n4097 1024\n'
checks 'a limit that is not kept' 1 'it gives 102.6 degrees' K '4096 1026\n4097 1026\n'
checks 'a limit that rises with the temperature' 0 '7.39 degrees off.*7.5 are allowed' K '41276 10074\n41277 10074\n'
checks 'the narrower limit of type S' 1 '1.5 allowed' S '4233 5020\n4234 5020\n'
checks 'type B where two temperatures give the same' 0 '^a table of type B: at worst 0.64 degrees off, at 15 microvolts' B '-3 210\n0 420\n2 491\n3 515\n4 544\n6 595\n9 655\n13 725\n18 803\n'
checks 'a table of one temperature' 1 '^no table of type K: at 8138 microvolts' K '0 0\n8138 0\n'
call "$tb" table check X "$work/three.txt"; one 'checked for a letter that is none' 1 '' 'refused 32: the letter is one of B E J K N R S T'
call "$tb" table check k "$work/three.txt"; one 'checked for a small letter' 1 '' 'refused 32'
call "$tb" table check KK "$work/three.txt"; one 'checked for two letters' 2 '' 'the letter is one of'
call "$tb" table check K; one 'a check of nothing' 2 '' 'table check takes a letter and a text'
call "$tb" table check K "$work/nowhere"; one 'a check of no file' 2 '' 'there is no file'
call "$tb" table check K "$work"; one 'a check of a folder' 2 '' 'is a folder'
call "$tb" table check K "$work/three.txt" "$work/three.txt"; one 'a check of two files' 2 '' 'table check takes a letter and a text'
call "$tb" table check --force K "$work/three.txt"; one 'a check that is forced' 2 '' 'table check has no option --force'
call "$tb" table check --word K "$work/three.txt"; one 'an option that a table has not' 2 '' 'table has no option --word'
call "$tb" table check K "$work/long.txt"; one 'a check of a knot too many' 1 '' 'line 18854 is a knot too many'
call "$tb" table check K "$work/zeros.txt"; one 'a check of a text that is too long' 1 '' 'longer than 327679 bytes'
call "$tb" table check K "$work/empty"; one 'a check of an empty text' 1 '' 'the text has none'
call "$tb" table check --help; try 'table check --help' 0 '*' ''

# comments: lines that begin with #, which are counted where a line is told
knot 'a comment before a knot that does not rise' 'line 4: refused 41: its microvolts, 0, are not above those of line 2, 0' '# a\n0 0\n# b\n0 1\n'
knot 'comments before a line that is no knot' "line 3 is no knot: column 2 has ','" '# a\n#\n0,0\n1 1\n'
knot 'comments alone' 'refused 40: a table has two knots at least, and the text has none' '# a\n# b\n'
knot 'a comment and one knot' 'refused 40: a table has two knots at least, and the text has one, in line 2' '# a\n5 0\n# b'
knot 'a comment behind a knot' "line 1 is no knot: column 5 has '#'" '0 0 # a\n1 1\n'
knot 'a byte-order mark before a comment' 'line 1 is no knot: the text begins with a byte-order mark' '\0357\0273\0277# a\n0 0\n1 1\n'
printf '# three knots\n%s# the end' "$three" >"$work/comments.txt"
call written K "$work/comments.txt"; try 'a table with comments' 0 '*' ''
cmp -s "$work/out" "$work/three.load" || wrong 'a table with comments: another file'

# CSV: microvolts and degrees, as spreadsheets write them
csv() { # csv NAME BYTES: the same file as that of the three knots
    printf '%b' "$2" >"$work/table.csv"
    call "$tb" table write --csv K "$work/table.csv"; try "$1" 0 '*' ''
    cmp -s "$work/out" "$work/three.load" || wrong "$1: another file"
    call "$tb" table check --csv K "$work/table.csv"; try "$1, checked" 0 "$fits" ''
}
csv 'CSV' '0,0\n4096,100\n8138,200\n'
csv 'CSV: decimals' '0.0,0.0\n4096,100.0\n8138.,200.00\n'
csv 'CSV: carriage returns' '0,0\r\n4096,100\r\n8138,200\r\n'
csv 'CSV: no newline at the end' '0,0\n4096,100\n8138,200'
csv 'CSV: a heading, comments and blank lines' 'uV,degC\n# K\n\n0,0\n  \n4096,100\n8138,200\n\n'
csv 'CSV: a byte-order mark, quotes and blanks' '\0357\0273\0277"uV" , "T"\n"0", "0"\n 4096 ,100.0 \n8138,"200"\n'
csv 'CSV: semicolons and decimal commas' 'uV;T\n0;0,0\n4096,0;100,0\n8138;200\n'
csv 'CSV: tabs and signs' '-0\t+0\n+4096\t+100,0\n8138\t200.0\n'
printf -- '-10,-0.3\n0,0\n10,0.3\n' >"$work/table.csv"
call "$tb" table write --csv K "$work/table.csv" "$work/csv.load"; try 'CSV: tenths below zero' 0 '' ''
call "$tb" table print "$work/csv.load" K; try 'CSV: tenths below zero, printed' 0 '-10 -3
0 0
10 3
' ''
no_csv() { # no_csv NAME WORDS BYTES
    printf '%b' "$3" >"$work/bad.csv"
    call "$tb" table write --csv K "$work/bad.csv" "$work/none.load"; one "$1" 1 '' "torfbarke: $2"
    call "$tb" table check --csv K "$work/bad.csv"; one "$1, checked" 1 '' "torfbarke: $2"
    [ ! -e "$work/none.load" ] || wrong "$1: a file is written"
}
no_csv 'CSV: no comma' 'line 1 is no knot: no comma, semicolon or tab parts two numbers' '0 0\n1 1\n'
no_csv 'CSV: three fields' 'line 2 is no knot: it has 3 fields' '0,0\n1,1,1\n'
no_csv 'CSV: a decimal comma between commas' 'line 2 is no knot: it has 3 fields' '0,0\n4096,100,0\n'
no_csv 'CSV: hundredths' 'line 3 is no knot: its degrees, 100.05, are finer than tenths' '# a\n0,0\n4096,100.05\n'
no_csv 'CSV: parts of a microvolt' 'line 2 is no knot: its microvolts, 4.096, are finer than whole ones' 'mV,T\n4.096,100\n'
no_csv 'CSV: a second heading' "line 2 is no knot: its microvolts are no number: 'b'" 'a,b\nb,c\n0,0\n'
no_csv 'CSV: a word among numbers' "line 2 is no knot: its degrees are no number: 'hot'" '0,0\n4096,hot\n'
no_csv 'CSV: an empty field' "line 1 is no knot: its degrees are no number: ''" '4096,\n'
no_csv 'CSV: microvolts that do not rise' 'line 5: refused 41: its microvolts, 0, are not above those of line 3, 0' 'uV,T\n# a\n0,0\n\n0,1\n'
no_csv 'CSV: degrees that are too large' 'line 2 is no knot: its tenths of a degree, 40000, are not from' '0,0\n4096,4000\n'
no_csv 'CSV: nothing' 'refused 40: a table has two knots at least, and the text has none' ''
no_csv 'CSV: two-byte letters' 'the text is in two-byte letters' '\0377\03760\0000'
no_csv 'CSV: a byte of zero' 'the text has a byte 00H' '0,0\n\0000,1\n'

# a load file in a file: whole or not at all
kept() { # kept NAME STATUS WORDS CALL: OUT, $work/kept, stays as it was, and nothing is left beside it
    printf 'as it was' >"$work/kept"
    call "${@:4}"; one "$1" "$2" '' "$3"
    [ "$(cat "$work/kept")" = 'as it was' ] || wrong "$1: the output is another"
    [ -z "$(find "$work" -name '*.part.*')" ] || wrong "$1: a part is left"
}
printf '0 0\n0 1\n' >"$work/bad.txt"
kept 'a refused table leaves the output' 1 'line 2: refused 41' "$tb" table write K "$work/bad.txt" "$work/kept"
kept 'a table of another type leaves the output' 1 'it looks like type K. Nothing is written; --force writes it all the same' "$tb" table write S "$root/tables/K.txt" "$work/kept"
kept 'a letter that is none leaves the output' 1 'refused 32' "$tb" table write X "$work/three.txt" "$work/kept"
kept 'a picture of a refused table leaves the output' 1 'line 2: refused 41' "$tb" table plot "$work/bad.txt" K "$work/kept"
limited() { # no file may grow, so standard error goes through a pipe
    { { (ulimit -f 0 && exec "$@" 2>&1 >/dev/null) || printf '%s' "$?" >"$work/ended"; } | cat >&2; }
    return "$(cat "$work/ended")"
}
kept 'no room leaves the output' 4 'could not be written; it is as it was' limited "$tb" table write K "$work/three.txt" "$work/kept"
kept 'no room for a picture leaves the output' 4 'could not be written; it is as it was' limited "$tb" table plot "$work/three.txt" K "$work/kept"
call "$tb" table write K "$work/three.txt" "$work/kept"; try 'a load file in the place of another' 0 '' ''
cmp -s "$work/kept" "$work/three.load" || wrong 'a load file in the place of another: another file'
[ -z "$(find "$work" -name '*.part.*')" ] || wrong 'a load file in the place of another: a part is left'
call "$tb" table write K - "$work/new.load" <"$work/three.txt"; try 'a load file from standard input' 0 '' ''
cmp -s "$work/new.load" "$work/three.load" || wrong 'a load file from standard input: another file'
call "$tb" table write K "$work/three.txt" -; try 'a load file to standard output' 0 '*' ''
cmp -s "$work/out" "$work/three.load" || wrong 'a load file to standard output: another file'
ln -sf new.load "$work/new-link"
call "$tb" table write --force S "$work/three.txt" "$work/new-link"; one 'a load file through a link, forced' 0 '' 'no table of type S: at 8138 microvolts'
[ -L "$work/new-link" ] || wrong 'a load file through a link: the link is gone'
call "$tb" table print "$work/new.load" S; try 'a load file through a link, printed' 0 "$three" ''
call in_work "$tb" table write K three.txt ./-k.load; try 'an output named -k.load' 0 '' ''
call in_work "$tb" table write -- K three.txt -k.load; try 'an output named -k.load, after --' 0 '' ''
call "$tb" table write K "$work/three.txt" /dev/full; one 'a load file to a full device' 4 '' 'the output could not be written to its end'
call "$tb" table write K "$work/three.txt" "$work/three.txt"; one 'a load file over its text' 2 '' 'is text and output at once'
call "$tb" table write K "$work/three.txt" "$work"; one 'a folder as the output' 2 '' 'is a folder'
call "$tb" table write K "$work/three.txt" "$work/nowhere/k.load"; one 'an output in no folder' 2 '' 'there is no folder'
call "$tb" table write K "$work/three.txt" ''; one 'an output without a name' 2 '' 'the name of the output is empty'
call "$tb" table write K "$work/nowhere" "$work/none.load"; one 'a load file of no file' 2 '' 'there is no file'
call "$tb" table write K "$work/three.txt" "$work/none.load" x; one 'a word too many' 2 '' 'table write takes a letter'
call "$tb" table write; one 'table write alone' 2 '' 'table write takes a letter'
call "$tb" table write --forced K "$work/three.txt"; one 'an option that write has not' 2 '' 'table has no option --forced'
[ ! -e "$work/none.load" ] || wrong 'a wrong call: a file is written'

# pictures
drawn() { # drawn NAME: the picture is whole, of plain ASCII, and has both panels
    python3 -c 'import sys, xml.dom.minidom as m; d = m.parse(sys.argv[1]); assert len(d.getElementsByTagName("polyline")) >= 3' "$work/table.svg" || wrong "$1: no picture"
    LC_ALL=C grep -q '[^ -~]' "$work/table.svg" && wrong "$1: not plain ASCII"
    rm "$work/table.svg"
}
call "$tb" table plot "$work/three.txt" K "$work/table.svg"; try 'a picture' 0 '' ''
call "$tb" table plot "$work/three.txt" K -; try 'a picture to standard output' 0 "$(cat "$work/table.svg")
" ''
drawn 'a picture'
call "$tb" table plot "$root/tables/K.txt" S "$work/table.svg"; try 'a picture of another type' 0 '' ''
drawn 'a picture of another type'
call "$tb" table plot --csv - K "$work/table.svg" <"$work/table.csv"; try 'a picture of CSV' 0 '' ''
grep -q 'standard input as a table of type K' "$work/table.svg" || wrong 'a picture of CSV: another name'
drawn 'a picture of CSV'
cp "$work/three.txt" "$work/a <b> & c"
call "$tb" table plot "$work/a <b> & c" K "$work/table.svg"; try 'a picture of a file with signs in its name' 0 '' ''
drawn 'a picture of a file with signs in its name'
in_docs() { (cd "$root" && "$tb" table plot tables/K.txt K -); }
call in_docs; try 'the picture of docs' 0 "$(cat "$root/docs/table-k.svg")
" ''
printf '60000 0\n60001 0\n' >"$work/table.txt"
call "$tb" table plot "$work/table.txt" K -; try 'a picture of a table without a microvolt of its type' 0 '*' ''
grep -q 'no microvolts in common' "$work/out" || wrong 'a picture of a table without a microvolt of its type: other words'
call "$tb" table plot "$work/three.txt" X "$work/none.svg"; one 'a picture for a letter that is none' 1 '' 'refused 32'
call "$tb" table plot "$work/three.txt" K; one 'a picture without an output' 2 '' 'table plot takes a text, a letter and an output'
call "$tb" table plot --force "$work/three.txt" K "$work/none.svg"; one 'a picture that is forced' 2 '' 'table plot has no option --force'
call "$tb" table plot "$work/nowhere" K "$work/none.svg"; one 'a picture of no file' 2 '' 'there is no file'
call "$tb" table plot "$work/three.txt" K "$work/three.txt"; one 'a picture over its text' 2 '' 'is text and output at once'
[ ! -e "$work/none.svg" ] || wrong 'a wrong picture: a file is written'

# without python3 nothing is checked or drawn, and a table is written by --force alone
mkdir "$work/tools"
ln -s /usr/bin/* /bin/* "$work/tools/" 2>/dev/null || :
rm -f "$work"/tools/python*
bare() { env PATH="$work/tools" "$tb" table "$@"; }
call bare check K "$work/three.txt"; one 'no python3: a check' 3 '' 'there is no python3'
call bare plot "$work/three.txt" K -; one 'no python3: a picture' 3 '' 'there is no python3'
call bare write K "$work/three.txt" "$work/none.load"; one 'no python3: a load file' 3 '' 'there is no python3, so the table cannot be checked; --force writes it all the same'
[ ! -e "$work/none.load" ] || wrong 'no python3: a file is written'
call bare write --force --csv K "$work/table.csv" "$work/bare.load"; one 'no python3: a load file, forced' 0 '' 'so the table is not checked. It is written all the same'
cmp -s "$work/bare.load" "$work/csv.load" || wrong 'no python3: another file'
call bare list; try 'no python3: the list' 0 '*' ''
printf '#!/bin/sh\nexit 9\n' >"$work/tools/python3"
chmod +x "$work/tools/python3"
call bare check K "$work/three.txt"; one 'a python3 that does not run' 3 '' 'the script reference.py ended with status 9'
call bare write --force K "$work/three.txt" "$work/none.load"; one 'a python3 that does not run: a load file, forced' 3 '' 'the script reference.py ended with status 9'

# the knots of the C examples: the file that they pack is a table, and reads as they print
sed -n 's/^} knots\[\] = {{\(.*\)}};$/\1/p' "$root/example/probe.h" | sed -e 's/}, {/\n/g' -e 's/, / /g' >"$work/probe.txt"
[ "$(wc -l <"$work/probe.txt")" -ge 2 ] || wrong 'the examples: no knots'
call written K "$work/probe.txt"; try "the examples' file" 0 '*' ''
cp "$work/out" "$work/probe.load"
[ "$(wc -c <"$work/probe.load")" = 512 ] || wrong "the examples' file: not one block"
call "$tb" read "$work/probe.load" K 6117; try "the examples' reading" 0 '150.0
' ''
call "$tb" read "$work/probe.load" K 20000; try "the examples' reading above the table" 1 'above the table, which ends at 300.0
' ''

# a flash block that was dumped: the file and FFH behind it
blank() { head -c "$1" /dev/zero | tr '\0' '\377'; }
{ cat "$work/three.load" && blank 3584; } >"$work/dump"
call "$tb" read "$work/dump" K 6138; one 'a dump read' 0 '150.5
' 'a file of 512 bytes and behind it 3584 of FFH'
call "$tb" table print "$work/dump" K; one 'a dump printed' 0 "$three" 'a file of 512 bytes and behind it 3584 of FFH'
call "$tb" read - K 6138 <"$work/dump"; one 'a dump from standard input' 0 '150.5
' 'a file of 512 bytes and behind it 3584 of FFH'
{ cat "$work/long.load" && blank 16384; } >"$work/dump8"
call "$tb" read "$work/dump8" K 65408; one 'a dump of a long main block' 0 '85.2
' 'a file of 114688 bytes and behind it 16384 of FFH'
call "$tb" read "$work/dump" S 6138; one 'a dump: another letter' 1 "refused 35: the file's letter is not the one asked for
" 'a file of 512 bytes'
{ cat "$work/three.load" && blank 511 && printf K; } >"$work/other.load"
call "$tb" read "$work/other.load" K 6138; try 'a file and behind it not FFH alone' 1 "refused 33: a block's number or count is wrong
" ''
{ cat "$work/long.load" && blank 16385; } >"$work/other.load"
call "$tb" read "$work/other.load" K 65408; try 'longer than any flash block' 1 "refused 30: the file's length is wrong
" ''

# a part's dump against a load file (R-load-4, R-number-25)
{ head -c 14848 /dev/zero | tr '\0' '\377' && cat "$work/three.load" && head -c 1024 /dev/zero | tr '\0' '\377'; } >"$work/image"
call "$tb" verify "$work/image" 3 1 "$work/three.load" K; try 'a part that holds its file' 0 'the block holds the file
' ''
call "$tb" verify "$work/image" 3 2 "$work/three.load" K; try 'a blank block' 1 'differs at 03800
' ''
{ head -c 14848 "$work/image" && printf 'K\001' && tail -c 1534 "$work/image"; } >"$work/other"
call "$tb" verify "$work/other" 3 1 "$work/three.load" K; try 'a byte that differs' 1 'differs at 03A01
' ''
{ cat "$work/long.load" && head -c 16384 /dev/zero | tr '\0' '\377'; } >"$work/whole"
call "$tb" verify "$work/whole" 1 3 "$work/long.load" K; try 'a main block that holds its file' 0 'the block holds the file
' ''
call "$tb" verify "$work/image" 3 1 "$work/three.load" S; try 'verify: another letter' 1 "refused 35: the file's letter is not the one asked for
" ''
call "$tb" verify "$work/image" 3 0 "$work/blank.load" K; try 'verify: a blank file' 1 'refused 38: a block of the file is blank, not damaged: it was never loaded
' ''
call "$tb" verify "$work/image" 4 4 "$work/three.load" K; try 'verify: no such block' 1 'refused 10: there is no such block
' ''
call "$tb" verify "$work/image" 1 1 "$work/three.load" K; try 'verify: the image of another part' 1 'refused 2: the image is not as long as the part
' ''
call "$tb" verify "$work/image" 9 1 "$work/three.load" K; try 'verify: no such device' 1 'refused 1: there is no such device, or it has no word mode
' ''
call "$tb" verify "$work/image" 3 1 "$work/three.load" K word; try 'verify: no word mode' 1 'refused 1: there is no such device, or it has no word mode
' ''
call "$tb" verify "$work/image" 03 001 "$work/three.load" K; try 'verify: numbers with zeros before them' 0 'the block holds the file
' ''
call "$tb" verify "$work/image" 3 12 "$work/three.load" K; try 'verify: a block of two digits' 1 'refused 10: there is no such block
' ''
call "$tb" verify "$work/image" 3 1 "$work/dump" K; one 'verify: a dump as the file' 0 'the block holds the file
' 'a file of 512 bytes and behind it 3584 of FFH'
call "$tb" verify - 3 1 "$work/three.load" K <"$work/image"; try 'verify: the image from standard input' 0 'the block holds the file
' ''
call "$tb" verify - 3 1 - K; one 'verify: both from standard input' 2 '' 'cannot both be standard input'
call "$tb" verify "$work" 3 1 "$work/three.load" K; one 'verify: a folder as the image' 2 '' 'is a folder'
# block 1 of device 5 begins at byte 3A000, block 6 of device 8 at 60000
{ blank 237568 && cat "$work/three.load" && blank 24064; } >"$work/image5"
{ blank 237568 && printf 'K\001' && tail -c 24574 "$work/image5"; } >"$work/other5"
{ blank 393216 && cat "$work/long.load" && blank 16384; } >"$work/image8"
for mode in byte word; do
    call "$tb" verify "$work/image5" 5 1 "$work/three.load" K "$mode"; try "device 5 in $mode mode holds its file" 0 'the block holds the file
' ''
    call "$tb" verify "$work/other5" 5 1 "$work/three.load" K "$mode"; try "device 5 in $mode mode, a high byte differs" 1 'differs at 3A001
' ''
    call "$tb" verify "$work/image5" 5 2 "$work/three.load" K "$mode"; try "device 5 in $mode mode, a blank block" 1 'differs at 38000
' ''
    call "$tb" verify "$work/image5" 5 5 "$work/three.load" K "$mode"; try "device 5 in $mode mode has no block 5" 1 'refused 10: there is no such block
' ''
    call "$tb" verify "$work/image8" 8 6 "$work/long.load" K "$mode"; try "device 8 in $mode mode holds its file" 0 'the block holds the file
' ''
    call "$tb" verify "$work/image5" 7 6 "$work/long.load" K "$mode"; try "device 7 in $mode mode, another part's image" 1 'refused 2: the image is not as long as the part
' ''
done
call "$tb" verify "$work/image5" 5 1 "$work/three.load" K; try 'device 5, no mode named' 0 'the block holds the file
' ''
call "$tb" verify "$work/image5" 5 1 "$work/three.load" K wide; try 'verify: no such mode' 2 '' 'the mode is byte or word: wide'
call "$tb" verify "$work/image" 3 1 "$work/three.load"; try 'verify: four words' 2 '' 'an image, a device'
call "$tb" verify "$work/image" x 1 "$work/three.load" K; try 'verify: no number' 2 '' 'whole numbers'
call "$tb" verify --help; try 'verify --help' 0 '*' ''

# several tables in the main block
# shellcheck source=tests/command_store.sh
. "$root/tests/command_store.sh"
# shellcheck source=tests/command_dist.sh
. "$root/tests/command_dist.sh"
# shellcheck source=tests/command_images.sh
. "$root/tests/command_images.sh"
# shellcheck source=tests/command_info.sh
. "$root/tests/command_info.sh"
# shellcheck source=tests/command_waves.sh
. "$root/tests/command_waves.sh"
# shellcheck source=tests/command_load.sh
. "$root/tests/command_load.sh"

# recordings: a programmer's cycles with the answers seen and the busy counts. The sample erases block 1 in five cycles and programs 5AH at
# 3A00 in three; by the rules a poll gives 00 while busy and 80 in the cycle that ends the operation (R-recording-1, R-recording-2)
cp "$root/samples/recording.txt" "$work/recording.txt"
cp "$root/samples/promised.bin" "$work/promised.bin"
blank 16384 >"$work/blank.bin"
{ blank 14848 && printf 'Z' && blank 1535; } | cmp -s - "$work/promised.bin" || wrong 'the promised sample is not FFH with 5AH at 3A00'
accepted='accepted: 15 records, and the array is the one promised
'
check() { call "$tb" recording --promised "$work/promised.bin" "$@"; }
check "$work/recording.txt"; try 'a recording' 0 "$accepted" ''
check <"$work/recording.txt"; try 'a recording from standard input' 0 "$accepted" ''
check - <"$work/recording.txt"; try 'a recording from standard input, by its name' 0 "$accepted" ''
call "$tb" recording --sample; try 'the sample recording' 0 "$accepted" ''
call "$tb" recording "$work/recording.txt" --before "$work/blank.bin" --promised "$work/promised.bin"; try 'a recording, options behind it' 0 "$accepted" ''
call "$tb" recording --promised - "$work/recording.txt" <"$work/promised.bin"; try 'a promised image from standard input' 0 "$accepted" ''
check --before - "$work/recording.txt" <"$work/blank.bin"; try 'an image before from standard input' 0 "$accepted" ''
cat "$work/recording.txt" >"$work/fifo" &
check "$work/fifo"; try 'a recording from a FIFO' 0 "$accepted" ''
cp "$work/recording.txt" "$work/-r"
call in_work "$tb" recording --promised promised.bin -- -r; try 'a recording named -r' 0 "$accepted" ''
# the erase is real: what block 1 held before is gone; what block 2 held is not
{ blank 14848 && printf 'old bytes' && blank 1527; } >"$work/held.bin"
check --before "$work/held.bin" "$work/recording.txt"; try 'a part that was not blank' 0 "$accepted" ''
{ blank 14336 && printf 'old bytes' && blank 2039; } >"$work/held.bin"
check --before "$work/held.bin" "$work/recording.txt"; try 'another block that was not blank' 1 'the end is at fault: the array differs from the one promised at 3800
' ''

# spoilt NAME STATUS WORDS LINE TEXT: one line of the sample is another
spoilt() {
    awk -v at="$4" -v text="$5" 'NR == at { $0 = text } { print }' "$work/recording.txt" >"$work/bad.txt"
    check "$work/bad.txt"; try "$1" "$2" "$3
" ''
}
spoilt 'another byte seen' 1 'line 14 is at fault: seen D 5B, the rules give D 5A' 14 'R 1 0 12000 3A00 00 D 5B -----'
spoilt 'no data seen' 1 'line 14 is at fault: seen N --, the rules give D 5A' 14 'R 1 0 12000 3A00 00 N -- -----'
spoilt 'data seen at a write' 1 'line 1 is at fault: seen D 80, the rules give N --' 1 'W 1 0 12000 3A00 20 D 80 -----'
spoilt 'ready too late' 1 'line 7 is at fault: seen D 00, the rules give D 80' 7 'R 1 0 12000 3A00 00 D 00 -----'
spoilt 'an address past the array' 1 'line 14 is at fault: seen D 5A, the rules refuse the cycle by number 5' 14 'R 1 0 12000 4000 00 D 5A -----'
spoilt 'a level that is none' 1 'line 1 is at fault: seen N --, the rules refuse the cycle by number 4' 1 'W 1 0 07000 3A00 20 N -- -----'
spoilt 'a command that is none' 1 'line 13 is at fault: seen N --, the rules refuse the cycle by number 7' 13 'W 1 0 12000 0000 00 N -- -----'
spoilt 'a cut by VPP' 1 'line 4 is at fault: an operation is cut' 4 'R 1 0 05000 3A00 00 D A8 -----'
spoilt 'a cut by RP#' 1 'line 4 is at fault: an operation is cut' 4 'R 0 0 12000 3A00 00 N -- -----'
spoilt 'no count at a confirm' 1 'line 2 is at fault: the count 0 is not 1 to 65535' 2 'W 1 0 12000 3A00 D0 N -- -----'
spoilt 'a count of 0' 1 'line 2 is at fault: the count 0 is not 1 to 65535' 2 'W 1 0 12000 3A00 D0 N -- 00000'
spoilt 'no count at a confirm that is refused' 1 'line 2 is at fault: seen N --, the rules refuse the cycle by number 4' 2 \
    'W 1 0 07000 3A00 D0 N -- -----'
spoilt 'a count of 65,536' 1 'line 9 is at fault: the count 65536 is not 1 to 65535' 9 'W 1 0 12000 3A00 5A N -- 65536'
spoilt 'a count that is too small' 1 'line 6 is at fault: seen D 00, the rules give D 80' 2 'W 1 0 12000 3A00 D0 N -- 00004'
spoilt 'a count that is too large' 1 'line 7 is at fault: seen D 80, the rules give D 00' 2 'W 1 0 12000 3A00 D0 N -- 65535'
spoilt 'a count where none is read' 0 "${accepted%?}" 1 'W 1 0 12000 3A00 20 N -- 99999'
spoilt 'a reset with nothing running' 1 'line 14 is at fault: seen D 5A, the rules give N --' 14 'R 0 0 12000 3A00 00 D 5A -----'
spoilt 'a reset with nothing running, as it is' 0 "${accepted%?}" 14 'R 0 0 12000 3A00 00 N -- -----'
ends() { # ends LINES WORDS [MORE]: so many lines of the sample, and perhaps more
    { head -n "$1" "$work/recording.txt" && printf '%b' "${3-}"; } >"$work/bad.txt"
    check "$work/bad.txt"; try "a recording that ends: $2" 1 "the end is at fault: $2
" ''
}
ends 1 'not idle, an erase waits for its confirm'
ends 2 'not idle, an erase is running'
ends 3 'not idle, an erase is being suspended' 'W 1 0 12000 3A00 B0 N -- -----\n'
ends 3 'not idle, an erase is suspended' 'W 1 0 12000 3A00 B0 N -- -----\nR 1 0 12000 3A00 00 D C0 -----\n'
ends 7 'the array differs from the one promised at 3A00'
ends 8 'not idle, a program waits for its data'
ends 9 'not idle, a program is running'
promised() { # promised NAME STATUS WORDS: against the image $work/image3
    call "$tb" recording --promised "$work/image3" "$work/recording.txt"; try "$1" "$2" "$3
" ''
}
{ blank 14848 && printf 'Z' && blank 1534 && printf '\000'; } >"$work/image3"
promised 'the last byte of the promised image is another' 1 'the end is at fault: the array differs from the one promised at 3FFF'
head -c 512 "$work/promised.bin" >"$work/image3"
promised 'a promised image that is too short' 1 'the end is at fault: the array promised has 512 bytes, the part 16384'
: >"$work/image3"
promised 'a promised image that is empty' 1 'the end is at fault: the array promised has 0 bytes, the part 16384'
{ cat "$work/promised.bin" && printf '\377'; } >"$work/image3"
promised 'a promised image that is too long' 1 "the end is at fault: the array promised has more bytes than the part's 16384"
check --before "$work/image3" "$work/recording.txt"; try 'an image before that is too long' 1 'refused 2: the array at the start is not as long as the part
' ''
check --before "$work/empty" "$work/recording.txt"; try 'an image before that is empty' 1 'refused 2: the array at the start is not as long as the part
' ''

# lines that are none, and which of two wrong things is told: the first by its line
check "$work/empty"; try 'an empty recording' 1 'the end is at fault: the array differs from the one promised at 3A00
' ''
call "$tb" recording --promised "$work/blank.bin" "$work/empty"; try 'an empty recording that promises nothing' 0 'accepted: 0 records, and the array is the one promised
' ''
none() { # none NAME LINE WORDS BYTES: the sample's first two lines and these bytes
    { head -n 2 "$work/recording.txt" && printf '%b' "$4"; } >"$work/bad.txt"
    check "$work/bad.txt"; one "$1" 1 "line $2 is no line of a recording
" "$3"
}
none 'a trace line' 3 'too short: 19 letters before its end, not 30' 'R 1 0 12000 3A00 00\n'
none 'too long a line' 3 'too long: 31 letters before its end, not 30' 'R 1 0 12000 3A00 00 D 00 000005\n'
none 'a refusal for an answer' 3 "column 21 has 'X' where D or N stands" 'R 1 0 12000 4000 00 X 05 -----\n'
none 'a small letter in an answer' 3 "column 23 has 'f', a small letter, where a hexadecimal digit stands" 'R 1 0 12000 3A00 00 D ff -----\n'
none 'no dashes behind N' 3 "column 23 has '0' where a dash stands" 'R 1 0 12000 3A00 00 N 00 -----\n'
none 'a count with a dash' 3 "column 30 has '-' where a digit stands" 'R 1 0 12000 3A00 00 D 00 0000-\n'
none 'dashes with a digit' 3 "column 27 has '5' where a dash stands" 'R 1 0 12000 3A00 00 D 00 -5---\n'
none 'a count in blanks' 3 "column 26 has a space where a digit or a dash stands" 'R 1 0 12000 3A00 00 D 00     5\n'
none 'a wrong kind of cycle' 3 "column 1 has 'X' where R, W or I stands" 'X 1 0 12000 3A00 00 D 00 -----\n'
none 'a carriage return in a recording' 3 'carriage return' 'R 1 0 12000 3A00 00 D 00 -----\r\n'
none 'no newline in a recording' 3 'no newline' 'R 1 0 12000 3A00 00 D 00 -----'
none 'a blank line in a recording' 3 'it is blank' '\n'
none 'a bad line before a fault' 3 'it is blank' '\nR 1 0 12000 3A00 00 D 77 -----\n'
{ head -n 2 "$work/recording.txt" && printf 'R 1 0 12000 3A00 00 D 77 -----\n\n'; } >"$work/bad.txt"
check "$work/bad.txt"; try 'a fault before a bad line' 1 'line 3 is at fault: seen D 77, the rules give D 00
' ''
yes 'I 1 0 12000 0000 00 N -- -----' | head -n 9998 >"$work/idle.txt"
call "$tb" recording --promised "$work/blank.bin" "$work/idle.txt"; try 'a recording of 9,998 lines' 0 'accepted: 9998 records, and the array is the one promised
' ''
yes 'I 1 0 12000 0000 00 N -- -----' | head -n 20000 >"$work/idle.txt"
call "$tb" recording --promised "$work/blank.bin" "$work/idle.txt"; one 'a recording that is too long' 1 'line 9999 is no line of a recording
' 'at most 9,998 lines'
python3 "$root/tests/recording_said.py" 30 28001 >"$work/out" 2>"$work/err" || wrong 'random recordings: another line'
cases=$((cases + 30))

# wrong calls of it
call "$tb" recording --help; try 'recording --help' 0 '*' ''
grep -q 'Exit status' "$work/out" || wrong 'recording --help: no statuses'
call "$tb" recording "$work/recording.txt"; one 'no promised image' 2 '' 'no promised image'
call "$tb" recording "$work/recording.txt" --promised; one 'no name of a promised image' 2 '' '--promised has no image behind it'
call "$tb" recording --before; one 'no name of an image before' 2 '' '--before has no image behind it'
call "$tb" recording --promised '' "$work/recording.txt"; one 'an empty name of an image' 2 '' 'the name of an image is empty'
call "$tb" recording --promised "$work/nowhere" "$work/recording.txt"; one 'no such promised image' 2 '' 'there is no file'
call "$tb" recording --promised "$work" "$work/recording.txt"; one 'a folder as the promised image' 2 '' 'is a folder'
check --before "$work/nowhere" "$work/recording.txt"; one 'no such image before' 2 '' 'there is no file'
check --promised "$work/blank.bin" "$work/recording.txt"; one 'two promised images' 2 '' 'one promised image at a time'
check --before "$work/blank.bin" --before "$work/blank.bin" "$work/recording.txt"; one 'two images before' 2 '' 'one image before at a time'
check "$work/nowhere"; one 'no such recording' 2 '' 'there is no file'
check "$work/recording.txt" "$work/recording.txt"; one 'two recordings' 2 '' 'one recording at a time'
check --sample "$work/recording.txt"; one 'a recording and the sample' 2 '' 'not both'
check --words "$work/recording.txt"; one 'recording has no --words' 2 '' 'no option --words'
check --word "$work/recording.txt"; one 'an option that recording has not' 2 '' 'no option --word'
call "$tb" recording --promised - - <"$work/recording.txt"; one 'recording and image from standard input' 2 '' 'can be standard input'
call "$tb" recording --promised - --before - "$work/recording.txt"; one 'two images from standard input' 2 '' 'can be standard input'

# output that cannot be written: every word ends with 4 and one line, or by the signal where its reader has gone
python3 -c "for i in range(2000): print(4 * i, round(4 * i / 4.07))" >"$work/2000.txt"
"$tb" table write K <"$work/2000.txt" >"$work/2000.load"
head -n 3000 "$work/most.txt" >"$work/3000.txt"
all=("--help" "--version" "build --help" "clean --help" "selftest --help" "replay --help" "script --help" "read --help" "table --help" "verify --help" "wear --help" "wear page.txt" "wear --words page.txt"
    "replay page.txt" "replay --words page.txt" "replay --engine table page.txt" "replay --engine table --words page.txt" "replay --record record.txt" "script script.txt" "script --words script.txt" "read three.load K 6138" "read three.load K 8139"
    "table write K" "table write K three.txt" "table write --csv K table.csv" "table print three.load K" "table list" "table check K three.txt" "table check S three.txt"
    "table plot three.txt K -" "verify image 3 1 three.load K" "verify image 3 2 three.load K"
    "load --help" "load --dry card 3 1 three.load K" "load -o - card 3 1 three.load K" "store --help" "store card 3 list" "store card 3 find K" "store card 3 read K 6138"
    "recording --help" "recording --promised promised.bin recording.txt" "recording --promised blank.bin recording.txt")
cd "$work"
every() { # every TRIAL [CALL..]: a trial of these calls, or of each word; the text of a table is their standard input
    local trial=$1 words
    shift
    [ $# -gt 0 ] || set -- "${all[@]}"
    for words in "$@"; do
        status=0
        # shellcheck disable=SC2086
        "$trial" $words <2000.txt
        cases=$((cases + 1))
    done
}
cut_off() { # cut_off WORDS: the last call, told by $status and $work/err, was
    [ "$status" = 4 ] || wrong "$*: status $status, not 4"
    [ "$(cat "$work/err")" = 'torfbarke: the output could not be written to its end; what came of it is not whole' ] || wrong "$*: other words"
}
: >"$work/out"
on_full() {
    "$tb" "$@" >/dev/full 2>"$work/err" || status=$?
    cut_off 'a full disk' "$@"
}
every on_full
on_closed() {
    "$tb" "$@" >&- 2>"$work/err" || status=$?
    [ "$status" = 4 ] || wrong "standard output closed: $*: status $status, not 4"
    [ "$(cat "$work/err")" = 'torfbarke: the output cannot be written: standard output is closed' ] || wrong "standard output closed: $*: other words"
}
every on_closed
# a pipe whose reader has gone before the first byte
gone() {
    mkfifo "$work/gone"
    # shellcheck disable=SC2094
    exec 7<>"$work/gone" 6>"$work/gone" 7>&-
    rm "$work/gone"
}
on_gone() {
    gone
    "$tb" "$@" >&6 2>"$work/err" || status=$?
    exec 6>&-
    [ "$status" = 141 ] || wrong "a closed pipe: $*: status $status, not 141"
    [ ! -s "$work/err" ] || wrong "a closed pipe: $*: words"
}
on_deaf() { # the same where the signal is ignored
    gone
    (trap '' PIPE && exec "$tb" "$@" >&6 2>"$work/err") || status=$?
    exec 6>&-
    cut_off 'a closed pipe, the signal ignored' "$@"
}
every on_deaf
if (gone && printf x >&6) 2>/dev/null || [ $? != 141 ]; then
    printf 'tests/command.sh: the signal of a closed pipe is ignored here, so its cases are left out\n'
else
    every on_gone
fi
# a disk that fills up on the way, and a limit of file sizes: the longer outputs are cut, with a word
long=("replay most.txt" "replay --record most.txt" "replay --words most.txt" "replay --engine table most.txt" "replay --engine table --words most.txt" "script 3000.txt" "script --words 3000.txt" "table write K" "table print 2000.load K" "table plot three.txt K -")
on_limit() {
    (ulimit -f 1 && exec "$tb" "$@" >"$work/limited" 2>"$work/err") || status=$?
    cut_off 'a limit of file sizes' "$@"
    [ "$(wc -c <"$work/limited")" = 1024 ] || wrong "a limit of file sizes: $*: not cut there"
}
on_small() {
    "$tb" "$@" >"$work/small/cut" 2>"$work/err" || status=$?
    cut_off 'a disk that fills up' "$@"
    [ -s "$work/small/cut" ] || wrong "a disk that fills up: $*: nothing was written"
    rm "$work/small/cut"
}
every on_limit "${long[@]}"
# no word needs a temporary file: with no room for one, and with no folder, the answers are the same
on_none() {
    "$tb" "$@" >"$work/out" 2>"$work/err" <2000.txt || status=$?
    { (ulimit -f 0 && TMPDIR=$work/nowhere exec "$tb" "$@" 2>"$work/none") || printf '%s' "$?" >>"$work/status"; } | cat >"$work/other"
    cmp -s "$work/out" "$work/other" || wrong "no temporary files: $*: other answers"
}
: >"$work/status"
every on_none
[ "$(cat "$work/status")" = 1111 ] || wrong "no temporary files: statuses $(cat "$work/status")"
mkdir "$work/small"
if mount -t tmpfs -o size=4k tmpfs "$work/small" 2>/dev/null; then
    every on_small "${long[@]}"
    head -c 100000 /dev/zero >"$work/small/full" 2>/dev/null || :
    on_filled() {
        "$tb" "$@" >"$work/out" 2>"$work/err" <2000.txt || status=$?
        TMPDIR=$work/small "$tb" "$@" >"$work/other" 2>"$work/err" || [ "$?" = "$status" ] || wrong "no room for temporary files: $*: another status"
        cmp -s "$work/out" "$work/other" || wrong "no room for temporary files: $*: other answers"
    }
    every on_filled "${long[@]}" "read three.load K 6138" "verify image 3 1 three.load K" "recording --promised promised.bin recording.txt"
    umount "$work/small"
else
    printf 'tests/command.sh: no small disk can be mounted here, so its cases are left out\n'
fi

# a first call, with a kit that builds at once: calls at the same time wait for one build, a failed build is told, no kit is told
mkdir "$work/kit"
cat >"$work/kit/rt" <<'KIT'
#!/bin/sh
[ "$1" = doc ] && { echo "$REAL_DOC"; exit 0; }
[ "$1" = version ] && { echo "kit ${KIT_VERSION-1}"; exit 0; }
echo built >>"$BUILDS"
[ -z "${BUILD_FAILS-}" ] || { echo 'rt: not proved'; exit 1; }
[ "$*" = 'run -- replay' ] || exit 2
mkdir -p out
[ -z "${BUILD_HANGS-}" ] || { echo half >out/half; sleep 600 & echo $! >"$BUILD_HANGS"; wait; }
[ ! -e out/half ] || echo goes on >>"$BUILDS"
sleep "${BUILD_TAKES-0}"
cp "$PROGRAM" "out/${PWD##*/}"
echo 'crate cells: modules loaded=0 checked=1'
echo 'logic=proved functions=1'
KIT
chmod +x "$work/kit/rt"
if [ -n "${TORFBARKE_PROGRAMS-}" ]; then
    export PROGRAM=$TORFBARKE_PROGRAMS/desk BUILDS=$work/builds
    REAL_DOC=$(rt doc 2>/dev/null || true)
    export REAL_DOC
    first() { env -u TORFBARKE_PROGRAMS XDG_CACHE_HOME="$work/cache$1" PATH="$work/kit:$PATH" "$tb" replay "${@:2}" "$work/page.txt"; }
    export BUILD_TAKES=1
    for pair in 1 2 3 4 5; do
        first "$pair" >"$work/one" 2>"$work/one.err" &
        call first "$pair"
        wait $! || wrong 'two calls at once: the other failed'
        cases=$((cases + 1))
        [ "$status" = 0 ] || wrong 'two calls at once: one failed'
        cmp -s "$work/out" "$work/one" || wrong 'two calls at once: answers differ'
        [ "$(cat "$work/out")" = "${answers%?}" ] || wrong 'two calls at once: other answers'
        [ "$(wc -l <"$work/builds")" = "$pair" ] || wrong 'two calls at once: built twice'
    done
    unset BUILD_TAKES
    call first 6; try 'a first call tells what goes on' 0 "$answers" 'proved 1 of'
    call first 6; try 'a second call is quiet' 0 "$answers" ''
    call first 6 --engine table; try 'another word, by the same program, is quiet' 0 "$answers" ''
    find "$work/cache6/torfbarke" -type d -not -perm 700 | grep -q . && wrong 'a first call: a folder that is open to others'
    export KIT_VERSION=2
    call first 6; try 'another kit builds anew' 0 "$answers" 'proved 1 of'
    call first 6; try 'another kit, a second call' 0 "$answers" ''
    unset KIT_VERSION
    # a call that is killed leaves no prover, and the next one goes on where it was
    for signal in TERM KILL; do
        mkdir -p "$work/cache-$signal"
        (BUILD_HANGS=$work/hangs && export BUILD_HANGS && exec env -u TORFBARKE_PROGRAMS XDG_CACHE_HOME="$work/cache-$signal" PATH="$work/kit:$PATH" \
            "$tb" replay "$work/page.txt") >"$work/out" 2>"$work/err" &
        started=$!
        cases=$((cases + 1))
        tries=0
        until [ -s "$work/hangs" ]; do
            tries=$((tries + 1))
            [ "$tries" -lt 300 ] || wrong "a call ended by $signal: it did not build"
            sleep 0.1
        done
        kill -"$signal" "$started"
        wait "$started" 2>/dev/null && wrong "a call ended by $signal: it went on"
        tries=0
        while kill -0 "$(cat "$work/hangs")" 2>/dev/null; do
            tries=$((tries + 1))
            [ "$tries" -lt 100 ] || wrong "a call ended by $signal: its prover is left behind"
            sleep 0.1
        done
        rm "$work/hangs"
        call first "-$signal"; try "the call after one ended by $signal" 0 "$answers" 'goes on where it was'
        [ "$(tail -n 1 "$work/builds")" = 'goes on' ] || wrong "the call after one ended by $signal: it did not go on"
    done
    # build alone, and clean: it removes what was built and nothing else
    housed() { env -u TORFBARKE_PROGRAMS XDG_CACHE_HOME="$work/cache11" PATH="$work/kit:$PATH" "$tb" "$@"; }
    call housed clean; try 'clean with nothing built' 0 "nothing was removed: there is nothing built in $work/cache11/torfbarke
" ''
    [ ! -e "$work/cache11" ] || wrong 'clean with nothing built: a folder was made'
    call housed build; try 'build' 0 '*' 'first call: desk is proved and built'
    key=$(ls "$work/cache11/torfbarke")
    place=$work/cache11/torfbarke/$key
    [ "$(cat "$work/out")" = "the program is proved and built: $place/desk" ] || wrong 'build: other words'
    call housed build; try 'build once more' 0 "the program is proved and built: $place/desk
" ''
    call housed replay "$work/page.txt"; try 'a word after build' 0 "$answers" ''
    mkdir "$work/cache11/torfbarke/mine" "$work/elsewhere"
    : >"$work/elsewhere/kept"
    : >"$work/cache11/torfbarke/0123456789abcdef0123456789abcdef"
    ln -s "$work/elsewhere" "$work/cache11/torfbarke/fedcba9876543210fedcba9876543210"
    building() { flock "$place/lock" env -u TORFBARKE_PROGRAMS XDG_CACHE_HOME="$work/cache11" PATH="$work/kit:$PATH" "$tb" clean; }
    call building; one 'clean while another call builds' 0 '*' 'another call is building'
    [ -e "$place/desk" ] || wrong 'clean while another call builds: it is gone'
    call housed clean; try 'clean' 0 "removed $place
" ''
    [ ! -e "$place" ] || wrong 'clean: it is still there'
    if [ ! -d "$work/cache11/torfbarke/mine" ] || [ ! -e "$work/elsewhere/kept" ] || [ "$(ls "$work/cache11/torfbarke" | wc -l)" != 3 ]; then wrong 'clean: more was removed'; fi
    mkdir "$work/cache12"
    ln -s "$work/cache2/torfbarke" "$work/cache12/torfbarke"
    linked() { XDG_CACHE_HOME=$work/cache12 "$tb" clean; }
    call linked; one 'clean through a link' 3 '' 'is not a folder of yours: nothing was removed'
    [ -n "$(ls "$work/cache2/torfbarke")" ] || wrong 'clean through a link: something was removed'
    call env KIT_VERSION=9 PATH="$work/kit:$PATH" "$tb" --version; try 'the version, with another kit' 0 "torfbarke $(cat "$root/VERSION")
proved with the kit: $(cat "$root/KIT")
the kit here:        kit 9
these are not the same kit: what is built here may be refused by its prover
" ''
    # programs are run from a folder of the caller's own alone
    homeless() { env -u TORFBARKE_PROGRAMS -u HOME -u XDG_CACHE_HOME PATH="$work/kit:$PATH" "$tb" replay "$work/page.txt"; }
    call homeless; one 'no HOME' 3 '' 'set HOME, or XDG_CACHE_HOME to a folder of yours'
    at_home() { env -u TORFBARKE_PROGRAMS HOME="$work/home" XDG_CACHE_HOME=here PATH="$work/kit:$PATH" "$tb" replay "$work/page.txt"; }
    call at_home; try 'a HOME' 0 "$answers" 'proved 1 of'
    [ -d "$work/home/.cache/torfbarke" ] || wrong 'a HOME: built elsewhere'
    chmod 770 "$work/cache1/torfbarke"
    call first 1; one 'a folder that a group writes to' 3 '' 'is not a folder of yours that only you write to'
    chmod 702 "$work/cache1/torfbarke"
    call first 1; one 'a folder that anybody writes to' 3 '' 'is not a folder of yours that only you write to'
    chmod 700 "$work/cache1/torfbarke"
    chmod 777 "$work/cache1/torfbarke"/*
    call first 1; one 'a folder below that anybody writes to' 3 '' 'is not a folder of yours that only you write to'
    mkdir "$work/cache9"
    ln -s "$work/cache2/torfbarke" "$work/cache9/torfbarke"
    call first 9; one 'a link in its place' 3 '' 'is not a folder of yours that only you write to'
    if [ "$(id -u)" = 0 ] && chown 65534 "$work/cache3/torfbarke" 2>/dev/null; then
        call first 3; one "another's folder" 3 '' 'is not a folder of yours that only you write to'
    else
        printf "tests/command.sh: nobody's folder can be made here, so its case is left out\n"
    fi
    roomless() { { (ulimit -f 0 && first 8 2>&1) || printf 'status %s\n' "$?"; } | cat; }
    call roomless
    cases=$((cases + 1))
    tail -n 2 "$work/out" | grep -q 'desk was not built; the sources could not be copied' || wrong 'no room to build: other words'
    [ "$(tail -n 1 "$work/out")" = 'status 3' ] || wrong 'no room to build: another status'
    export BUILD_FAILS=yes
    call first 7; try 'a build that fails' 3 '' 'was not built'
    without() { env -u TORFBARKE_PROGRAMS XDG_CACHE_HOME="$work/cache10" PATH=/usr/bin:/bin "$tb" replay "$work/page.txt"; }
    PATH=/usr/bin:/bin command -v rt >/dev/null || { call without; try 'no kit' 3 '' 'kit is missing'; }
fi
printf 'tests/command.sh: %s cases, as expected\n' "$cases"
