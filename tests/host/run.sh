#!/usr/bin/env bash
# run.sh [-v] [SEED]: compiles the header as each language that it is for; runs the programs of the reference; holds the library against
# a second implementation in C on random cases; then breaks that second implementation in many ways, one at a time, and looks whether
# each is noticed.
# -v prints what was met, and how often.
set -eu
here=$(dirname -- "$(readlink -f -- "$0")")
# shellcheck source=tests/host/tools.sh
. "$here/tools.sh"
archive
table_archive
recording_archive
store_archive
held_archive
words_archive
compiler

strict=(-O2 -Wall -Wextra -pedantic -Werror -I "$inc")
tongues=''

alone() { # alone COMPILER LANGUAGE STANDARD..: the header by itself, with its tests of slices and without
    local with tongue compile=$1 language=$2
    shift 2
    for tongue; do
        for with in -DWITH -DNDEBUG -DTB_UNCHECKED; do
            "$compile" -x "$language" -std="$tongue" "$with" "${strict[@]}" -c "$here/header/alone.c" -o "$out/alone.o" ||
                fail 1 "the header does not compile as $tongue with $with"
        done
        tongues="$tongues $tongue"
    done
}

overlapping() { # overlapping STATUS FLAG: the run on overlapping memory ends with that status
    local status=0
    $CC -std=c11 "$2" "${strict[@]}" -static "$here/header/overlap.c" "$lib" -o "$out/overlap" ||
        fail 3 "the run on overlapping memory could not be built"
    $RUN "$out/overlap" 2>"$out/overlap.log" || status=$?
    [ "$status" = "$1" ] || fail 1 "a run on overlapping memory, compiled with $2, ended with status $status and not $1"
}

alone "$CC" c c99 c11 c17
plus=${CC%gcc}g++
if command -v "$plus" >/dev/null; then alone "$plus" c++ c++11 c++17; fi
for with in -DWITH -DNDEBUG; do
    overlapping 6 "$with"
    grep -q 'slices overlap: .*tb_apart' "$out/overlap.log" || fail 1 "an overlap did not stop at the header's test, compiled with $with"
done
overlapping 0 -DTB_UNCHECKED
printf 'header:%s; an overlap stops a run, with NDEBUG too, and does not with TB_UNCHECKED\n' "$tongues"

# the programs of the reference, with all archives; what each prints stands on the page
while read -r name line; do
    $CC -std=c11 "${strict[@]}" -static "$here/../../example/ref/$name.c" "$lib" "$table" "$recording" "$store" "$held" "$words" -o "$out/$name" ||
        fail 1 "example/ref/$name.c does not compile"
    [ "$($RUN "$out/$name")" = "$line" ] || fail 1 "example/ref/$name.c does not print what the page says: $line"
done < <(python3 "$here/../reference.py" prints)
printf 'reference: %s programs, each prints what the page says\n' "$(python3 "$here/../reference.py" prints | wc -l)"

stack=$(sed -n 's/.*No call needs more than \([0-9]*\) bytes of stack.*/\1/p' "$inc/torfbarke.h")
table_stack=$(sed -n 's/.*tb_table_cycle needs \([0-9]*\), its table lies there.*/\1/p' "$inc/torfbarke.h")
[ -n "$stack" ] || fail 1 "the header does not say how much stack a call needs"
[ -n "$table_stack" ] || fail 1 "the header does not say how much stack tb_table_cycle needs"

objects() { # objects FOLDER SLIP FILE..
    local folder=$1 slip=$2
    shift 2
    mkdir -p -- "$folder"
    (cd -- "$folder" && $CC -std=c11 -O3 -Wall -Wextra -Werror -DBREAK="$slip" -DSTACK="$stack" -DTABLE_STACK="$table_stack" \
        -I "$inc" -c "$@") ||
        fail 3 "the tests could not be built"
}

build() { # build PROGRAM SLIP
    objects "$out/slip$2" "$2" "$here"/second_*.c
    $CC -static "$out"/cases/*.o "$out/slip$2"/*.o "$lib" "$table" "$recording" "$store" "$held" "$words" -o "$1" || fail 3 "the tests could not be linked"
}

shopt -s extglob
objects "$out/cases" 0 "$here"/!(second_*).c
build "$out/against" 0
status=0
$RUN "$out/against" "$@" || status=$?
[ "$status" != 1 ] || fail 1 "the library does not do what the tests expect"
[ "$status" = 0 ] || fail 1 "the tests did not run to their end"

# 1, 2, 3, 8 and 11 are those of R-slip-1
slips='1:a program stores its data without AND
2:FFH after 40H goes back to read array
3:an operation finishes on the cycle where VPP falls
4:polls are not counted afresh for each operation
5:the check begins without the 1
6:23 and 24 are judged before 21
7:6 is given before 5
8:an erase takes its block from the address of 20H
9:a place at the end of the block is no refusal
10:the padding is not judged
11:a load is judged by SR.7 alone
12:wanted is filled before the letter asked is judged
13:a suspend takes S + 1 cycles
14:an erase counts on while it is being suspended
15:SR.6 is not yet set on the last cycle of a suspend
16:B0H at rest is refused
17:S over 100 is let in
18:tenths of a degree are taken as unsigned
19:microvolts may stay from knot to knot
20:the last knot is above the table
21:a reading divides before it multiplies
80:two knots with the same microvolts are a pair
81:a reading takes a payload that is no multiple of six
82:a pair out of range is read
22:scratch takes a byte when its data is sent
23:the verify is begun after a bad end
24:the verify stops before its last byte
25:a load alone reads back
26:the address of 25 counts from the start of the block
27:a block is blank by its first byte
28:a block is blank without its check
29:only the first block can be blank
30:a word address is taken for a byte address where its block is looked up
31:a program of a word stores its low byte alone
32:a command is compared in all 16 bits
33:the residue of a word is taken high byte first
34:6,500 mV is low on devices 5 to 8
35:the reads of a run are counted in bytes
36:WP# is looked at on devices 1 to 4
37:WP# low unlocks the boot block
38:OE# at V_HH is let in on devices 5 to 8
39:10H is refused on devices 5 to 8
40:10H is taken on devices 1 to 4
41:a status has a high byte
42:25 gives a word address
43:one byte of residue is enough for a word
44:identifiers of devices 5 to 8 in byte mode go by the plain address
45:a change of high band cuts
46:word mode is let in on devices 1 to 4
47:WP# is not looked at with RP# low
48:byte mode keeps the high byte of its data
49:a verify compares the low bytes of words alone
50:the loader and the run give WP# low
51:a reset clears the counts of erases
52:a resume is counted
53:20H is counted
54:a confirm that is barred is counted
55:the block that is counted is that of the address of 20H
56:a count goes on past its stop, to 0
57:100,000 erases are counted as passed
58:the smallest count begins at a largest number
59:a total has 32 bits
60:an erase is counted again when it is cut
61:a confirm that is locked is counted
62:an erase is counted again when it ends
63:the smallest count begins at 0
64:65,535 traces are too many
65:one trace more is let in at 65,535
66:48 is given before 47
67:a total goes on past its stop, to 0
68:47 is given before 11
69:a program that starts is counted
70:a refused trace gives the report on no traces
83:a recording may begin where a second write is awaited
84:a suspended erase may be cut in a recording
85:an answer seen that is none is taken for data
86:a recording goes by P and E of the device
87:a count is read at a second write that starts nothing
88:a busy count has 16 bits
89:what the record at fault would store stays
90:a recording may end where a second write is awaited
91:a promised array may be short
92:a dead place of a store is used again
93:the replaced file is counted in 43
94:42 is given before 44
95:the longest run of blank places is used
96:a slide turns the order of the files around
97:the old file is dropped before 43 is judged
98:the check of a dead place is read
99:a letter may stand twice in a store
100:a place is blank by its first byte
101:43 is given one block too early
102:a drop marks the first place of a file alone
103:devices 5 to 8 have a store
104:44 is given before what the reader says of the file
110:an interruption may read in the block that is erased
111:the room of an interruption is counted in units
112:an interruption looks at no status: no 70H
113:D0H is written though the erase is finished
114:the polls of an erase are numbered from 0
115:20 counts on over an interruption
116:the number of a poll begins anew after an interruption
117:a number that is none has words
118:words that have no room are cut off
119:words are written where there is no room for their 0
120:the length of words counts their 0
121:37 is given before 41
122:tenths are judged before microvolts
123:80,000 microvolts are out of range
124:tenths are cut to 16 bits
125:tenths have their low byte first
126:the last knot is not there'
noticed=0 all=$(wc -l <<<"$slips")
while IFS=: read -r number slip; do
    build "$out/broken" "$number"
    status=0
    $RUN "$out/broken" "$@" >"$out/broken.log" 2>&1 </dev/null || status=$?
    [ "$status" = 1 ] || fail 1 "not noticed: $slip"
    tail -n 1 "$out/broken.log" | grep -q '^MISMATCH' || fail 1 "not noticed as a mismatch: $slip"
    noticed=$((noticed + 1))
    printf 'noticed: %s\n' "$slip"
done <<<"$slips"
printf 'tests from C: no mismatch, and %s of %s slips noticed\n' "$noticed" "$all"
