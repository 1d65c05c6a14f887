# shellcheck shell=bash
# Sourced by tests/command.sh: ./torfbarke store on images of parts. What is expected comes from request (ix): the maps of a day with two
# probes, the first long enough run, the slide in the order of the files, 43 at its border, 44 before 42, and that an image is replaced
# only by a run that ended well.
root=${root:?} work=${work:?} tb=${tb:?}
card=$work/card
store() { "$tb" store "$@"; }
# card_shown NAME MAP: the card's map is this one, filled up with blank places
card_shown() {
    call store "$card" 3 list
    [ "$status" = 0 ] || wrong "$1: status $status"
    [ "$(head -n 1 "$work/out")" = "$(printf '%-28s' "$2" | tr ' ' .)" ] || wrong "$1: another map"
    cases=$((cases + 1))
}
# card_kept NAME: the card is, byte for byte and as a file, what it was, and nothing is left beside it
card_kept() {
    cmp -s "$card" "$work/before" || wrong "$1: the image was changed"
    [ "$(stat -c %i "$card")" = "$inode" ] || wrong "$1: the image was replaced"
    [ "$(find "$work" -name 'card*' | wc -l)" = 1 ] || wrong "$1: a file is left beside the image"
    cases=$((cases + 1))
}
card_keep() {
    cp "$card" "$work/before"
    inode=$(stat -c %i "$card")
}
calm='done, nothing was erased
'
slid='done, the files slid down: the block was erased and loaded anew
'
# big LETTER BLOCKS: a file of so many blocks, its knots 10 microvolts and a tenth apart
big() {
    python3 -c "for i in range(505 * ($2 - 1) // 6 + 2): print(10 * i - 9000, i)" >"$work/big.txt"
    call forced "$1" "$work/big.txt"
    cp "$work/out" "$work/big.load"
    [ "$(wc -c <"$work/big.load")" = $((512 * $2)) ] || wrong "a file of $2 blocks: another length"
}

# a day with two probes (R-store-1, R-store-4)
blank 16384 >"$card"
chmod 640 "$card"
call store "$card" 3 list; try 'an empty store' 0 '............................
' ''
call store "$card" 3 add "$work/three.load" K; try 'the first table' 0 "$calm" ''
card_shown 'the first table' K
{ cat "$work/three.load" && blank 15872; } | cmp -s - "$card" || wrong 'the first table: other bytes'
[ "$(stat -c %a "$card")" = 640 ] || wrong 'the first table: another mode of the image'
call forced S "$work/three.txt"; one 'a table under S' 0 '*' 'It is written all the same'
cp "$work/out" "$work/s.load"
call store "$card" 3 add "$work/s.load" S; try 'the second table' 0 "$calm" ''
card_shown 'the second table' KS
call store "$card" 3 read K 6138; try 'read by the first table' 0 '150.5
' ''
call store "$card" 3 add "$work/probe.load" K; try 'the first table replaced' 0 "$calm" ''
call store "$card" 3 list; try 'a list' 0 "xSK.........................
S: from place 1 on, places 1, $(wc -l <"$work/three.txt") knots, 0.0 to 200.0
K: from place 2 on, places 1, $(wc -l <"$work/probe.txt") knots, $(awk 'NR == 1 { printf "%.1f", $2 / 10 }' "$work/probe.txt") to 300.0
" ''
call store "$card" 3 read K 6117; try 'read by the new table' 0 '150.0
' ''
call store "$card" 3 read K 20000; try 'read above the table' 1 'above the table, which ends at 300.0
' ''
call store "$card" 3 read S 6138; try 'read by the other letter' 0 '150.5
' ''
call store - 3 read S 6138 <"$card"; try 'read from standard input' 0 '150.5
' ''
call store "$card" 3 find K; try 'a file found' 0 '*' ''
cmp -s "$work/out" "$work/probe.load" || wrong 'a file found: other bytes'
call store "$card" 3 find S; try 'the other file found' 0 '*' ''
cmp -s "$work/out" "$work/s.load" || wrong 'the other file found: other bytes'
call store "$card" 3 drop S; try 'a table dropped' 0 "$calm" ''
card_shown 'a table dropped' xxK
card_keep
gone42='the store has no file of that letter'
call store "$card" 3 drop S; try 'dropped again' 1 "refused 42: $gone42
" ''
card_kept 'dropped again'
call store "$card" 3 find S; one 'a file that is not there' 1 '' "refused 42: $gone42"
call store "$card" 3 find Q; one 'a letter that is none' 1 '' "refused 42: $gone42"
call store "$card" 3 read S 6138; try 'a table that is not there' 1 "refused 42: $gone42
" ''

# no run is long enough: the files slide down in their order, and dead places are used again (R-store-2)
big N 26
call store "$card" 3 add "$work/big.load" N; try 'a slide' 0 "$slid" ''
card_shown 'a slide' KNNNNNNNNNNNNNNNNNNNNNNNNNN
call store "$card" 3 find N; try 'found after a slide' 0 '*' ''
cmp -s "$work/out" "$work/big.load" || wrong 'found after a slide: other bytes'
card_keep
big R 2
call store "$card" 3 add "$work/big.load" R; try 'one place too many' 1 'refused 43: the file and those that stay do not fit into the main block
' ''
card_kept 'one place too many'
big N 27
call store "$card" 3 add "$work/big.load" N; try 'the replaced file is not counted' 0 "$slid" ''
card_shown 'the replaced file is not counted' KNNNNNNNNNNNNNNNNNNNNNNNNNNN
call store "$card" 3 drop N; try 'a large file dropped' 0 "$calm" ''
card_shown 'a large file dropped' Kxxxxxxxxxxxxxxxxxxxxxxxxxxx
call store "$card" 3 add "$work/s.load" S; try 'a slide over dead places' 0 "$slid" ''
card_shown 'a slide over dead places' KS

# the first run, not the longest: places 1 and 2 blank, 3 taken, the rest blank (R-store-2)
{ cat "$work/three.load" && blank 1024 && cat "$work/s.load" && blank 14336; } >"$card"
big R 2
call store "$card" 3 add "$work/big.load" R; try 'the first run' 0 "$calm" ''
card_shown 'the first run' KRRS
card_keep

# what is refused, before anything is changed (R-store-5)
call store "$card" 3 add "$work/s.load" K; try 'add: another letter' 1 "refused 35: the file's letter is not the one asked for
" ''
call store "$card" 3 add "$work/page.txt" K; try 'add: no load file' 1 "refused 30: the file's length is wrong
" ''
call store "$card" 3 add "$work/blank.load" K; try 'add: a blank file' 1 'refused 38: a block of the file is blank, not damaged: it was never loaded
' ''
{ head -c 511 "$work/three.load" && printf x; } >"$work/spoilt.load"
call store "$card" 3 add "$work/spoilt.load" K; try 'add: a wrong check' 1 "refused 31: a block's check is wrong
" ''
call store "$card" 3 add "$work/long.load" K; try 'add: longer than the main block' 1 'refused 43: the file and those that stay do not fit into the main block
' ''
none1='refused 1: the device is none of 1 to 4: only these have a store
'
call store "$card" 5 add "$work/three.load" K; try 'add: device 5' 1 "$none1" ''
call store "$card" 5 list; try 'list: device 5' 1 "$none1" ''
call store "$card" 12 list; try 'list: no such device' 1 "$none1" ''
call store "$card" 1 list; try 'list: the image of another part' 1 'refused 2: the image is not as long as the part
' ''
call store "$card" 1 drop K; try 'drop: the image of another part' 1 'refused 2: the image is not as long as the part
' ''
card_kept 'what is refused'
# 44, also before 42: junk in a place, a letter twice, half a file at the block's end (R-store-1, R-number-44)
none44='refused 44: the main block is no proper store'
{ cat "$work/three.load" "$work/spoilt.load" && blank 15360; } >"$work/junk"
call store "$work/junk" 3 list; one 'junk in a place' 1 "K?..........................
K: from place 0 on, places 1, 3 knots, 0.0 to 200.0
" "$none44"
call store "$work/junk" 3 find S; one '44 before 42' 1 '' "$none44"
call store "$work/junk" 3 read K 6138; try '44 of a reading' 1 "$none44
" ''
call store "$work/junk" 3 add "$work/three.load" K; try '44 of an add' 1 "$none44
" ''
{ cat "$work/three.load" "$work/probe.load" && blank 15360; } >"$work/junk"
call store "$work/junk" 3 list; try 'a letter twice' 1 '*' "$none44"
{ blank 13824 && head -c 512 "$work/long.load" && blank 2048; } >"$work/junk"
call store "$work/junk" 3 list; try 'half a file' 1 '*' "$none44"
# the largest store, on device 1 (R-store-3)
{ cat "$work/long.load" && blank 16384; } >"$work/whole1"
call store "$work/whole1" 1 list; try '224 places' 0 '*' ''
[ "$(head -n 8 "$work/out" | tr -d 'K\n' | wc -c)" = 0 ] || wrong '224 places: another map'
[ "$(tail -n 1 "$work/out")" = 'K: from place 0 on, places 224, 18853 knots, 0.0 to 85.2' ] || wrong '224 places: another row'
call store "$work/whole1" 1 drop K; try '224 places dropped' 0 "$calm" ''
call store "$work/whole1" 1 add "$work/three.load" K; try '224 dead places used again' 0 "$slid" ''
call store "$work/whole1" 1 read K 6138; try 'and read' 0 '150.5
' ''

# an image is replaced whole or not at all: through a link, at a limit of file sizes, by a program that is stopped, under a lock
ln -s card "$work/cardlink"
call store "$work/cardlink" 3 drop R; try 'through a link' 0 "$calm" ''
[ -L "$work/cardlink" ] || wrong 'through a link: the link is gone'
rm "$work/cardlink"
card_shown 'through a link' KxxS
card_keep
limited() { (ulimit -f 8 && exec "$tb" store "$@"); }
call limited "$card" 3 drop S; one 'an image that cannot be written' 4 '' "card is as it was"
card_kept 'an image that cannot be written'
mkdir "$work/slow"
printf '#!/bin/sh\nprintf K\n: >%s/slow/begun\nsleep 60\n' "$work" >"$work/slow/desk"
chmod 755 "$work/slow" "$work/slow/desk"
slow() { TORFBARKE_PROGRAMS=$work/slow "$tb" store "$@"; }
# stopped SIGNAL: the whole group of processes is, as a terminal does it, once the program has begun to write
stopped() {
    local group n=0
    TORFBARKE_PROGRAMS=$work/slow setsid "$tb" store "$card" 3 drop S >"$work/out" 2>"$work/err" &
    group=$!
    while [ ! -e "$work/slow/begun" ] && [ "$n" -lt 600 ]; do sleep 0.1 && n=$((n + 1)); done
    [ "$(find "$work" -name 'card*' | wc -l)" = 2 ] || wrong "stopped by $1: there was no file beside the image"
    kill -s "$1" -- "-$group"
    status=0
    wait "$group" || status=$?
    rm -f "$work/slow/begun"
    [ "$status" = "$2" ] || wrong "stopped by $1: status $status, not $2"
    card_kept "stopped by $1"
}
stopped TERM 143
stopped HUP 129
printf '#!/bin/sh\nprintf K\nprintf "done, nothing was erased\\n" >&2\n' >"$work/slow/desk"
call slow "$card" 3 drop S; one 'a program that does not end well' 4 '' 'card is as it was'
card_kept 'a program that does not end well'
rm -r "$work/slow"
locked() { flock "$card" "$tb" store "$@"; }
call locked "$card" 3 drop S; one 'another call at the same time' 3 '' 'another call is changing'
card_kept 'another call at the same time'
said_full() { "$tb" store "$@" >/dev/full; }
call said_full "$card" 3 drop S; one 'a change whose line cannot be written' 4 '' 'was changed, but the line'
card_shown 'a change whose line cannot be written' Kxxx

# wrong calls
call store; one 'store alone' 2 '' 'an image, a device'
call store "$card" 3; one 'store: no word' 2 '' 'an image, a device'
call store "$card" 3 show; one 'store: no such word' 2 '' "not 'show'"
call store "$card" x list; one 'store: no number' 2 '' 'whole number'
call store "$card" 3 list K; one 'list: a word too many' 2 '' 'list takes nothing more'
call store "$card" 3 find; one 'find: no letter' 2 '' 'find takes a letter'
call store "$card" 3 find KK; one 'find: two letters' 2 '' 'the letter'
call store "$card" 3 read K; one 'read: no microvolts' 2 '' 'read takes a letter'
call store "$card" 3 read K 1.5; one 'read: no whole number' 2 '' 'whole number'
call store "$card" 3 add "$work/three.load"; one 'add: no letter' 2 '' 'add takes a file'
call store "$card" 3 add "$work/nowhere" K; one 'add: no such file' 2 '' 'there is no file'
call store - 3 drop K <"$card"; one 'drop: standard input' 2 '' 'cannot be changed'
call store "$work/nowhere" 3 list; one 'store: no such image' 2 '' 'there is no file'
call store "$work" 3 list; one 'store: a folder' 2 '' 'is a folder'
call store --help; try 'store --help' 0 '*' ''
