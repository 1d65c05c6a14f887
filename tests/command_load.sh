# shellcheck shell=bash
# Sourced by tests/command.sh: ./torfbarke load on images of parts. What is expected comes from document 01: the count of a good run is
# 2n + 3 + e(2 + E) + p(2 + P), an erase is begun where a bit must rise, a byte is programmed where it then differs; 1, 2, 10 and 30 to
# 38 by their conditions. The bytes to program are counted here, over the load file, apart from the program.
root=${root:?} work=${work:?} tb=${tb:?}
card=$work/loadcard
load() { "$tb" load "$@"; }
# not_ff FILE: its bytes that are not FFH. words_not_ff FILE: its words, two bytes each, that are not FFFFH
not_ff() { od -An -v -tx1 -w1 "$1" | grep -vc ' ff'; }
words_not_ff() { od -An -v -tx2 -w2 "$1" | grep -vc ' ffff'; }
# line_of CYCLES ERASES WHAT PROGRAMS: what a good load says
line_of() { printf 'cycles %s, erases begun %s, %s programmed %s\n' "$1" "$2" "$3" "$4"; }
keep_load() {
    cp "$card" "$work/before"
    inode=$(stat -c %i "$card")
}
kept_load() {
    cmp -s "$card" "$work/before" || wrong "$1: the image was changed"
    [ "$(stat -c %i "$card")" = "$inode" ] || wrong "$1: the image was replaced"
    [ "$(find "$work" -name 'loadcard*' | wc -l)" = 1 ] || wrong "$1: a file is left beside the image"
    cases=$((cases + 1))
}
three=$work/three.load
p=$(not_ff "$three")

# card 10 of document 01 is a block of 512 bytes, all held FFH: 2 * 512 + 3 and p programs of 2 + P, here with P 2 and E 3
blank 16384 >"$card"
chmod 640 "$card"
keep_load
call load --dry --program 2 --erase 3 "$card" 3 1 "$three" K
try 'a dry load' 0 "dry, nothing is written: $(line_of $((1027 + 4 * p)) 0 bytes "$p")
" ''
kept_load 'a dry load'
call load --program 2 --erase 3 "$card" 3 1 "$three" K
try 'a load' 0 "loaded: $(line_of $((1027 + 4 * p)) 0 bytes "$p")
" ''
{ blank 14848 && cat "$three" && blank 1024; } | cmp -s - "$card" || wrong 'a load: other bytes'
[ "$(stat -c %a "$card")" = 640 ] || wrong 'a load: another mode of the image'
[ "$(stat -c %i "$card")" != "$inode" ] || wrong 'a load: the image was not replaced'
call "$tb" verify "$card" 3 1 "$three" K; try 'a load, verified' 0 'the block holds the file
' ''
# once more: nothing differs, 2n + 3 alone
call load "$card" 3 1 "$three" K
try 'a load that has nothing to do' 0 "loaded: $(line_of 1027 0 bytes 0)
" ''
# another file over it: some bit must rise, so one erase of 2 + E, then every byte of it that is not FFH
call forced S "$work/probe.txt"
cp "$work/out" "$work/loadother"
p=$(not_ff "$work/loadother")
call load --erase 65535 "$card" 3 1 "$work/loadother" S
try 'a load that erases' 0 "loaded: $(line_of $((1027 + 65537 + 3 * p)) 1 bytes "$p")
" ''
call load --dry --program 65535 --erase 1 "$card" 3 1 "$three" K
p=$(not_ff "$three")
try 'the longest times' 0 "dry, nothing is written: $(line_of $((1027 + 3 + 65537 * p)) 1 bytes "$p")
" ''
# bits that only fall: no erase. The block holds FFH but where the file has bits to clear
{ blank 14848 && head -c 16 "$three" && blank 496 && blank 1024; } >"$card"
head -c 16 "$three" >"$work/front"
q=$((p - $(not_ff "$work/front")))
call load "$card" 3 1 "$three" K
try 'a load that goes on' 0 "loaded: $(line_of $((1027 + 3 * q)) 0 bytes "$q")
" ''

# every device, a parameter block in bytes and, on 5 to 8, in words: DEVICE SIZE START BYTES, by the tables of document 01 and request (xi)
while read -r device size start bytes; do
    blank "$size" >"$card"
    call load "$card" "$device" 1 "$three" K
    try "device $device" 0 "loaded: $(line_of $((2 * bytes + 3 + 3 * p)) 0 bytes "$p")
" ''
    { blank "$start" && cat "$three" && blank $((size - start - 512)); } | cmp -s - "$card" || wrong "device $device: other bytes"
    # the boot block, at the level that unlocks it
    call load "$card" "$device" 0 "$three" K; try "the boot block of device $device" 0 '*' ''
    call "$tb" verify "$card" "$device" 0 "$three" K; try "the boot block of device $device, verified" 0 'the block holds the file
' ''
    [ "$device" -ge 5 ] || continue
    blank "$size" >"$card"
    w=$(words_not_ff "$three")
    call load "$card" "$device" 1 "$three" K word
    try "device $device in words" 0 "loaded: $(line_of $((bytes + 3 + 3 * w)) 0 words "$w")
" ''
    { blank "$start" && cat "$three" && blank $((size - start - 512)); } | cmp -s - "$card" || wrong "device $device in words: other bytes"
done <<'DEVICES'
1 131072 118784 4096
2 131072 8192 4096
3 16384 14848 512
4 16384 1024 512
5 262144 237568 8192
6 262144 16384 8192
7 524288 499712 8192
8 524288 16384 8192
DEVICES

# -o: the image stays; a file, standard output, a name that is taken
blank 16384 >"$card"
chmod 640 "$card"
keep_load
call load -o "$work/outcard" "$card" 3 1 "$three" K
try 'to a file' 0 "loaded: $(line_of $((1027 + 3 * p)) 0 bytes "$p")
" ''
{ blank 14848 && cat "$three" && blank 1024; } | cmp -s - "$work/outcard" || wrong 'to a file: other bytes'
call load "$card" 3 1 "$three" K -o -; one 'to standard output' 0 '*' 'cycles'
cmp -s "$work/out" "$work/outcard" || wrong 'to standard output: other bytes'
call load -o "$card" "$card" 3 1 "$three" K; one 'to the image itself' 2 '' 'is the image itself'
call load -o "$three" "$card" 3 1 "$three" K; one 'to the load file' 2 '' 'load file and output at once'
call load -o "$work/no/where" "$card" 3 1 "$three" K; one 'to no folder' 2 '' 'there is no folder'
from_input() { "$tb" load -o - - 3 1 "$three" K <"$card"; }
call from_input; one 'an image from standard input' 0 '*' 'cycles'
cmp -s "$work/out" "$work/outcard" || wrong 'an image from standard input: other bytes'
call load --dry - 3 1 "$three" K <"$card"; try 'an image from standard input, dry' 0 '*' ''
call load --dry "$card" 3 1 - K <"$three"; try 'a file from standard input' 0 '*' ''
call load --dry "$card" 3 1 "$work/outcard" K; try 'no load file' 1 '*' ''
rm "$work/outcard"

# what is refused: the image is as it was
longer='the file'\''s length is wrong, or it is longer than the block'
none1='there is no such device, or it has no word mode'
call load "$card" 9 1 "$three" K; try 'refused 1' 1 "refused 1: $none1
" ''
call load "$card" 3 1 "$three" K word; try 'refused 1, no word mode' 1 "refused 1: $none1
" ''
call load "$card" 1 1 "$three" K; try 'refused 2' 1 'refused 2: the image is not as long as the part
' ''
call load "$card" 3 4 "$three" K; try 'refused 10' 1 'refused 10: there is no such block
' ''
call load "$card" 3 77 "$three" K; try 'refused 10, two digits' 1 'refused 10: there is no such block
' ''
call load "$card" 3 1 "$work/page.txt" K; try 'refused 30' 1 "refused 30: $longer
" ''
call load "$card" 3 1 "$work/long.load" K; try 'refused 30, longer than the block' 1 "refused 30: $longer
" ''
{ head -c 511 "$three" && printf x; } >"$work/spoilt.load"
call load "$card" 3 1 "$work/spoilt.load" K; try 'refused 31' 1 "refused 31: a block's check is wrong
" ''
call load "$card" 3 1 "$three" S; try 'refused 35' 1 "refused 35: the file's letter is not the one asked for
" ''
blank 512 >"$work/loadblank"
call load "$card" 3 1 "$work/loadblank" K; try 'refused 38' 1 'refused 38: a block of the file is blank, not damaged: it was never loaded
' ''
call load --dry "$card" 3 1 "$three" S; try 'refused 35, dry' 1 "refused 35: the file's letter is not the one asked for
" ''
call load -o "$work/outcard" "$card" 3 1 "$three" S; try 'refused 35, to a file' 1 "refused 35: the file's letter is not the one asked for
" ''
[ ! -e "$work/outcard" ] || wrong 'refused 35, to a file: there is a file'
# refiled PLACE BYTE: the load file with another byte, and its check put right: 1 plus (i + 1) times byte i, modulo 65,521
refiled() {
    python3 - "$three" "$1" "$2" >"$work/refiled.load" <<'PY'
import sys
data = bytearray(open(sys.argv[1], "rb").read())
data[int(sys.argv[2])] = int(sys.argv[3])
check = (1 + sum((i + 1) * x for i, x in enumerate(data[:510]))) % 65521
sys.stdout.buffer.write(bytes(data[:510]) + bytes([check // 256, check % 256]))
PY
}
refiled 0 81
call load "$card" 3 1 "$work/refiled.load" K; try 'refused 32' 1 "refused 32: a block's letter is none, or not the first block's
" ''
refiled 1 1
call load "$card" 3 1 "$work/refiled.load" K; try 'refused 33' 1 "refused 33: a block's number or count is wrong
" ''
refiled 509 0
call load "$card" 3 1 "$work/refiled.load" K; try 'refused 34' 1 "refused 34: a block's used count or padding is wrong
" ''
kept_load 'what is refused'

# an image is replaced whole or not at all: through a link, at a limit of file sizes, under a lock, a line that cannot be written
ln -s loadcard "$work/linkcard"
call load "$work/linkcard" 3 1 "$three" K; try 'a load through a link' 0 '*' ''
[ -L "$work/linkcard" ] || wrong 'a load through a link: the link is gone'
rm "$work/linkcard"
keep_load
limited_load() { (ulimit -f 8 && exec "$tb" load "$@"); }
call limited_load "$card" 3 1 "$work/loadother" S; one 'a load that cannot be written' 4 '' 'loadcard is as it was'
kept_load 'a load that cannot be written'
locked_load() { flock "$card" "$tb" load "$@"; }
call locked_load "$card" 3 1 "$work/loadother" S; one 'another load at the same time' 3 '' 'another call is changing'
kept_load 'another load at the same time'
full_load() { "$tb" load "$@" >/dev/full; }
call full_load --dry "$card" 3 1 "$three" K; one 'a dry load whose line cannot be written' 4 '' 'the output could not be written'
call full_load -o - "$card" 3 1 "$three" K; one 'an image that standard output does not take' 4 '' 'the output could not be written'
call full_load "$card" 3 1 "$three" S; one 'a refusal that cannot be written' 4 '' 'could not be written'
kept_load 'lines that cannot be written'
call full_load "$card" 3 1 "$three" K; one 'a load whose line cannot be written' 4 '' 'was changed, but the line'
closed_load() { "$tb" load "$@" >&-; }
call closed_load "$card" 3 1 "$three" K; one 'standard output closed' 4 '' 'standard output is closed'

# wrong calls
call load; one 'load alone' 2 '' 'an image, a device'
call load "$card" 3 1 "$three"; one 'load: no letter' 2 '' 'an image, a device'
call load "$card" 3 1 "$three" KK; one 'load: two letters' 2 '' 'the letter'
call load "$card" 3 1 "$three" K half; one 'load: no mode' 2 '' 'byte or word'
call load "$card" x 1 "$three" K; one 'load: no number' 2 '' 'whole numbers'
call load "$card" 3 -1 "$three" K; one 'load: a block below 0' 2 '' 'no option -1'
call load "$work/nowhere" 3 1 "$three" K; one 'load: no such image' 2 '' 'there is no file'
call load "$card" 3 1 "$work/nowhere" K; one 'load: no such file' 2 '' 'there is no file'
call load "$work" 3 1 "$three" K; one 'load: a folder' 2 '' 'is a folder'
call load - 3 1 "$three" K <"$card"; one 'load: standard input replaced' 2 '' 'cannot be changed'
call load --dry - 3 1 - K <"$card"; one 'load: both from standard input' 2 '' 'cannot both be'
call load --dry -o x "$card" 3 1 "$three" K; one 'load: --dry and -o' 2 '' 'does not go with it'
call load -o; one 'load: -o alone' 2 '' 'nothing behind it'
call load --wet "$card" 3 1 "$three" K; one 'load: no such option' 2 '' 'no option --wet'
for bad in 0 65536 x '' -1 1.5 4294967297; do
    call load --program "$bad" "$card" 3 1 "$three" K; one "load: --program '$bad'" 2 '' '--program is'
    call load --erase "$bad" "$card" 3 1 "$three" K; one "load: --erase '$bad'" 2 '' '--erase is'
done
call load --help; try 'load --help' 0 '*' ''
grep -q 'Exit status' "$work/out" || wrong 'load --help: no statuses'

# the cycles of a load as a recording: as many as the load took, accepted from the old image to the new one; at bench T's own times, from a
# blank part, it is what the replay of its cycles records (R-load-1 to R-load-6, R-recording-1)
trace=$work/loadtrace
p=$(not_ff "$three")
blank 16384 >"$card"
call load --program 2 --erase 3 --trace "$trace" "$card" 3 1 "$three" K
try 'a load with its trace' 0 "loaded: $(line_of $((1027 + 4 * p)) 0 bytes "$p")
" ''
[ "$(wc -l <"$trace")" = $((1027 + 4 * p)) ] || wrong 'a load with its trace: other lines than cycles'
[ "$(head -n 3 "$trace")" = "W 1 0 12000 3A00 50 N -- -----
W 1 0 12000 3A00 FF N -- -----
R 1 0 12000 3A00 00 D FF -----" ] || wrong 'a load with its trace: another beginning'
call "$tb" recording --promised "$card" "$trace"
try 'the trace of a load, held against the rules' 0 "accepted: $((1027 + 4 * p)) records, and the array is the one promised
" ''
cut -c 1-19 "$trace" >"$work/loadlines"
"$tb" replay --record "$work/loadlines" 2>/dev/null | cmp -s - "$trace" || wrong 'the trace of a load: its replay records something else'
cases=$((cases + 3))
# an erase of seven cycles in it, and OUT beside it; the boot block at the unlock level
p=$(not_ff "$work/loadother")
cp "$card" "$work/loadbefore"
call load --erase 7 -o "$work/loadnew" --trace "$trace" "$card" 3 1 "$work/loadother" S
try 'a load that erases, with its trace' 0 "loaded: $(line_of $((1027 + 9 + 3 * p)) 1 bytes "$p")
" ''
cmp -s "$card" "$work/loadbefore" || wrong 'a load elsewhere with its trace: the image was changed'
call "$tb" recording --before "$card" --promised "$work/loadnew" "$trace"
try 'the trace of a load that erases' 0 "accepted: $((1027 + 9 + 3 * p)) records, and the array is the one promised
" ''
call load --trace "$trace" "$card" 3 0 "$work/loadother" S
try 'a load of the boot block with its trace' 0 "loaded: $(line_of $((2051 + 3 * p)) 0 bytes "$p")
" ''
[ "$(cut -c 1-3 "$trace" | sort -u | tr '\n' ' ')" = 'R 2 W 2 ' ] || wrong 'a load of the boot block: another level of RP#'
# where there is no trace, nothing else is written either
rm "$trace"
cp "$card" "$work/before"
call load --trace "$trace" "$card" 3 3 "$three" K
one 'a trace of too many cycles' 1 '' 'a recording has at most 9998 lines'
call load --trace "$trace" "$card" 4 1 "$three" K; one 'a trace of another part' 2 '' '--trace is for bench T, device 3'
call load --dry --trace "$trace" "$card" 3 1 "$three" K; one 'a trace of a dry load' 2 '' '--dry writes nothing, so --trace does not go with it'
call load --trace - "$card" 3 1 "$three" K; one 'a trace to standard output' 2 '' 'the trace goes to a file'
call load --trace "$card" "$card" 3 1 "$three" K; one 'a trace over the image' 2 '' 'is image and output at once'
call load --trace "$trace" -o "$trace" "$card" 3 1 "$three" K; one 'a trace over the new image' 2 '' 'is new image and trace at once'
call load --trace "$work/none/here" "$card" 3 1 "$three" K; one 'a trace where no folder is' 2 '' 'there is no folder'
call load --trace "$trace" "$card" 3 1 "$three" S; try 'a trace of a load that is refused' 1 'refused 35: the file'"'"'s letter is not the one asked for
' ''
cmp -s "$card" "$work/before" || wrong 'a load without its trace: the image was changed'
[ ! -e "$trace" ] || wrong 'a load without its trace: there is one'
cases=$((cases + 4))
