# shellcheck shell=bash
# Sourced by tests/command.sh: what a load file or a dump holds, and a load file cut out of a dump. What is expected of a file is what its
# table in text has: three knots from 0 to 8138 microvolts and from 0.0 to 200.0 degrees.
root=${root:?} work=${work:?} tb=${tb:?}
info() { "$tb" info "$@"; }
of_three='letter      K
blocks      1 of 512 bytes
knots       3
degrees     0.0 to 200.0
microvolts  0 to 8138
'
call info "$work/three.load"; try 'info of a load file' 0 "$of_three" ''
call info - <"$work/three.load"; try 'info of a load file from standard input' 0 "$of_three" ''
call info "$work/dump"; one 'info of a dump of a flash block' 0 "$of_three" 'a file of 512 bytes and behind it 3584 of FFH'
call info "$work/three.srec"; try 'info of a load file in S-records' 0 "$of_three" ''
call info --format srec - <"$work/three.srec"; try 'info of a load file in S-records, as said' 0 "$of_three" ''
# each letter is told; the temperatures are the lowest and the highest, whatever their order
printf '%s\n' '-10000 50' '-9999 -32768' '80000 -7' >"$work/odd.txt"
for kind in B E J K N R S T; do
    "$tb" table write --force "$kind" "$work/odd.txt" "$work/odd.load" 2>/dev/null
    call info "$work/odd.load"; try "info of a file of type $kind" 0 "letter      $kind
blocks      1 of 512 bytes
knots       3
degrees     -3276.8 to 5.0
microvolts  -10000 to 80000
" ''
done
python3 -c "for i in range(85): print(10 * i, i)" >"$work/two.txt"
"$tb" table write --force S "$work/two.txt" "$work/two.load" 2>/dev/null
call info "$work/two.load"; try 'info of a file of two blocks' 0 'letter      S
blocks      2 of 512 bytes
knots       85
degrees     0.0 to 8.4
microvolts  0 to 840
' ''
# no load file
{ head -c 511 "$work/three.load" && printf x; } >"$work/spoilt.load"
blank 1024 >"$work/blank.load"
call info "$work/spoilt.load"; one 'info of a damaged file' 1 '' "no load file: refused 31: a block's check is wrong"
call info "$work/blank.load"; one 'info of a blank file' 1 '' 'no load file: refused 38: a block of the file is blank'
call info "$work/three.txt"; one 'info of a text' 1 '' "no load file: refused 30: the file's length is wrong"
call info "$work/image"; one 'info of an image without its device' 1 '' "of a dump of a part 'torfbarke info' asks for the device too"
# a file whose payload is no table, five bytes of it: its check is 1 plus the sum of (i + 1) times byte i
python3 -c '
import sys
block = bytearray(b"K\0\1\0\5hello" + b"\xff" * 500)
check = (1 + sum((i + 1) * byte for i, byte in enumerate(block))) % 65521
sys.stdout.buffer.write(block + check.to_bytes(2, "big"))' >"$work/hello.load"
call info "$work/hello.load"; one 'info of a file that is no table' 1 'letter      K
blocks      1 of 512 bytes
' 'a load file, but not of a table: refused 40: the payload is no whole number of knots, or too few'

# a part, block by block. Block 1 of device 3 is 3A00-3BFF
held='a load file of type K, blocks 1, knots 3, degrees 0.0 to 200.0, microvolts 0 to 8138'
call info "$work/image" 3; try 'info of a part' 0 "block  addresses    holds
0      3C00-3FFF    blank
1      3A00-3BFF    $held
2      3800-39FF    blank
3      0000-37FF    blank
" ''
images give hex <"$work/image" >"$work/image.hex"
call info "$work/image.hex" 03; try 'info of a part in HEX' 0 "$(cat "$work/out")
" ''
call info - 3 <"$work/image"; try 'info of a part from standard input' 0 "$(cat "$work/out")
" ''
# device 4: the same file in its main block, a damaged one in block 1, no table in block 2, half a boot block
{ printf x && blank 1023 && cat "$work/spoilt.load" "$work/hello.load" "$work/three.load" && blank 13824; } >"$work/part4"
call info "$work/part4" 4; try 'info of a part with other things' 0 "block  addresses    holds
0      0000-03FF    no load file: refused 31: a block's check is wrong
1      0400-05FF    no load file: refused 31: a block's check is wrong
2      0600-07FF    a load file of type K, blocks 1, but not of a table: refused 40: the payload is no whole number of knots, or too few
3      0800-3FFF    $held
" ''
# stores: two files, and a file that was dropped
blank 16384 >"$work/stored"
"$tb" store "$work/stored" 3 add "$work/two.load" S >/dev/null
"$tb" store "$work/stored" 3 add "$work/three.load" K >/dev/null
call info "$work/stored" 3; try 'info of a store' 0 '*' ''
[ "$(tail -n 1 "$work/out")" = '3      0000-37FF    a store, load files of type S K' ] || wrong 'info of a store: other words'
call info --cut 3 -o "$work/none.load" "$work/stored" 3; one 'a store is not cut' 1 '' "block 3 holds a store, load files of type S K: 'torfbarke store' finds one by its letter"
"$tb" store "$work/stored" 3 drop S >/dev/null
"$tb" store "$work/stored" 3 drop K >/dev/null
call info "$work/stored" 3; try 'info of a store whose files were dropped' 0 '*' ''
[ "$(tail -n 1 "$work/out")" = '3      0000-37FF    a store without a load file' ] || wrong 'info of a store whose files were dropped: other words'
# no store, and as a load file of 28 blocks refused by the count in its first
{ cat "$work/three.load" "$work/spoilt.load" && blank 15360; } >"$work/junk"
call info "$work/junk" 3; try 'info of a main block with junk' 0 '*' ''
[ "$(tail -n 1 "$work/out")" = "3      0000-37FF    no load file: refused 33: a block's number or count is wrong" ] || wrong 'info of a main block with junk: other words'
# every device: where its blocks lie is where the verify program says that a blank one differs
device=0
for size in 131072 131072 16384 16384 262144 262144 524288 524288; do
    device=$((device + 1))
    blank "$size" >"$work/part"
    call info "$work/part" "$device"; try "info of a blank part, device $device" 0 '*' ''
    [ "$(tail -n +2 "$work/out" | grep -vc ' blank$')" = 0 ] || wrong "info of a blank part, device $device: not blank"
    cp "$work/out" "$work/rows"
    block=0
    while read -r number addresses _; do
        [ "$number" = "$block" ] || wrong "info of a blank part, device $device: another number"
        "$tb" verify "$work/part" "$device" "$block" "$work/three.load" K >"$work/out" 2>"$work/err" || :
        [ "$(cat "$work/out")" = "differs at $(printf '%05X' "0x${addresses%-*}")" ] || wrong "info of a blank part, device $device: block $block begins elsewhere"
        block=$((block + 1))
    done < <(tail -n +2 "$work/rows")
    "$tb" verify "$work/part" "$device" "$block" "$work/three.load" K >"$work/out" 2>"$work/err" || :
    grep -q 'refused 10' "$work/out" || wrong "info of a blank part, device $device: it has more blocks"
    # the blocks lie side by side, from the first to the last byte
    tail -n +2 "$work/rows" | tr '-' ' ' | sort -k 2 | python3 -c '
import sys
at = 0
for row in sys.stdin:
    first, last = (int(x, 16) for x in row.split()[1:3])
    assert first == at
    at = last + 1
assert at == int(sys.argv[1])' "$size" 2>"$work/err" || wrong "info of a blank part, device $device: a gap"
    cases=$((cases + 1))
done
call info "$work/image5" 5; try 'info of device 5' 0 "block  addresses    holds
0      3C000-3FFFF  blank
1      3A000-3BFFF  $held
2      38000-39FFF  blank
3      20000-37FFF  blank
4      00000-1FFFF  blank
" ''

# a load file out of a dump: to a file, to standard output, in every format; the same as it was loaded
call info --cut 1 -o "$work/cut.load" "$work/image" 3; try 'a file cut' 0 '' ''
cmp -s "$work/cut.load" "$work/three.load" || wrong 'a file cut: other bytes'
call info --cut 1 "$work/image" 3; try 'a file cut to standard output' 0 '*' ''
cmp -s "$work/out" "$work/three.load" || wrong 'a file cut to standard output: other bytes'
call info "$work/image" 3 --cut 01 -o "$work/cut.hex"; try 'a file cut as HEX' 0 '' ''
images give hex <"$work/three.load" | cmp -s - "$work/cut.hex" || wrong 'a file cut as HEX: another text'
call info --cut 1 --file-format srec "$work/image.hex" 3; try 'a file cut as S-records' 0 "$(cat "$work/three.srec")
" ''
call info --cut 2 -o "$work/cut.load" "$work/part4" 4; one 'a file cut that is no table' 0 '' 'the load file is not of a table: refused 40'
cmp -s "$work/cut.load" "$work/hello.load" || wrong 'a file cut that is no table: other bytes'
cut_kept() { # cut_kept NAME STATUS WORDS ARGUMENTS: $work/kept stays as it was, and nothing is left beside it
    printf 'as it was' >"$work/kept"
    call info -o "$work/kept" --cut "${@:4}"; one "$1" "$2" '' "$3"
    [ "$(cat "$work/kept")" = 'as it was' ] || wrong "$1: the output is another"
    [ -z "$(find "$work" -name '*.part.*')" ] || wrong "$1: a part is left"
}
cut_kept 'a blank block is not cut' 1 'block 0 is blank' 0 "$work/image" 3
cut_kept 'a damaged file is not cut' 1 "block 1 holds no load file: refused 31: a block's check is wrong" 1 "$work/part4" 4
cut_kept 'no such block is cut' 1 'refused 10: there is no such block' 4 "$work/image" 3
cut_kept 'no such device is cut' 1 'refused 1: there is no such device' 1 "$work/image" 9
cut_kept 'the image of another part is not cut' 1 'refused 2: the image has 16384 bytes, the part 131072' 1 "$work/image" 1
cut_kept 'a longer image is not cut' 1 "refused 2: the image has more bytes than the part's 16384" 1 "$work/image5" 3
cut_kept 'no number of a block' 2 "the block is a whole number: 'x'" x "$work/image" 3
# wrong calls
call info; one 'info alone' 2 '' 'a load file, or an image and a device'
call info "$work/image" 3 1; one 'info: a word too many' 2 '' 'a load file, or an image and a device'
call info "$work/image" x; one 'info: no number' 2 '' "the device is a whole number: 'x'"
call info "$work/image" 9; one 'info: no such device' 1 '' 'refused 1: there is no such device'
call info "$work/image" 1; one 'info: the image of another part' 1 '' 'refused 2: the image has 16384 bytes, the part 131072'
call info --cut 1 "$work/three.load"; one 'info: no device to cut of' 2 '' '--cut asks for an image and a device'
call info --cut; one 'info: no block to cut' 2 '' '--cut has no block behind it'
call info -o "$work/none.load" "$work/image" 3; one 'info: an output and no cut' 2 '' '-o and --file-format go with --cut alone'
call info --cut 1 "$work/image" 3 -o; one 'info: no name of an output' 2 '' '-o has no name behind it'
call info --cut 1 -o "$work/image" "$work/image" 3; one 'info: over the image' 2 '' 'is image and output at once'
call info --cut 1 -o "$work" "$work/image" 3; one 'info: a folder as the output' 2 '' 'is a folder'
call info --word "$work/image" 3; one 'info: an option that is none' 2 '' 'info has no option --word'
call info "$work/nowhere"; one 'info: no such file' 2 '' 'there is no file'
call info "$work"; one 'info: a folder' 2 '' 'is a folder'
call info --help; try 'info --help' 0 '*' ''
told_full() { info "$@" >/dev/full; }
call told_full "$work/three.load"; one 'info to a full device' 4 '' 'the output could not be written to its end'
call told_full "$work/image" 3; one 'info of a part to a full device' 4 '' 'the output could not be written to its end'
call told_full --cut 1 "$work/image" 3; one 'a file cut to a full device' 4 '' 'the output could not be written to its end'
[ ! -e "$work/none.load" ] || wrong 'a wrong call of info wrote a file'
