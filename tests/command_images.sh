# shellcheck shell=bash
# Sourced by tests/command.sh: images and load files as Intel HEX and S-records. Small texts, their checksums and what is refused are
# worked out by hand from the two formats: in a HEX record all bytes add up to 0 modulo 256, in an S-record to FFH.
root=${root:?} work=${work:?} tb=${tb:?}
images() { python3 -B "$root/commands/lib/images.py" "$@"; }
# texts NAME BYTES HEX SREC: what such bytes are as text
texts() {
    printf '%b' "$2" >"$work/some"
    call images give hex <"$work/some"; try "$1 as HEX" 0 "$3" ''
    call images give srec <"$work/some"; try "$1 as S-records" 0 "$4" ''
}
texts 'three bytes' '\0001\0002\0003' ':03000000010203F7
:00000001FF
' 'S0030000FC
S1060000010203F3
S5030001FB
S9030000FC
'
texts 'nothing' '' ':00000001FF
' 'S0030000FC
S5030000FC
S9030000FC
'
texts 'seventeen bytes' '\0000\0000\0000\0000\0000\0000\0000\0000\0000\0000\0000\0000\0000\0000\0000\0000\0377' ':1000000000000000000000000000000000000000F0
:01001000FFF0
:00000001FF
' 'S0030000FC
S113000000000000000000000000000000000000EC
S1040010FFEC
S5030002FA
S9030000FC
'
# a byte past 64K: a 04 record, and S2 with S8. 65,537 bytes are 4,097 (1001H) records
blank 65537 >"$work/some"
call images give hex <"$work/some"
cases=$((cases + 2))
[ "$(tail -n 3 "$work/out")" = ':020000040001F9
:01000000FF00
:00000001FF' ] || wrong 'a byte past 64K as HEX: other records'
call images give srec <"$work/some"
[ "$(sed -n '2p' "$work/out")" = S214000000FFFFFFFFFFFFFFFFFFFFFFFFFFFFFFFFFB ] || wrong 'a byte past 64K as S-records: another first record'
[ "$(tail -n 3 "$work/out")" = 'S205010000FFFA
S5031001EB
S804000000FB' ] || wrong 'a byte past 64K as S-records: other records'

# what is given is taken again, the same; bytes of every value, in every length that matters to a record
python3 -c 'import sys; sys.stdout.buffer.write(bytes((37 * i + i // 256) % 256 for i in range(262144)))' >"$work/many"
for form in hex srec; do
    for length in 1 15 16 17 65535 65536 65552 262144; do
        head -c "$length" "$work/many" >"$work/some"
        images give "$form" <"$work/some" >"$work/text"
        [ "$(images take "$form" 524288 <"$work/text" | head -n 1)" = 0 ] || wrong "$length bytes as $form: not all given"
        printf '%b' "$(images take "$form" 524288 <"$work/text" | tail -n +2)" | cmp -s - "$work/some" || wrong "$length bytes as $form: other bytes"
        cases=$((cases + 1))
    done
done
# by another's programs, where they are there
if command -v objcopy >/dev/null; then
    for form in hex srec; do
        images give "$form" <"$work/many" >"$work/text"
        objcopy -I "${form/#hex/ihex}" -O binary "$work/text" "$work/some"
        cmp -s "$work/some" "$work/many" || wrong "objcopy reads other bytes off $form"
        objcopy -I binary -O "${form/#hex/ihex}" "$work/many" "$work/text"
        printf '%b' "$(images take "$form" 524288 <"$work/text" | tail -n +2)" | cmp -s - "$work/many" || wrong "objcopy's $form: other bytes"
        cases=$((cases + 2))
    done
fi
if command -v srec_cat >/dev/null; then
    for form in intel motorola; do
        short=hex
        [ "$form" = intel ] || short=srec
        images give "$short" <"$work/many" >"$work/text"
        srec_cat "$work/text" "-$form" -o "$work/some" -binary
        cmp -s "$work/some" "$work/many" || wrong "srec_cat reads other bytes off $short"
        srec_cat "$work/many" -binary -o "$work/text" "-$form" -execution-start-address=0
        printf '%b' "$(images take "$short" 524288 <"$work/text" | tail -n +2)" | cmp -s - "$work/many" || wrong "srec_cat's $short: other bytes"
        cases=$((cases + 2))
    done
fi

# load files: written and read in every format, by the ending or as said; dumps too
for ending in hex ihx IHEX s19 s28 s37 srec MOT; do
    call "$tb" table write K "$work/three.txt" "$work/f.$ending"; try "a load file, .$ending" 0 '' ''
    LC_ALL=C grep -q '[^0-9A-FS:]' "$work/f.$ending" && wrong "a load file, .$ending: no such text"
    call "$tb" read "$work/f.$ending" K 6138; try "a reading, .$ending" 0 '150.5
' ''
    call "$tb" table print "$work/f.$ending" K; try "a table printed, .$ending" 0 "$three" ''
done
cmp -s "$work/f.hex" "$work/f.ihx" || wrong '.hex and .ihx: other texts'
cmp -s "$work/f.s19" "$work/f.MOT" || wrong '.s19 and .MOT: other texts'
cmp -s "$work/f.hex" "$work/f.s19" && wrong '.hex and .s19: one text'
for form in hex srec; do
    call "$tb" table write --format "$form" K "$work/three.txt"; try "a load file to standard output, $form" 0 '*' ''
    cp "$work/out" "$work/f.text"
    cmp -s "$work/f.text" "$work/f.$form" || wrong "a load file to standard output, $form: another text"
    call "$tb" read --format "$form" - K 6138 <"$work/f.text"; try "a reading from standard input, $form" 0 '150.5
' ''
    call "$tb" read "$work/f.text" K 6138 --format "$form"; try "a reading, $form as said behind" 0 '150.5
' ''
    call "$tb" table print --format "$form" "$work/f.text" K; try "a table printed, $form as said" 0 "$three" ''
    call "$tb" read "$work/f.$form" S 6138; try "another letter, $form" 1 "refused 35: the file's letter is not the one asked for
" ''
done
call "$tb" table write --format bin K "$work/three.txt" "$work/f.hex"; try 'bytes in a file .hex, as said' 0 '' ''
cmp -s "$work/f.hex" "$work/three.load" || wrong 'bytes in a file .hex, as said: other bytes'
call "$tb" read "$work/f.hex" K 6138; one 'bytes in a file .hex' 1 '' "f.hex, line 1: it begins with 'K' and not with ':', as a record does"
call "$tb" read --format bin "$work/f.hex" K 6138; try 'bytes in a file .hex, said again' 0 '150.5
' ''
call "$tb" read "$work/f.text" K 6138; try 'text in a file without an ending' 1 "refused 30: the file's length is wrong
" ''
images give hex <"$work/dump" >"$work/dump.hex"
call "$tb" read "$work/dump.hex" K 6138; one 'a dump in HEX' 0 '150.5
' 'a file of 512 bytes and behind it 3584 of FFH'
cat "$work/f.srec" >"$work/fifo" &
call "$tb" read --format srec "$work/fifo" K 6138; try 'a FIFO of S-records' 0 '150.5
' ''
tr '[:upper:]' '[:lower:]' <"$work/f.srec" | sed -e 's/^s/S/' -e 's/$/\r/' -e '1s/^/\n/' >"$work/dos.srec"
call "$tb" read "$work/dos.srec" K 6138; try 'small digits, carriage returns and a blank line' 0 '150.5
' ''

# images: verify, store and recording
images give hex <"$work/image" >"$work/image.hex"
images give srec <"$work/image" >"$work/image.s19"
images give srec <"$work/three.load" >"$work/three.srec"
for image in image.hex image.s19; do
    for load in three.load three.srec; do
        call "$tb" verify "$work/$image" 3 1 "$work/$load" K; try "verify $image $load" 0 'the block holds the file
' ''
        call "$tb" verify "$work/$image" 3 2 "$work/$load" K; try "verify $image $load, a blank block" 1 'differs at 03800
' ''
    done
done
call "$tb" verify --format srec - 3 1 --file-format srec "$work/three.srec" K <"$work/image.s19"; try 'verify: formats as said' 0 'the block holds the file
' ''
images give srec <"$work/image5" >"$work/image5.s28"
call "$tb" verify "$work/image5.s28" 5 1 "$work/three.srec" K word; try 'verify: a part of 256K in S-records' 0 'the block holds the file
' ''
call "$tb" verify "$work/image5.s28" 3 1 "$work/three.load" K; one 'verify: an image of a longer part' 1 '' 'image5.s28, line 1026: address 4000 is outside: a part has 16,384 bytes here, 0000 to 3FFF'
# a part of which only block 1 is told: three.load at 3A00
python3 -c '
import sys
data = open(sys.argv[1], "rb").read()
for at in range(0, len(data), 32):
    record = bytes([32]) + (0x3A00 + at).to_bytes(2, "big") + b"\0" + data[at:at + 32]
    print(":" + (record + bytes([-sum(record) % 256])).hex().upper())
print(":00000001FF")' "$work/three.load" >"$work/part.hex"
call "$tb" verify "$work/part.hex" 3 1 "$work/three.load" K; one 'an image in part' 0 'the block holds the file
' 'part.hex: no record gives 15872 of its 16384 bytes; they are taken as FFH'
call "$tb" verify "$work/part.hex" 3 2 "$work/three.load" K; one 'an image in part, what is not told' 1 'differs at 03800
' 'no record gives 15872 of its 16384 bytes'
call "$tb" read "$work/part.hex" K 6138; one 'a load file that does not begin at 0' 1 '' 'part.hex, line 1: the lowest address is 3A00, and a load file begins at 0000'
call "$tb" verify "$work/part.hex" 9 1 "$work/three.load" K; one 'an image in part, no such device' 1 '' 'part.hex, line 1: the lowest address is 3A00'

blank 16384 >"$work/some"
images give hex <"$work/some" >"$work/h.hex"
call store "$work/h.hex" 3 add "$work/three.srec" K; try 'a store in HEX' 0 "$calm" ''
{ cat "$work/three.load" && blank 15872; } >"$work/some"
images give hex <"$work/some" | cmp -s - "$work/h.hex" || wrong 'a store in HEX: another text'
call store "$work/h.hex" 3 read K 6138; try 'a store in HEX, read' 0 '150.5
' ''
call store --file-format srec "$work/h.hex" 3 find K; try 'a file found, in S-records' 0 "$(cat "$work/three.srec")
" ''
call store "$work/h.hex" 3 find K; try 'a file found, in bytes' 0 '*' ''
cmp -s "$work/out" "$work/three.load" || wrong 'a file found, in bytes: other bytes'
cp "$work/h.hex" "$work/h.before"
call store "$work/h.hex" 3 drop S; try 'a store in HEX: refused' 1 "refused 42: $gone42
" ''
cmp -s "$work/h.hex" "$work/h.before" || wrong 'a store in HEX: refused, and changed'
call limited "$work/h.hex" 3 drop K; [ "$status" = 4 ] || wrong 'a store in HEX that cannot be written: another status'
cmp -s "$work/h.hex" "$work/h.before" || wrong 'a store in HEX that cannot be written: changed'
call store "$work/h.hex" 3 drop K; try 'a store in HEX, dropped' 0 "$calm" ''
call store "$work/h.hex" 3 list; try 'a store in HEX, listed' 0 'x...........................
' ''
[ "$(find "$work" -name 'h.hex*' | wc -l)" = 1 ] || wrong 'a store in HEX: a file is left beside it'
# the ending is that of the name in the call
cp "$work/h.hex" "$work/texted"
ln -s texted "$work/l.hex"
call store "$work/l.hex" 3 add "$work/three.load" K; try 'a store in HEX through a link' 0 "$calm" ''
head -n 1 "$work/texted" | grep -q '^:' || wrong 'a store in HEX through a link: it is no text any more'
call store --format hex "$work/texted" 3 find K; try 'a store in HEX through a link, found' 0 '*' ''
cmp -s "$work/out" "$work/three.load" || wrong 'a store in HEX through a link: another file'

images give srec <"$root/samples/promised.bin" >"$work/promised.s19"
call "$tb" recording --promised "$work/promised.s19" "$root/samples/recording.txt"; try 'a promised image in S-records' 0 'accepted: 15 records, and the array is the one promised
' ''
call "$tb" recording --format srec --promised - "$root/samples/recording.txt" <"$work/promised.s19"; try 'a promised image in S-records from standard input' 0 '*' ''
sed '2,900d' "$work/promised.s19" | sed '/^S5/d' >"$work/less.s19"
call "$tb" recording --promised "$work/less.s19" "$root/samples/recording.txt"; one 'a promised image in part' 0 '*' 'no record gives 14384 of its 16384 bytes'

# a load: the image is written back in its own format, OUT in that of its ending. 2n + 3 cycles of a block of 512 bytes, and 3 for each
# byte that is not FFH
programmed=$(od -An -v -tx1 -w1 "$work/three.load" | grep -vc ' ff')
loaded="cycles $((1027 + 3 * programmed)), erases begun 0, bytes programmed $programmed
"
blank 16384 >"$work/some"
images give hex <"$work/some" >"$work/load.hex"
cp "$work/load.hex" "$work/load.before"
call "$tb" load --dry "$work/load.hex" 3 1 "$work/three.srec" K; try 'a dry load in HEX' 0 "dry, nothing is written: $loaded" ''
call "$tb" load -o "$work/load.s19" "$work/load.hex" 3 1 "$work/three.srec" K; try 'a load out of HEX into S-records' 0 "loaded: $loaded" ''
cmp -s "$work/load.s19" "$work/image.s19" || wrong 'a load out of HEX into S-records: another text'
call "$tb" load -o - --format hex - 3 1 --file-format srec "$work/three.srec" K <"$work/load.hex"; one 'a load from pipe to pipe in HEX' 0 "$(cat "$work/image.hex")
" "loaded: $loaded"
cmp -s "$work/load.hex" "$work/load.before" || wrong 'a load elsewhere: the image is another'
call "$tb" load "$work/load.hex" 3 1 "$work/three.load" K; try 'a load in HEX' 0 "loaded: $loaded" ''
cmp -s "$work/load.hex" "$work/image.hex" || wrong 'a load in HEX: another text'
cp "$work/part.hex" "$work/less.hex"
call "$tb" load "$work/less.hex" 3 1 "$work/three.load" K; one 'a load of an image in part' 0 'loaded: cycles 1027, erases begun 0, bytes programmed 0
' 'no record gives 15872 of its 16384 bytes'
cmp -s "$work/less.hex" "$work/image.hex" || wrong 'a load of an image in part: another text'
call "$tb" load "$work/load.hex" 3 1 "$work/f.text" K; [ "$status" = 1 ] || wrong 'a load of text without an ending: another status'
cmp -s "$work/load.hex" "$work/image.hex" || wrong 'a load that is refused: another text'
call "$tb" load --format "$work/load.hex" 3 1 "$work/three.load" K; one 'a load: no such format' 2 '' 'there is no format'

# what is wrong with a text, by its line. A record of block 0 of three.load stands before: K, 0, 1, 0
bad() { # bad FORMAT NAME WORDS BYTES
    printf '%b' "$4" >"$work/bad.$1"
    call "$tb" read "$work/bad.$1" K 6138; one "$2" 1 '' "bad.$1, $3"
}
first=':040000004B000100B0\n'
end=':00000001FF\n'
bad hex 'HEX: a wrong checksum' 'line 2: its checksum is 01 and not 00: the record is damaged' "$first:01000400FB01\n$end"
bad hex 'HEX: a bad digit' "line 2: column 10 has 'G' where a hexadecimal digit stands" "$first:01000400G000\n$end"
bad hex 'HEX: half a byte' 'line 2: its digits are no whole number of bytes' "$first:01000400FB0\n$end"
bad hex 'HEX: too few data' 'line 2: its length says 2 data bytes, and it has 1' "$first:02000400FBFF\n$end"
bad hex 'HEX: too many data' 'line 2: its length says 1 data bytes, and it has 2' "$first:01000400FBFF00\n$end"
bad hex 'HEX: too short' 'line 2: it is too short for a record' "$first:0100\n$end"
bad hex 'HEX: a colon alone' 'line 1: it is too short for a record' ":\n$end"
bad hex 'HEX: type 06' 'line 2: there is no record of type 06' "$first:00000006FA\n$end"
bad hex 'HEX: type 10' 'line 1: there is no record of type 10' ":00000010F0\n$end"
bad hex 'HEX: no end' 'line 2: the text ends, and there is no end record' "$first"
bad hex 'HEX: nothing' 'line 1: the text ends, and there is no end record' ''
bad hex 'HEX: data behind the end' 'line 3: it stands behind the end record, which is line 2' "$first$end$first"
bad hex 'HEX: two ends' 'line 3: it stands behind the end record, which is line 2' "$first$end$end"
bad hex 'HEX: an end with data' 'line 2: a record of type 01 has 0 data bytes, not 1' "$first:0100000100FE\n"
bad hex 'HEX: a base of one byte' 'line 2: a record of type 04 has 2 data bytes, not 1' "$first:0100000400FB\n$end"
bad hex 'HEX: an address past a load file' 'line 3: address 20000 is outside: a file has 131,072 bytes here, 0000 to 1FFFF' "$first:020000040002F8\n:0100000000FF\n$end"
bad hex 'HEX: a segment past a load file' 'line 3: address 20000 is outside' "$first:020000022000DC\n:0100000000FF\n$end"
bad hex 'HEX: past the end of 64K' 'line 2: its bytes go past the end of 64K' "$first:02FFFF00000000\n$end"
bad hex 'HEX: two values' 'line 2: it gives 01 at address 0003, where line 1 gives 00' "$first:0100030001FB\n$end"
bad hex 'HEX: an S-record' "line 1: it begins with 'S' and not with ':', as a record does" 'S9030000FC\n'
bad hex 'HEX: a byte-order mark' 'line 1: the text begins with a byte-order mark' "\\0357\\0273\\0277$first$end"
bad hex 'HEX: two-byte letters' 'line 1: the text is in two-byte letters' '\0377\0376:\00000\0000'
bad hex 'HEX: a space behind a record' 'line 2: column 12 has a space where a hexadecimal digit stands' "$first:00000001FF \n"
bad hex 'HEX: a byte of zero' 'line 2: it begins with the byte 00H' "$first\\0000\n$end"
first='S10700004B000100AC\n'
end='S9030000FC\n'
bad srec 'S: a wrong checksum' 'line 2: its checksum is FD and not FC: the record is damaged' "${first}S1040004FBFD\n$end"
bad srec 'S: a bad digit' "line 2: column 7 has 'G' where a hexadecimal digit stands" "${first}S10400G4FBFC\n$end"
bad srec 'S: half a byte' 'line 2: its digits are no whole number of bytes' "${first}S1040004FBF\n$end"
bad srec 'S: too few data' 'line 2: its length says 5 bytes behind it, and it has 4' "${first}S1050004FBFC\n$end"
bad srec 'S: too many data' 'line 2: its length says 4 bytes behind it, and it has 5' "${first}S1040004FBFC00\n$end"
bad srec 'S: too short' 'line 2: it is too short for a record of type S1' "${first}S10300\n$end"
bad srec 'S: type S4' 'line 2: there is no record of type S4' "${first}S4030000FC\n$end"
bad srec 'S: no type' 'line 2: behind S stands no digit' "${first}SX030000FC\n$end"
bad srec 'S: an S alone' 'line 1: behind S stands no digit' 'S\n'
bad srec 'S: no end' 'line 2: the text ends, and there is no end record (S9, S8 or S7)' "$first"
bad srec 'S: nothing' 'line 1: the text ends, and there is no end record' '\n\n'
bad srec 'S: data behind the end' 'line 3: it stands behind the end record, which is line 2' "$first$end$first"
bad srec 'S: an end with data' 'line 2: a record of type S9 has no data' "${first}S904000000FB\n"
bad srec 'S: a wrong count' 'line 2: it counts 2 data records, and there are 1' "${first}S5030002FA\n$end"
bad srec 'S: a wrong long count' 'line 2: it counts 65,537 data records, and there are 1' "${first}S604010001F9\n$end"
bad srec 'S: data behind the count' 'line 3: data stands behind the count, which is line 2' "${first}S5030001FB\n$first$end"
bad srec 'S: an address past a load file' 'line 2: address 20000 is outside' "${first}S20502000000F8\n$end"
bad srec 'S: a long address past a load file' 'line 2: address 80000000 is outside' "${first}S3068000000000""79\n$end"
bad srec 'S: two values' 'line 2: it gives 01 at address 0003, where line 1 gives 00' "${first}S104000301F7\n$end"
bad srec 'S: HEX' "line 1: it begins with ':' and not with 'S', as a record does" ':00000001FF\n'
# without a word of its own: a load file of four bytes, and of 512 of which all but four are missing
printf '%b' "$first$end" >"$work/four.srec"
call "$tb" read "$work/four.srec" K 6138; try 'four bytes of a load file' 1 "refused 30: the file's length is wrong
" ''
printf '%b' "${first}S10401FFFFFC\n$end" >"$work/four.srec"
call "$tb" read "$work/four.srec" K 6138; one 'a load file that is not told' 1 "refused 31: a block's check is wrong
" 'four.srec: no record gives 507 of its 512 bytes; they are taken as FFH'
call "$tb" read --format srec - K 6138 <"$work/image.hex"; one 'a fault on standard input' 1 '' 'standard input, line 1: it begins with'

# what is taken: the same byte twice, start addresses, segments, S0 anywhere, S2 and S3, a long count
taken() { # taken NAME FORMAT: $work/text is three.load
    cp "$work/text" "$work/taken.$2"
    call "$tb" read "$work/taken.$2" K 6138; try "$1" 0 '150.5
' ''
}
images give hex <"$work/three.load" >"$work/f.hex"
{ head -n 2 "$work/f.hex" && printf ':0400000300003800C1\n:0400000500000000F7\n:020000020000FC\n:020000040000FA\n:00000000''00\n' && cat "$work/f.hex"; } >"$work/text"
taken 'HEX: records twice and those without data' hex
{ printf ':0200000203A059\n' && sed -e '/^:10/!b' "$work/f.hex"; } >"$work/segment.hex"
call "$tb" verify "$work/segment.hex" 3 1 "$work/three.load" K; one 'HEX: a segment' 0 'the block holds the file
' 'no record gives 15872 of its 16384 bytes'
for kind in '2 3 8' '3 4 7'; do
    python3 -c '
import sys
kind, wide, last = sys.argv[2:]
data = open(sys.argv[1], "rb").read()
def line(kind, address, body):
    record = bytes([int(wide) + len(body) + 1]) + address.to_bytes(int(wide), "big") + body
    print("S" + kind + (record + bytes([255 - sum(record) % 256])).hex().upper())
for at in range(0, 512, 8):
    line(kind, at, data[at:at + 8])
print("S0030000FC")
print("S604000040BB")
line(last, 0x1234, b"")' "$work/three.load" $kind >"$work/text"
    taken "S: S${kind%% *} and S${kind##* }" srec
done

# wrong calls
call "$tb" read "$work/three.load" K 6138 --format; one 'no format named' 2 '' '--format has no format behind it: bin, hex or srec'
call "$tb" read --format elf "$work/three.load" K 6138; one 'a format that is none' 2 '' "there is no format 'elf': it is bin, hex or srec"
call "$tb" verify --file-format HEX "$work/image" 3 1 "$work/three.load" K; one 'a format in capitals' 2 '' "there is no format 'HEX'"
call "$tb" read --file-format hex "$work/three.load" K 6138; one 'read has one file' 2 '' 'read has no option --file-format'
call "$tb" table print --file-format hex "$work/three.load" K; one 'table print has one file' 2 '' 'table print has no option --file-format'
call "$tb" table check --format hex K "$work/three.txt"; one 'a check has no format' 2 '' 'table check has no option --format'
call "$tb" table plot --format hex "$work/three.txt" K -; one 'a picture has no format' 2 '' 'table plot has no option --format'
call "$tb" recording --promised "$work/promised.bin" --format; one 'recording: no format named' 2 '' '--format has no format behind it'
call "$tb" read "$work/nowhere.hex" K 6138; one 'HEX: no such file' 2 '' 'there is no file'
mkdir "$work/folder.hex"
call "$tb" read "$work/folder.hex" K 6138; one 'HEX: a folder' 2 '' 'is a folder'
call "$tb" read --format hex - K 6138 <"$work"; one 'HEX: a folder as standard input' 2 '' 'standard input could not be read to its end'
head -c 16777217 /dev/zero >"$work/bad.hex"
call "$tb" read "$work/bad.hex" K 6138; one 'HEX: a text that is too long' 1 '' 'bad.hex, the text is longer than 16,777,216 bytes'
rm "$work/bad.hex"
rm -f "$work/tools/python3"
bare_read() { env PATH="$work/tools" "$tb" "$@"; }
call bare_read read "$work/three.srec" K 6138; one 'no python3: S-records' 3 '' 'there is no python3'
call bare_read table write --force K "$work/three.txt" "$work/none.hex"; [ "$status" = 3 ] || wrong 'no python3: HEX is written'
[ ! -e "$work/none.hex" ] || wrong 'no python3: a file is written'
call bare_read read "$work/three.load" K 6138; try 'no python3: bytes' 0 '150.5
' ''
