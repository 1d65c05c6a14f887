# shellcheck shell=bash
# Sourced by tests/command.sh: a replay as waves (--vcd, --svg), and what --words says of writes. The dump of four cycles is worked out by
# hand: 90H asks for the identifier, 89H stands at 0000, 0002 is refused by 9, an idle cycle has neither address nor data.
root=${root:?} work=${work:?} tb=${tb:?}
four='W 1 0 12000 0000 90
R 1 0 12000 0000 00
R 1 0 12000 0002 00
I 1 0 12000 1234 56
'
four_answers='N -- 80
D 89 80
X 09 80
N -- 80
'
printf '%s' "$four" >"$work/four.txt"
call "$tb" replay --vcd "$work/four.vcd" "$work/four.txt"; try 'a dump' 0 "$four_answers" ''
# ! line, " kind, # RP#, $ OE#, % WP#, & VPP, ' address, ( data, ) status, * refusal. 57H is W, 52H R, 49H I; 2EE0H is 12,000
# shellcheck disable=SC2016
want='#0
$dumpvars
bx !
bx "
bx #
bx $
z%
bx &
bx '"'"'
bx (
bx )
bx *
$end
#100
b1 !
b1010111 "
b1 #
b0 $
b10111011100000 &
b0 '"'"'
b10010000 (
b0 *
#150
b10000000 )
#200
b10 !
b1010010 "
bz (
#250
b10001001 (
#300
b11 !
b10 '"'"'
bz (
#350
b1001 *
bx (
#400
b100 !
b1001001 "
bx '"'"'
bz (
b0 *
#450
#500
'
[ "$(sed -n '/^#0$/,$p' "$work/four.vcd")"$'\n' = "$want" ] || wrong 'a dump: other values'
grep -q '^\$var reg 16 . address \[15:0\] \$end$' "$work/four.vcd" || wrong 'a dump: no address'
LC_ALL=C grep -q '[^ -~]' "$work/four.vcd" && wrong 'a dump: not plain ASCII'
# a write that is refused was driven all the same; with RP# low nothing drives the bus
printf 'W 1 0 12000 0000 00\nR 0 0 12000 0000 00\nW 2 1 00000 3FFF 40\n' >"$work/odd.txt"
call "$tb" replay --vcd "$work/odd.vcd" "$work/odd.txt"; try 'a dump of odd cycles' 0 'X 07 80
N -- 80
N -- 80
' ''
[ "$(sed -n '/^#150$/,/^#350$/p' "$work/odd.vcd")" = '#150
b10000000 )
b111 *
#200
b10 !
b1010010 "
b0 #
bz (
b0 *
#250
#300
b11 !
b1010111 "
b10 #
b1 $
b0 &
b11111111111111 '"'"'
b1000000 (
#350' ] || wrong 'a dump of odd cycles: other values'

# pictures: whole, of plain ASCII, and the one of docs is that of the sample. Four kinds, three addresses, three data, four status values
# and one refusal are 15 boxes
call "$tb" replay --svg "$work/four.svg" --words "$work/four.txt" --vcd "$work/both.vcd"; try 'a picture of waves' 0 '*' ''
[ "$(wc -l <"$work/out")" = 4 ] || wrong 'a picture of waves: not in words'
cmp -s "$work/both.vcd" "$work/four.vcd" || wrong 'a picture and a dump: another dump'
python3 -c 'import sys, xml.dom.minidom as m; d = m.parse(sys.argv[1]); assert len(d.getElementsByTagName("polygon")) == 15' "$work/four.svg" || wrong 'a picture of waves: other values'
LC_ALL=C grep -q '[^ -~]' "$work/four.svg" && wrong 'a picture of waves: not plain ASCII'
grep -q 'four.txt on bench T: cycles 1 to 4 of 4<' "$work/four.svg" || wrong 'a picture of waves: another heading'
call "$tb" replay --sample --svg "$work/sample.svg"; try 'the picture of docs' 0 '*' ''
cmp -s "$work/sample.svg" "$root/docs/waves.svg" || wrong 'the picture of docs is another'
yes 'I 1 0 12000 0000 00' | head -n 9998 >"$work/idle.txt"
call "$tb" replay --svg "$work/idle.svg" --vcd "$work/idle.vcd" "$work/idle.txt"; try 'a picture of the first hundred cycles' 0 '*' ''
grep -q 'cycles 1 to 100 of 9,998<' "$work/idle.svg" || wrong 'a picture of the first hundred cycles: another heading'
[ "$(tail -n 1 "$work/idle.vcd")" = '#999900' ] || wrong 'a dump of 9,998 cycles: another end'
call "$tb" replay --engine table --svg - "$work/four.txt"; one 'a picture to standard output' 2 '' 'name a file behind --svg'
: >"$work/empty"
call "$tb" replay --svg "$work/none.svg" --vcd "$work/none.vcd" "$work/empty"; try 'waves of nothing' 0 '' ''
grep -q 'no cycle' "$work/none.svg" || wrong 'waves of nothing: another heading'
[ "$(tail -n 1 "$work/none.vcd")" = '#100' ] || wrong 'waves of nothing: another end'
rm "$work/none.svg" "$work/none.vcd"
call "$tb" replay --vcd "$work/input.vcd" <"$work/four.txt"; try 'waves from standard input' 0 "$four_answers" ''
grep -q '    standard input, replayed on bench T' "$work/input.vcd" || wrong 'waves from standard input: another name'
# shellcheck disable=SC2016
cp "$work/four.txt" "$work/a <b> & \$end"
# shellcheck disable=SC2016
call in_work "$tb" replay --vcd name.vcd --svg name.svg 'a <b> & $end'; try 'waves of a file with signs in its name' 0 "$four_answers" ''
python3 -c 'import sys, xml.dom.minidom as m; m.parse(sys.argv[1])' "$work/name.svg" || wrong 'waves of a file with signs in its name: no picture'
[ "$(sed '/^\$end$/q' "$work/name.vcd" | wc -l)" = "$(sed '/^\$end$/q' "$work/four.vcd" | wc -l)" ] || wrong 'waves of a file with signs in its name: the comment ends early'

# whole or not at all
waves_kept() { # waves_kept NAME STATUS OUT WORDS CALL: $work/kept stays as it was, and nothing is left beside it
    printf 'as it was' >"$work/kept"
    call "${@:5}"; one "$1" "$2" "$3" "$4"
    [ "$(cat "$work/kept")" = 'as it was' ] || wrong "$1: the output is another"
    [ -z "$(find "$work" -name '*.part.*')" ] || wrong "$1: a part is left"
}
for form in vcd svg; do
    waves_kept "$form: a bad line" 1 'N -- 80
? 0002
' "; no" "$tb" replay "--$form" "$work/kept" "$root/samples/bad-line.txt"
    unroomed() { # no file may grow, so standard error goes through a pipe
        { { (ulimit -f 0 && exec "$@" 2>&1 >/dev/null) || printf '%s' "$?" >"$work/ended"; } | cat >&2; }
        return "$(cat "$work/ended")"
    }
    waves_kept "$form: no room" 4 '' 'could not be written; it is as it was' unroomed "$tb" replay "--$form" "$work/kept" "$work/four.txt"
    call "$tb" replay "--$form" "$work/kept" "$work/four.txt"; try "$form: in the place of another" 0 "$four_answers" ''
    cmp -s "$work/kept" "$work/four.$form" || wrong "$form: in the place of another: another file"
    call "$tb" replay "--$form" /dev/full "$work/four.txt"; one "$form: a full device" 4 '' 'the output could not be written to its end'
    call "$tb" replay "--$form"; one "$form: no name" 2 '' "--$form has no name of a file behind it"
    call "$tb" replay "--$form" '' "$work/four.txt"; one "$form: an empty name" 2 '' 'the name of the output is empty'
    call "$tb" replay "--$form" "$work" "$work/four.txt"; one "$form: a folder" 2 '' 'is a folder'
    call "$tb" replay "--$form" "$work/nowhere/x" "$work/four.txt"; one "$form: no folder" 2 '' 'there is no folder'
    call "$tb" replay "--$form" "$work/four.txt" "$work/four.txt"; one "$form: over the trace" 2 '' 'is trace and output at once'
    call "$tb" replay --record "--$form" "$work/none.$form" "$work/four.txt"; one "$form: of a recording" 2 '' '--record and waves do not go together'
    call "$tb" replay "--$form" "$work/none.$form" "$work/nowhere"; one "$form: no trace" 2 '' 'there is no file'
    [ ! -e "$work/none.$form" ] || wrong "$form: a wrong call wrote a file"
done
printf '%s' "$four" | cmp -s - "$work/four.txt" || wrong 'waves over the trace: it is another'
call "$tb" replay --vcd "$work/one" --svg "$work/one" "$work/four.txt"; one 'a dump and a picture in one file' 2 '' 'are one file'
call "$tb" script --vcd "$work/one" "$work/four.txt"; one 'a script has no waves' 2 '' 'script has no option --vcd'
rm -f "$work/tools/python3"
unpictured() { env PATH="$work/tools" "$tb" replay "$@"; }
call unpictured --vcd "$work/one" "$work/four.txt"; one 'no python3: waves' 3 '' 'there is no python3'
[ ! -e "$work/one" ] || wrong 'wrong waves: a file is written'

# what a write means, by the phase: a refused write changes nothing, VPP low and RP# low cut, D0 confirms, resumes or is no confirm
named() { # named NAME WORDS LINES: what is said of the last line
    printf '%b' "$3" >"$work/named.txt"
    call "$tb" replay --words "$work/named.txt"; try "$1" 0 '*' ''
    tail -n 1 "$work/out" | grep -qF -- " mV: $2;" || wrong "$1: other words"
}
set_up='W 1 0 12000 3A00 20\n'
confirm='W 1 0 12000 3A00 D0\n'
suspend='W 1 0 12000 3A00 B0\n'
idle='I 1 0 12000 0000 00\n'
named '40' 'program set-up' 'W 1 0 12000 0010 40\n'
named 'data' 'data 5A of a program at 0010, it starts' 'W 1 0 12000 0000 40\nW 1 0 12000 0010 5A\n'
named 'data FF' 'data FF of a program at 0010, it starts' 'W 1 0 12000 0000 40\nW 1 0 12000 0010 FF\n'
named 'data in the locked boot block' 'data 5A of a program at 3C00, nothing starts' 'W 1 0 12000 0000 40\nW 1 0 12000 3C00 5A\n'
named '20' 'erase set-up' "$set_up"
named 'D0 behind 20' 'erase confirm in block 1, it starts' "$set_up$confirm"
named 'D0 behind 20 and an idle cycle' 'erase confirm in block 1, it starts' "$set_up$idle$confirm"
named 'D0 behind 20 with VPP low' 'erase confirm in block 1, nothing starts' "${set_up}W 1 0 06500 3A00 D0\n"
named 'the block is that of D0' 'erase confirm in block 2, it starts' "${set_up}W 1 0 12000 3800 D0\n"
named 'FF behind 20' 'no erase confirm, nothing starts' "${set_up}W 1 0 12000 3A00 FF\n"
named 'D0 behind 20 that was refused' 'erase confirm in block 1, it starts' "${set_up}W 1 0 12000 4000 FF\n$confirm"
named 'D0 behind 20 and a reset' 'refused by 7, the byte written is no command here, and nothing happened' "${set_up}R 0 0 12000 0000 00\n$confirm"
named 'B0' 'erase suspend' "$set_up$confirm$suspend"
named 'B0 twice' 'ignored while an erase is suspended' "$set_up$confirm$suspend$suspend"
named 'B0 at rest' 'nothing to suspend: read array' "$suspend"
named 'B0 in the last cycle of an erase' 'nothing to suspend: read array' "$set_up$confirm$idle$idle$suspend"
named 'D0 while suspended' 'erase resume' "$set_up$confirm$suspend$idle$confirm"
named 'D0 in the cycle that suspends' 'erase resume' "$set_up$confirm$suspend$confirm"
named 'D0 behind a suspend that VPP cuts' 'refused by 7, the byte written is no command here, and nothing happened' "$set_up$confirm${suspend}I 1 0 00000 0000 00\n$confirm"
named '20 while suspended' 'ignored while an erase is suspended' "$set_up$confirm$suspend$idle$set_up"
named '70 while suspended' 'read status' "$set_up$confirm$suspend${idle}W 1 0 12000 0000 70\n"
named 'FF while suspended' 'read array' "$set_up$confirm$suspend${idle}W 1 0 12000 0000 FF\n"
named '20 while an erase runs' 'ignored while an erase runs' "$set_up$confirm$set_up"
named '40 while a program runs' 'ignored while a program runs' 'W 1 0 12000 0000 40\nW 1 0 12000 0010 5A\nW 1 0 12000 0010 40\n'
named '20 in the last cycle of a program' 'erase set-up' "W 1 0 12000 0000 40\nW 1 0 12000 0010 5A\n$idle$set_up"
named '40 behind a program that VPP cuts' 'program set-up' 'W 1 0 12000 0000 40\nW 1 0 12000 0010 5A\nW 1 0 05000 0010 40\n'
named '50' 'clear the error bits' 'W 1 0 12000 0000 50\n'
named '70' 'read status' 'W 1 0 12000 0000 70\n'
named '90' 'read identifier' 'W 1 0 12000 0000 90\n'
named 'FF' 'read array' 'W 1 0 12000 0000 FF\n'
named 'a write with RP# low' 'not heard, RP# is low' 'W 0 0 12000 0000 40\n'
printf '( 002\nW 1 0 12000 0000 40\nW 1 0 12000 0010 5A\n)\n' >"$work/named.txt"
call "$tb" script --words "$work/named.txt"; try 'a script: what writes mean' 0 '*' ''
[ "$(sed 's/.* mV: \(.*\);.*/\1/' "$work/out")" = 'program set-up
data 5A of a program at 0010, it starts
ignored while a program runs
refused by 7, the byte written is no command here, and nothing happened' ] || wrong 'a script: what writes mean'
python3 "$root/tests/words_said.py" 30 3501 >"$work/out" 2>"$work/err" || wrong 'random traces: a write is named otherwise'
cases=$((cases + 30))
