# about: replays a written trace on bench T and prints the chip's answers
# shellcheck shell=bash
# Sourced by torfbarke, after commands/lib/common. Standard output is the trace program's own; everything else goes to standard error.
root=${root:?}
# shellcheck source=commands/lib/place
. "$root/commands/lib/place"

replay_help() {
    put "usage: torfbarke replay [--words] [--engine NAME] [--vcd OUT] [--svg OUT] [FILE]     a trace; '-' or nothing: standard input
       torfbarke replay [--words] [--engine NAME] [--vcd OUT] [--svg OUT] --sample   the sample that ships with the project
       torfbarke replay --record [FILE | --sample]                                   a recording of the trace

Each line of a trace is one bus cycle on bench T, fresh at its start: kind, RP#, OE#, VPP, address, data.
For each line comes an answer: D and the byte read, N -- for no data, X and the number of a refusal; then the
status register. '?' and a number end the replay at a line that is none; standard error says what is wrong with it.

  --words         each answer beside its cycle, with what it means, and what each write asks for
  --engine NAME   rules, as when none is named, or table, which reads what a write asks for off the table of
                  docs/COMMANDS.md. The same bytes come out: it is proved that the two agree
  --vcd OUT       besides, the cycles and answers as a value change dump, which viewers of waveforms open (GTKWave and others): line n
                  from time 100 n on, the answer from its middle on. What is not told is x, a bus that nothing drives z
  --svg OUT       besides, a picture of the first hundred cycles. OUT is whole or stays as it was, of both; with a bad line
                  there is none. Both need python3
  --record        no answers but a recording, as 'torfbarke recording' checks it: each line with its answer and, at a
                  confirm or data that starts an operation, how many cycles it takes. A refusal is no answer of a
                  device: with a refused cycle, or a bad line, there is no recording. Goes with none of the above

Exit status: 0 every line answered, 1 a bad line, 2 a wrong call, 3 the program could not be built or run, 4 the
output, or OUT, could not be written, 141 its reader went away. With --record also 5 a cycle is refused, so there is no
recording, and 6 the recording is written, but the check will not accept it: a line cuts an operation, or the end
is not idle. Standard error says which. An example:

    printf 'W 1 0 12000 0000 90\\nR 1 0 12000 0000 00\\n' | ./torfbarke replay

The same lines over and over are shorter as a script: 'torfbarke script --help'.
docs/OPERATORS.md has the form of a line, every number and worked traces.
"
}

# --record, and --engine, --vcd and --svg with their names, are taken out of the call, wherever they stand before a --; the last counts
engine=rules named='' record='' vcd='' svg='' rest=()
while [ $# -gt 0 ]; do
    case $1 in
    --vcd | --svg)
        [ $# -gt 1 ] || fail 2 "$1 has no name of a file behind it"
        [ -n "$2" ] || fail 2 "the name of the output is empty"
        [ "$2" != - ] || fail 2 "the answers go to standard output: name a file behind $1"
        if [ "$1" = --vcd ]; then vcd=$2; else svg=$2; fi
        shift
        ;;
    --record) record=yes ;;
    --engine)
        [ $# -gt 1 ] || fail 2 "--engine has no name behind it: rules or table"
        engine=$2 named=yes
        shift
        case $engine in
        rules | table) ;;
        *) fail 2 "there is no engine '$engine': it is rules or table" ;;
        esac
        ;;
    --help | -h | --)
        rest+=("$@")
        break
        ;;
    *) rest+=("$1") ;;
    esac
    shift
done
input replay trace sample.txt ${rest[@]+"${rest[@]}"}
case $record$engine in
yes*)
    [ -z "${words?}" ] || fail 2 "--record and --words do not go together: a recording has its own form"
    [ -z "$named" ] || fail 2 "--record and --engine do not go together: a recording is made by the rules"
    [ -z "$vcd$svg" ] || fail 2 "--record and waves do not go together: a recording has no refusal and no status to show"
    program record
    ;;
table) program table ;;
*) program trace ;;
esac
# waves_may NAME: the end where its file cannot be made
waves_may() {
    [ -n "$1" ] || return 0
    command -v python3 >/dev/null 2>&1 || fail 3 "there is no python3, which draws the waves"
    apart "${file:?}" "$1" trace
    may_place "$1"
}
waves_may "$vcd"
waves_may "$svg"
[ -z "$vcd" ] || [ -z "$svg" ] || [ "$(readlink -f -- "$vcd")" != "$(readlink -f -- "$svg")" ] || fail 2 "$vcd and $svg are one file"
# 9,999 lines of 20 bytes: what follows cannot matter
fetch "${file:?}" 199980
run < <(give "${bytes?}")

# no_line NUMBER WORDS: the end, at a line that is none; the lines before it have 20 bytes each
no_line() {
    local why
    why=$(give "${bytes:80 * ($1 - 1):800}" | od -An -v -tu1 | awk -v number="$1" -f "$root/commands/lib/fault.awk")
    fail 1 "line $1 is no line of a trace: $why$2"
}

# what the recording program says behind its point is known: no recording, or one that the check will not accept
if [ -n "$record" ]; then
    [ -n "${whole?}" ] || heard
    put "${wrote?}"
    case ${said?} in
    '') exit 0 ;;
    *' is no line of a trace: '*)
        bad=${said#line }
        no_line "${bad%% *}" '; there is no recording'
        ;;
    *': there is no recording') fail 5 "$said" ;;
    *) fail 6 "$said" ;;
    esac
fi
heard
bad=$(printf '%s' "${wrote?}" | sed -n 's/^? 0*\([0-9]*\)$/\1/p')

# waves FORM OUT: the cycles and answers as waves, into a file
waves() {
    local name=${file#"$root"/} text
    [ -n "$2" ] || return 0
    [ "$name" != - ] || name='standard input'
    text=$(python3 -E -s -B "$root/commands/lib/waves.py" "$1" "$name" <(printf '%s' "$wrote") <(give "$bytes") 2>/dev/null) ||
        fail 3 "the script waves.py ended with status $?"
    deliver "$2" "$text"$'\n'
}
if [ -z "$bad" ]; then
    waves vcd "$vcd"
    waves svg "$svg"
fi
if [ -n "${words?}" ]; then
    lines=$(awk -f "$root/commands/lib/words.awk" <(printf '%s' "${wrote?}") <(give "$bytes")) || fail 3 "the answers could not be put into words"
    put "$lines${lines:+$'\n'}"
else
    put "$wrote"
fi
[ -z "$bad" ] || no_line "$bad" "${vcd:+; no waves are written}${svg:+; no picture is drawn}"
