# about: runs the loader against the model on an image of a part: a load file into one block
# shellcheck shell=bash
# Sourced by torfbarke, after commands/lib/common. Standard output is one line on the load; everything else goes to standard error.
root=${root:?}
# shellcheck source=commands/lib/replace
. "$root/commands/lib/replace"
# shellcheck source=commands/lib/place
. "$root/commands/lib/place"
# shellcheck source=commands/lib/images
. "$root/commands/lib/images"
# shellcheck source=commands/lib/parts
. "$root/commands/lib/parts"

load_help() {
    put "usage: torfbarke load [OPTION..] IMAGE DEVICE BLOCK FILE LETTER [byte|word]

IMAGE is a dump of a part, all its bytes from address 0 on: 131,072 of devices 1 and 2, 16,384 of 3 and 4, 262,144 of 5 and 6,
524,288 of 7 and 8. BLOCK is the flash block, 0 (boot) to 3, to 4 on 5 and 6, to 6 on 7 and 8. FILE is the load file that the block is to
hold, FFH behind it, and LETTER the one of the menu. The last word is the mode that the part is loaded in, byte if there is none; devices 1
to 4 have no word mode. FILE may be the dump of a flash block that holds the file: the FFH behind the file is cut off, and standard error
says so. '-' is standard input.

The loader is run against the model at 12 V, RP# high, for the boot block at the level that unlocks it, on a part that is fresh. Only when
that ended well the new image takes the old one's place, at once. A call that is refused or broken off leaves IMAGE as it was.

  -o OUT         the new image goes to the file OUT, and IMAGE stays; '-' is standard output, and the line then goes to standard error
  --format FORMAT        of IMAGE: bin, hex (Intel HEX) or srec (S-records). Where it is not said the ending decides (.hex .ihx .ihex; .s19
                         .s28 .s37 .srec .mot), and standard input is bytes. IMAGE is written back in its own format, and so is
                         standard output; OUT goes by its ending. A byte that no record gives is FFH, and standard error says how many
                         there are. Text needs python3
  --file-format FORMAT   the same of FILE
  --dry          nothing is written: the line says what a load would take
  --trace TRACE  the cycles of the load go to the file TRACE, as a recording with the answers seen and the busy counts; for device 3 alone,
                 bench T, and at most 9,998 cycles. Before anything is written the recording is held against the rules, as the word
                 recording does it: from the old image it must lead to the new one, in as many cycles as the load took
  --program P    the cycles that a program stays busy, 1 to 65535; 1 if it is not named
  --erase E      the cycles that an erase stays busy, 1 to 65535; 1 if it is not named

One line comes: the cycles of the run, the erases begun (0 or 1; since the part is fresh it is also the block's count of erases after it),
and the bytes, or in word mode the words, that were programmed; or 'refused', the number and what it means. With n bytes or words in the
block, e erases and p programs a run has 2n + 3 + e(2 + E) + p(2 + P) cycles.

Exit status: 0 the block holds the file, 1 refused, or a record is at fault, 2 a wrong call, 3 the program could not be built or run, 4
the output or the new image could not be written, 141 its reader went away. An image of a blank part of device 3, and a table in its main
block:

    head -c 16384 /dev/zero | tr '\\0' '\\377' >card.bin
    ./torfbarke load card.bin 3 3 k.load K
"
}

# busy OPTION WORD: the end with 2 unless it is a number from 1 to 65535; its four hexadecimal digits are then in $time
busy() {
    case $2 in
    '' | *[!0-9]*) fail 2 "$1 is a whole number: '$2'" ;;
    esac
    [ ${#2} -le 9 ] && [ "$((10#$2))" -ge 1 ] && [ "$((10#$2))" -le 65535 ] || fail 2 "$1 is from 1 to 65535: $2"
    printf -v time '%04X' "$((10#$2))"
}

program_time=0001 erase_time=0001 output='' traced='' dry='' plain='' image_said='' file_said='' rest=()
while [ $# -gt 0 ]; do
    case $plain$1 in
    --help | -h)
        load_help
        exit 0
        ;;
    -o | --program | --erase | --trace)
        [ $# -gt 1 ] || fail 2 "$1 has nothing behind it; 'torfbarke load --help' says more"
        case $1 in
        -o)
            [ -z "$output" ] || fail 2 "one output at a time"
            [ -n "$2" ] || fail 2 "the name of the output is empty"
            output=$2
            ;;
        --trace)
            [ -z "$traced" ] || fail 2 "one trace at a time"
            [ -n "$2" ] || fail 2 "the name of the trace is empty"
            [ "$2" != - ] || fail 2 "the trace goes to a file, not to standard output"
            traced=$2
            ;;
        --program)
            busy --program "$2"
            program_time=$time
            ;;
        --erase)
            busy --erase "$2"
            erase_time=$time
            ;;
        esac
        shift
        ;;
    --format)
        image_named "$@"
        image_said=$2
        shift
        ;;
    --file-format)
        image_named "$@"
        file_said=$2
        shift
        ;;
    --dry) dry=yes ;;
    --) plain=: ;;
    -?*) fail 2 "load has no option $1 (a file of that name: ./$1); 'torfbarke load --help' says more" ;;
    *) rest+=("$1") ;;
    esac
    shift
done
set -- ${rest[@]+"${rest[@]}"}
[ -z "$dry" ] || [ -z "$output" ] || fail 2 "--dry writes nothing, so -o does not go with it"
[ -z "$dry" ] || [ -z "$traced" ] || fail 2 "--dry writes nothing, so --trace does not go with it"
flash_call load "$@"
file=$1
# by the names of the call, also where one is a link's
image_form "$file" "$image_said"
image_said=${form?}
case $output in
'' | -) ;;
*) image_form "$output" '' ;;
esac

# ran: the load, its image in $bytes; its line is then in $said, the numbers without zeros in front. A refusal is the end
ran() {
    hold <(give "$image") "${device?}" "${block?}" <(give "$wanted") "$letter" "${mode?}" "$program_time" "$erase_time"
    case ${said?} in
    refused*)
        printf '%s\n' "$said" >&"$line" 2>/dev/null || unwritten
        exit 1
        ;;
    'cycles '*) said=$(printf '%s\n' "$said" | sed 's/ 0*\([0-9]\)/ \1/g') ;;
    *) heard ;;
    esac
    [ -n "${whole?}" ] || unwritten
}

# traces: the cycles of the load into the file $traced, once the check of recordings has accepted them
traces() {
    local first last level=1 lines cycles=${said#cycles } line_said=$said task_was=${task?}
    [ -n "$traced" ] || return 0
    cycles=${cycles%%,*}
    [ "$cycles" -le 9998 ] || fail 1 "a recording has at most 9998 lines, and the load $cycles cycles: nothing was written"
    first=$((16#${blocks[block]%-*})) last=$((16#${blocks[block]#*-}))
    [ "$block" != 0 ] || level=2
    lines=$(awk -v first="$first" -v rp="$level" -v erase="$((16#$erase_time))" -v program="$((16#$program_time))" \
        -v before="$(block_text "$image")" -v after="$(block_text "$bytes")" -f "$root/commands/lib/load.awk")$'\n'
    program recording
    run <(give "$image") <(give "$bytes") < <(printf '%s' "$lines")
    [ "${wrote?}" = "accepted: $cycles records, and the array is the one promised"$'\n' ] ||
        fail 3 "the cycles that were to be written are not accepted, so nothing was written: $wrote$said"
    deliver "$traced" "$lines"
    said=$line_said task=$task_was
}

# block_text BYTES: those from $first to $last, two digits each
block_text() {
    local text=${1:4*first:4*(last + 1 - first)}
    printf '%s' "${text//\\x/}"
}

# tell_line WORDS: the line behind these words, where the answer goes
tell_line() { printf '%s: %s\n' "$1" "$said" >&"$line" 2>/dev/null; }

letter=$5
if [ -n "$traced" ]; then
    [ "$device" = 3 ] || fail 2 "--trace is for bench T, device 3: a recording has no other part"
    apart "$file" "$traced" image
    apart "$4" "$traced" 'load file'
    may_place "$traced"
    [ "$(readlink -f -- "$traced")" != "$(readlink -f -- "${output:-/}")" ] || fail 2 "$traced is new image and trace at once"
fi
if [ -n "$output" ] && [ "$output" != - ]; then
    [ "$file" = - ] || [ ! "$file" -ef "$output" ] || fail 2 "$output is the image itself: without -o it is replaced"
    [ "$4" = - ] || [ ! "$4" -ef "$output" ] || fail 2 "$output is load file and output at once"
fi
program load
[ -n "$dry$output" ] || own_image
[ -n "$dry$output" ] || lock_image
# a byte more than the longest flash block, and than the longest part: so what is longer is seen
image_fetch "$4" 131073 "$file_said"
cut_dump "$4"
wanted=${bytes?}
part "$device"
image_fetch "$file" 524289 "$image_said" "${size?}"
image=$bytes
exec {line}>&1
if [ -n "$dry" ]; then
    ran
    tell_line 'dry, nothing is written' || unwritten
elif [ "$output" = - ]; then
    exec {line}>&2
    ran
    traces
    image_give "$bytes" "$form"
    tell_line loaded || :
elif [ -n "$output" ]; then
    out "$output"
    ran
    traces
    image_give "$bytes" "$form"
    placed
    tell_line loaded || fail 4 "$output was written, but the line that says so could not be written"
else
    begin_image
    unwritten() { fail 4 "the new image could not be written: $file is as it was"; }
    ran
    traces
    image_give "$bytes" "$image_said" >"${fresh:?}"
    replace || unwritten
    tell_line loaded || fail 4 "$file was changed, but the line that says so could not be written"
fi
