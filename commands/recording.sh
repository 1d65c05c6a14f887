# about: checks a programmer's recording on bench T against the rules and a promised image
# shellcheck shell=bash
# Sourced by torfbarke, after commands/lib/common. Standard output is the recording program's own; everything else goes to standard error.
root=${root:?}
# shellcheck source=commands/lib/images
. "$root/commands/lib/images"

recording_help() {
    put "usage: torfbarke recording [--format FORMAT] [--before IMAGE] --promised IMAGE [FILE]    a recording from a file
       torfbarke recording --sample                                                      the sample that ships with the project

'-', or no FILE, is standard input.

Each line of a recording is one bus cycle on bench T, fresh at its start, with the answer that the programmer saw and, at a
confirm or data that starts an operation, how many cycles it stayed busy: a line of a trace without its newline, a space, D and
the byte or N and two dashes, a space, the count in five digits or five dashes, and a newline. 31 bytes, whatever it says.

  --before IMAGE     the part's bytes at the start, 16,384 from address 0 on; a blank part where none is named
  --promised IMAGE   the bytes that the part must have at the end
  --format FORMAT    of both images: bin, hex (Intel HEX) or srec (S-records); where it is not said the ending decides (.hex .ihx .ihex;
                     .s19 .s28 .s37 .srec .mot), and standard input is bytes. A byte that no record gives is FFH, and standard error
                     says how many there are. Text needs python3

One line comes: 'accepted'; or the first thing that is wrong: a line at fault with what was seen and what the rules give, a line
that is none, the end, or an image of another length at the start ('refused 2').

Exit status: 0 accepted, 1 not accepted, or a record of an image is at fault, 2 a wrong call, 3 the program could not be built or run, 4
the output could not be written, 141 its reader went away. An example:

    ./torfbarke recording --promised samples/promised.bin samples/recording.txt

docs/OPERATORS.md has the form of a line and what each answer means.
"
}

# blank_part: 16,384 bytes of FFH, each as \xNN, in $image
blank_part() {
    image='\xff'
    while [ "${#image}" -lt 65536 ]; do image+=$image; done
}

# --before and --promised are taken out of the call with their images, wherever they stand before a --; each may stand once
before='' promised='' said_form='' rest=()
while [ $# -gt 0 ]; do
    case $1 in
    --before | --promised)
        [ $# -gt 1 ] || fail 2 "$1 has no image behind it"
        [ -n "$2" ] || fail 2 "the name of an image is empty"
        case $1 in
        --before)
            [ -z "$before" ] || fail 2 "one image before at a time"
            before=$2
            ;;
        *)
            [ -z "$promised" ] || fail 2 "one promised image at a time"
            promised=$2
            ;;
        esac
        shift
        ;;
    --format)
        image_named "$@"
        said_form=$2
        shift
        ;;
    --words) fail 2 "recording has no option --words: what it says is in words; 'torfbarke recording --help' says more" ;;
    --help | -h | --)
        rest+=("$@")
        break
        ;;
    *) rest+=("$1") ;;
    esac
    shift
done
for name in ${rest[@]+"${rest[@]}"}; do
    case $name in
    --) break ;;
    --sample) promised=${promised:-$root/samples/promised.bin} ;;
    esac
done
input recording recording recording.txt ${rest[@]+"${rest[@]}"}
[ -n "$promised" ] || fail 2 "no promised image: name it by --promised; 'torfbarke recording --help' says more"
there "$promised"
[ -z "$before" ] || there "$before"
taken=0
for name in "$before" "$promised" "${file:?}"; do [ "$name" != - ] || taken=$((taken + 1)); done
[ "$taken" -le 1 ] || fail 2 "only one of recording and images can be standard input"

program recording
# 9,999 lines of 31 bytes, and a byte more than the part has: what follows cannot matter
fetch "$file" 309969
recording=${bytes?}
image_fetch "$promised" 16385 "$said_form" 16384
promised=$bytes
if [ -n "$before" ]; then
    image_fetch "$before" 16385 "$said_form" 16384
    image=$bytes
else
    blank_part
fi
run <(give "${image?}") <(give "$promised") < <(give "$recording")
heard
put "${wrote?}"
case $wrote in
accepted:*) exit 0 ;;
*' is no line of a recording'*) ;;
*) exit 1 ;;
esac
# the lines before it have 31 bytes each
bad=${wrote#line }
bad=${bad%% *}
why=$(give "${recording:124 * (bad - 1):800}" | od -An -v -tu1 | awk -v number="$bad" -v form=recording -f "$root/commands/lib/fault.awk")
fail 1 "line $bad is no line of a recording: $why"
