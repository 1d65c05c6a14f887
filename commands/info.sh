# about: tells what a load file or a dump of a part holds, and cuts a load file out of a dump
# shellcheck shell=bash
# Sourced by torfbarke, after commands/lib/common. What is said of a load file is what the programs that print its table and list a store
# say of it; this script lays it in rows.
root=${root:?}
# shellcheck source=commands/lib/images
. "$root/commands/lib/images"
# shellcheck source=commands/lib/parts
. "$root/commands/lib/parts"
# shellcheck source=commands/lib/place
. "$root/commands/lib/place"
# shellcheck source=commands/lib/meaning
. "$root/commands/lib/meaning"

info_help() {
    put "usage: torfbarke info FILE                            a load file: its letter, blocks, knots and range
       torfbarke info IMAGE DEVICE                    a dump of a part: what each of its flash blocks holds
       torfbarke info --cut BLOCK [-o OUT] IMAGE DEVICE    the load file that a flash block of a dump holds

IMAGE is a dump of a part, all its bytes from address 0 on: 131,072 of devices 1 and 2, 16,384 of 3 and 4, 262,144 of 5 and 6,
524,288 of 7 and 8. FILE may be the dump of a flash block that holds a file: the FFH behind the file is cut off, and standard error says
so. '-' is standard input.

Of a part comes a row for each flash block: its addresses, and 'blank' (FFH alone), 'a load file' with its letter and range, 'a store'
with the letters in it (the main block of devices 1 to 4; 'torfbarke store' says more), or 'no load file' with the number that refuses it.

  --cut BLOCK            the load file of that block goes to OUT, or to standard output. OUT is whole or stays as it was
  --format FORMAT        of FILE or IMAGE: bin, hex (Intel HEX) or srec (S-records). Where it is not said the ending decides (.hex .ihx
                         .ihex; .s19 .s28 .s37 .srec .mot), and standard input is bytes. A byte of IMAGE that no record gives is
                         FFH, and standard error says how many there are. Text needs python3
  --file-format FORMAT   the same of OUT

Exit status: 0 told or cut, 1 no load file (standard error says why), an image of another length or a record at fault, 2 a wrong call, 3 a
program could not be built or run, 4 the output could not be written, 141 its reader went away. An example:

    ./torfbarke info dump.bin 3
    ./torfbarke info --cut 1 -o k.load dump.bin 3
"
}

# judged: of the load file in $bytes sets $letter, $count (its blocks of 512 bytes) and $range (knots, degrees, microvolts, a line
# each), or $why, the refusal. A file whose payload is no table has letter and count, and $why. The program takes a file by its letter
# alone, so it is asked with each.
judged() {
    local asked
    letter='' range='' why='' count=$((${#bytes} / 2048))
    for asked in B E J K N R S T; do
        run <(give "$bytes") "$asked"
        case ${said?} in
        'refused 35'*) continue ;;
        'refused '*) why=${said#refused } why="refused ${why%%[!0-9]*}: $(meaning "${why%%[!0-9]*}")" ;;
        *) heard ;;
        esac
        case $said in
        'refused 40'* | 'refused 41'*) letter=$asked ;;
        'refused '*) ;;
        *)
            letter=$asked
            range=$(awk -f "$root/commands/lib/range.awk" < <(printf '%s' "${wrote?}")) || fail 3 "the table could not be told"
            ;;
        esac
        return 0
    done
    why="refused 35: $(meaning 35)"
}

# one_file: a load file, or the dump of a flash block that holds one
one_file() {
    local hint=''
    program print
    image_fetch "$file" 524289 "$image_said"
    case $((${#bytes} / 4)) in
    16384 | 131072 | 262144 | 524288) hint="; of a dump of a part 'torfbarke info' asks for the device too" ;;
    esac
    cut_dump "$file"
    judged
    [ -n "$letter" ] || fail 1 "no load file: $why$hint"
    put "letter      $letter
blocks      $count of 512 bytes
$range${range:+$'\n'}"
    [ -z "$why" ] || fail 1 "a load file, but not of a table: $why"
}

# take_part: the image of the device's part into $image
take_part() {
    local length
    part "$device"
    [ -n "${size?}" ] || fail 1 "refused 1: there is no such device"
    image_fetch "$file" $((size + 1)) "$image_said" "$size"
    image=$bytes length=$((${#bytes} / 4))
    [ "$length" -le "$size" ] || fail 1 "refused 2: the image has more bytes than the part's $size"
    [ "$length" = "$size" ] || fail 1 "refused 2: the image has $length bytes, the part $size"
}

# flash_block BLOCK: the bytes of a block of $image into $bytes, without the FFH behind a load file
flash_block() {
    local first=$((16#${blocks[$1]%-*})) last=$((16#${blocks[$1]#*-}))
    bytes=${image:4*first:4*(last + 1 - first)}
    cut_dump "$file" 2>/dev/null
}

# blank_block: the bytes of a block are FFH alone
blank_block() {
    case $bytes in
    *[!xf\\]*) return 1 ;;
    esac
}

# stored: the main block as a store, in words, in $store; nothing where it is no proper one. A letter that is none is not found in a
# proper store (42)
stored() {
    local letters
    store=''
    [ "$device" -le 4 ] || return 0
    program store
    run F <(give "$image") "$device" - 0 /dev/null
    case ${said?} in
    'refused 42'*) ;;
    'refused '*) return 0 ;;
    *) heard ;;
    esac
    run L <(give "$image") "$device" - 0 /dev/null
    heard
    letters=$(printf '%s' "$wrote" | sed -n 's/^\([BEJKNRST]\): from place .*/\1/p' | tr '\n' ' ')
    store="a store, load files of type ${letters% }"
    [ -n "$letters" ] || store='a store without a load file'
}

# holding BLOCK: what a block holds, in words, in $holds; why it is no load file is judged first, and a store is asked for later
holding() {
    flash_block "$1"
    if blank_block; then
        holds=blank
        return 0
    fi
    judged
    if [ -z "$letter" ]; then
        holds="no load file: $why"
    elif [ -n "$why" ]; then
        holds="a load file of type $letter, blocks $count, but not of a table: $why"
    else
        range=$(printf '%s' "$range" | tr -s ' ')
        holds="a load file of type $letter, blocks $count, ${range//$'\n'/, }"
    fi
}

whole_part() {
    local block holds store rows=()
    take_part
    program print
    for block in "${!blocks[@]}"; do
        holding "$block"
        rows+=("$holds")
    done
    case ${rows[3]} in
    'no load file'*)
        stored
        rows[3]=${store:-${rows[3]}}
        ;;
    esac
    put "block  addresses    holds"$'\n'
    for block in "${!blocks[@]}"; do
        printf -v holds '%-5s  %-11s  %s\n' "$block" "${blocks[block]}" "${rows[block]}"
        put "$holds"
    done
}

cut_block() {
    local form store
    case $cut in
    '' | *[!0-9]*) fail 2 "the block is a whole number: '$cut'" ;;
    esac
    [ ${#cut} -le 9 ] || fail 2 "the block is a small number: $cut"
    cut=$((10#$cut))
    apart "$file" "$output" image
    [ "$output" = - ] || may_place "$output"
    image_form "$output" "$file_said"
    [ "$form$output" != bin- ] || [ ! -t 1 ] || fail 2 "the file's bytes go to standard output: name a file for them, as in '-o k.load'"
    take_part
    [ "$cut" -lt ${#blocks[@]} ] || fail 1 "refused 10: there is no such block"
    flash_block "$cut"
    ! blank_block || fail 1 "block $cut is blank"
    program print
    judged
    if [ -z "$letter" ]; then
        store=''
        [ "$cut" != 3 ] || stored
        [ -z "$store" ] || fail 1 "block $cut holds $store: 'torfbarke store' finds one by its letter"
        fail 1 "block $cut holds no load file: $why"
    fi
    [ -z "$why" ] || say "the load file is not of a table: $why"
    out "$output"
    image_give "$bytes" "$form"
    placed
}

cut='' cutting='' output=- named='' names=() plain=''
image_options "$@"
set -- ${rest[@]+"${rest[@]}"}
while [ $# -gt 0 ]; do
    case $plain$1 in
    --help | -h)
        info_help
        exit 0
        ;;
    --cut)
        [ $# -gt 1 ] || fail 2 "--cut has no block behind it"
        cut=$2 cutting=yes
        shift
        ;;
    -o)
        [ $# -gt 1 ] || fail 2 "-o has no name behind it"
        output=$2 named=yes
        shift
        ;;
    --) plain=: ;;
    -?*) fail 2 "info has no option $1 (a file of that name: ./$1); 'torfbarke info --help' says more" ;;
    *) names+=("$1") ;;
    esac
    shift
done
case ${#names[@]} in
1 | 2) ;;
*) fail 2 "a load file, or an image and a device; 'torfbarke info --help' says more" ;;
esac
file=${names[0]}
there "$file"
if [ -z "$cutting" ]; then
    [ -z "$named$file_said" ] || fail 2 "-o and --file-format go with --cut alone; 'torfbarke info --help' says more"
fi
if [ ${#names[@]} = 1 ]; then
    [ -z "$cutting" ] || fail 2 "--cut asks for an image and a device; 'torfbarke info --help' says more"
    one_file
    exit 0
fi
device=${names[1]}
case $device in
'' | *[!0-9]*) fail 2 "the device is a whole number: '$device'" ;;
esac
[ ${#device} -le 9 ] || fail 2 "the device is a small number: $device"
device=$((10#$device))
if [ -n "$cutting" ]; then cut_block; else whole_part; fi
