# about: several tables in the main block of an image: lists, finds, reads, adds and drops them
# shellcheck shell=bash
# Sourced by torfbarke, after commands/lib/common. Standard output is the store program's own, or the line on a change; everything else
# goes to standard error.
root=${root:?}
# shellcheck source=commands/lib/images
. "$root/commands/lib/images"
# shellcheck source=commands/lib/parts
. "$root/commands/lib/parts"
# shellcheck source=commands/lib/replace
. "$root/commands/lib/replace"

store_help() {
    put "usage: torfbarke store IMAGE DEVICE list                       what the main block holds
       torfbarke store IMAGE DEVICE find LETTER >FILE           the load file under a letter
       torfbarke store IMAGE DEVICE read LETTER MICROVOLTS      the temperature by the table under a letter
       torfbarke store IMAGE DEVICE add FILE LETTER             a load file more, or in the place of an old one
       torfbarke store IMAGE DEVICE drop LETTER                 a load file less

  --format FORMAT        of IMAGE: bin, hex (Intel HEX) or srec (S-records). Where it is not said the ending decides (.hex .ihx .ihex; .s19
                         .s28 .s37 .srec .mot), and standard input is bytes. add and drop write IMAGE back in its own format
  --file-format FORMAT   of FILE: the same for add; find writes bytes unless it is said

IMAGE is a dump of a part, all its bytes from address 0 on: 131,072 of devices 1 and 2, 16,384 of 3 and 4; the others have no store. '-'
is standard input, but not for add and drop, which replace IMAGE. The loader is run against the model, and only when that ended well the
new image takes the old one's place, at once. A call that is refused or broken off leaves IMAGE as it was. Of an image in text a byte that
no record gives is FFH, and standard error says how many there are; text needs python3.

list prints a map of the places of 512 bytes, 28 on a line: a point is blank, x is dead (a file was dropped there), a letter is its
file's, ? is none of these; then a row for each file: its first place, its places, its knots, the first and the last temperature. Where
the main block is no proper store standard error says so. add and drop print one line: done and whether the block was erased, or
'refused', the number and what it means.

Exit status: 0 done, 1 refused, below or above the table, or a record at fault, 2 a wrong call, 3 the program could not be built or run,
4 the output or the new image could not be written, 141 its reader went away. An image of a blank part of device 3, and a first table in
it:

    head -c 16384 /dev/zero | tr '\\0' '\\377' >card.bin
    ./torfbarke store card.bin 3 add k.load K
"
}

# take_image NAME: the bytes of an image into $image, one more than the longest has: so what is longer is seen
take_image() {
    part "$device"
    image_fetch "$1" 131073 "$image_said" "${size?}"
    image=${bytes?}
}

# The list. A letter that is none is not found in a proper store (42), and is 44 in any other.
store_list() {
    [ $# = 0 ] || fail 2 "list takes nothing more; 'torfbarke store --help' says more"
    take_image "$file"
    run L <(give "$image") "$device" - 0 /dev/null
    heard
    put "${wrote?}"
    case $wrote in
    refused*) exit 1 ;;
    esac
    run F <(give "$image") "$device" - 0 /dev/null
    case ${said?} in
    'refused 42:'*) ;;
    'refused '*) fail 1 "$said" ;;
    *) heard ;;
    esac
}

store_find() {
    [ $# = 1 ] || fail 2 "find takes a letter; 'torfbarke store --help' says more"
    letter "$1"
    [ "${file_said:-bin}" != bin ] || [ ! -t 1 ] || fail 2 "the file's bytes go to standard output: name a file for them, as in '>k.load'"
    take_image "$file"
    hold F <(give "$image") "$device" "$1" 0 /dev/null
    case ${said?} in
    'refused '*) fail 1 "$said" ;;
    *) heard ;;
    esac
    image_give "$bytes" "${file_said:-bin}"
}

store_read() {
    local digits
    [ $# = 2 ] || fail 2 "read takes a letter and microvolts; 'torfbarke store --help' says more"
    letter "$1"
    digits=${2#-}
    case $digits in
    '' | *[!0-9]*) fail 2 "microvolts are a whole number, with a minus or none: $2" ;;
    esac
    [ ${#digits} -le 9 ] || fail 2 "microvolts have at most nine digits: $2"
    take_image "$file"
    run R <(give "$image") "$device" "$1" "$2" /dev/null
    heard
    put "${wrote?}"
    case $wrote in
    below* | above* | refused*) exit 1 ;;
    esac
}

# change WORD LETTER ADDED: the new image takes the old one's place
change() {
    lock_image
    take_image "$file"
    begin_image
    hold "$1" <(give "$image") "$device" "$2" 0 <(give "$3")
    case ${said?} in
    refused*)
        put "$said"$'\n'
        exit 1
        ;;
    'done'*) ;;
    *) heard ;;
    esac
    if [ -z "${whole?}" ] || ! (image_give "$bytes" "$image_said" >"$fresh") 2>/dev/null || ! replace; then
        fail 4 "the new image could not be written: $file is as it was"
    fi
    printf '%s\n' "$said" 2>/dev/null || fail 4 "$file was changed, but the line that says so could not be written"
}

store_add() {
    [ $# = 2 ] || fail 2 "add takes a file and its letter; 'torfbarke store --help' says more"
    there "$1"
    letter "$2"
    own_image
    image_fetch "$1" 131073 "$file_said"
    cut_dump "$1"
    change A "$2" "$bytes"
}

store_drop() {
    [ $# = 1 ] || fail 2 "drop takes a letter; 'torfbarke store --help' says more"
    letter "$1"
    own_image
    change D "$1" ''
}

case ${1-} in
--help | -h)
    store_help
    exit 0
    ;;
esac
image_options "$@"
set -- ${rest[@]+"${rest[@]}"}
[ $# -ge 3 ] || fail 2 "an image, a device and list, find, read, add or drop; 'torfbarke store --help' says more"
there "$1"
file=$1
# by the name of the call, also where that is a link's
image_form "$file" "$image_said"
image_said=${form?}
case $2 in
'' | *[!0-9]*) fail 2 "the device is a whole number: '$2'" ;;
esac
[ ${#2} -le 9 ] || fail 2 "the device is a small number: $2"
device=$((10#$2))
case $3 in
list | find | read | add | drop)
    program store
    "store_$3" "${@:4}"
    ;;
*) fail 2 "list, find, read, add or drop, not '$3'; 'torfbarke store --help' says more" ;;
esac
