# about: verifies a dump of a part against a load file
# shellcheck shell=bash
# Sourced by torfbarke, after commands/lib/common. Standard output is the verify program's own; everything else goes to standard error.
root=${root:?}
# shellcheck source=commands/lib/images
. "$root/commands/lib/images"
# shellcheck source=commands/lib/parts
. "$root/commands/lib/parts"

verify_help() {
    put "usage: torfbarke verify [--format FORMAT] [--file-format FORMAT] IMAGE DEVICE BLOCK FILE LETTER [byte|word]

IMAGE is a dump of a part, all its bytes from address 0 on: 131,072 of devices 1 and 2, 16,384 of 3 and 4, 262,144 of 5 and 6,
524,288 of 7 and 8. BLOCK is the flash block, 0 (boot) to 3, to 4 on 5 and 6, to 6 on 7 and 8. FILE is the load file that the block
must hold, FFH behind it, and LETTER the one of the menu. The last word is the mode that the part is read in, byte if there is none;
devices 1 to 4 have no word mode. An image is bytes in either mode, the low byte of a word first. FILE may be the dump of a flash block
that holds the file: the FFH behind the file is cut off, and standard error says so. '-' is standard input.

IMAGE and FILE may be Intel HEX or S-records: by their ending (.hex .ihx .ihex; .s19 .s28 .s37 .srec .mot), or as --format says of IMAGE
and --file-format of FILE: bin, hex or srec. Standard input is bytes unless said. A byte of IMAGE that no record gives is FFH, and
standard error says how many there are. Text needs python3.

One line comes: 'the block holds the file'; or 'differs at' and the byte address of the first byte that differs, in hexadecimal; or
'refused', the number and what it means.

Exit status: 0 the block holds the file, 1 it differs or is refused, or a record is at fault, 2 a wrong call, 3 the program could not be
built or run, 4 the output could not be written, 141 its reader went away.
"
}

case ${1-} in
--help | -h)
    verify_help
    exit 0
    ;;
esac
image_options "$@"
set -- ${rest[@]+"${rest[@]}"}
flash_call verify "$@"

program verify
# a byte more than the longest part, and than the longest flash block: so what is longer is seen
part "$((10#$2))"
image_fetch "$1" 524289 "${image_said?}" "${size?}"
image=${bytes?}
image_fetch "$4" 131073 "${file_said?}"
cut_dump "$4"
run <(give "$image") "${device?}" "${block?}" <(give "$bytes") "$5" "${mode?}"
heard
put "${wrote?}"
case $wrote in
differs* | refused*) exit 1 ;;
esac
