# about: turns a probe's microvolts into a temperature, by a load file and its letter
# shellcheck shell=bash
# Sourced by torfbarke, after commands/lib/common. Standard output is the reading program's own; everything else goes to standard error.
root=${root:?}
# shellcheck source=commands/lib/images
. "$root/commands/lib/images"

read_help() {
    put "usage: torfbarke read [--format FORMAT] FILE LETTER MICROVOLTS

The table of a load file turns a probe's voltage, in whole microvolts, into a temperature. LETTER is the one of the menu: it must be
the file's. One line comes: the temperature in degrees with one decimal; or 'below the table' or 'above the table' with the temperature
at its end; or 'refused', the number and what it means. FILE may be the dump of a flash block that holds a file: the FFH behind the file
is cut off, and standard error says so. '-' is standard input. FILE may be Intel HEX or S-records: by its ending (.hex .ihx .ihex; .s19
.s28 .s37 .srec .mot), or as --format says: bin, hex or srec. Standard input is bytes unless said. Text needs python3.

Exit status: 0 a temperature, 1 below, above or refused, or a record is at fault, 2 a wrong call, 3 the program could not be built or
run, 4 the output could not be written, 141 its reader went away. An example, with a table of three knots (microvolts and tenths of a
degree):

    printf '0 0\\n4096 1000\\n8138 2000\\n' | ./torfbarke table write K >k.load
    ./torfbarke read k.load K 6138
"
}

case ${1-} in
--help | -h)
    read_help
    exit 0
    ;;
esac
image_one read "$@"
set -- ${rest[@]+"${rest[@]}"}
[ $# = 3 ] || fail 2 "a file, a letter and microvolts; 'torfbarke read --help' says more"
there "$1"
letter "$2"
digits=${3#-}
case $digits in
'' | *[!0-9]*) fail 2 "microvolts are a whole number, with a minus or none: $3" ;;
esac
[ ${#digits} -le 9 ] || fail 2 "microvolts have at most nine digits: $3"

program read
# a byte more than the longest flash block: so what is longer is seen
image_fetch "$1" 131073 "${image_said?}"
cut_dump "$1"
run <(give "${bytes?}") "$2" "$3"
heard
put "${wrote?}"
case $wrote in
below* | above* | refused*) exit 1 ;;
esac
