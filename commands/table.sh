# about: makes, prints, checks and draws tables; lists those that ship
# shellcheck shell=bash
# Sourced by torfbarke, after commands/lib/common. Load files and tables are the programs' own output; the check and the picture are those
# of commands/lib/reference.py and picture.py. Everything else goes to standard error.
root=${root:?}
# shellcheck source=commands/lib/images
. "$root/commands/lib/images"
# shellcheck source=commands/lib/place
. "$root/commands/lib/place"
# shellcheck source=commands/lib/meaning
. "$root/commands/lib/meaning"

table_help() {
    put "usage: torfbarke table list                                             the tables that ship, one for each letter
       torfbarke table write [--csv] [--force] [--format FORMAT] LETTER [TEXT [OUT]]    a load file of a table
       torfbarke table check [--csv] LETTER TEXT                        how far a table is off
       torfbarke table plot [--csv] TEXT LETTER OUT                     a picture of that, as SVG
       torfbarke table print [--format FORMAT] FILE LETTER              the table of a load file

A table in text has a line for each knot: its microvolts, a space, its tenths of a degree, both whole numbers. Microvolts are from
-10000 to 80000 and rise from line to line; there are 2 to 18,853 lines. A line that begins with # is a comment. TEXT and OUT are
files; '-' is standard input and standard output, and so is one that is left out. Where a table is refused OUT stays as it was.

  --csv      TEXT is microvolts and degrees, parted by a comma, a semicolon or a tab: 4096,100.0. Degrees have one decimal at most,
             by a point, or by a comma where no comma parts the two. Comments, blank lines, one heading, quotes, carriage returns and
             a byte-order mark are taken
  --force    the table is written though the check finds it wrong, or cannot be made; standard error says so
  --format   of the load file, OUT or FILE: bin, hex (Intel HEX) or srec (S-records). Where it is not said the ending decides (.hex .ihx
             .ihex; .s19 .s28 .s37 .srec .mot), and standard input and output are bytes. Text needs python3

'check' holds a table against the reference function of its letter (IEC 60584-1) at every whole microvolt. It may be as far off as the
standard allows a probe of class 2 to be. Functions and limits were written without a copy of the standard: compare the tables with
one before a card is sold. 'write' checks before it writes. Both, and 'plot', need python3. FILE may be the dump
of a flash block that holds a file: the FFH behind the file is cut off, and standard error says so.

Exit status: 0 done, 1 refused, a wrong line or not the letter's table (standard error says which), 2 a wrong call, 3 a program could
not be built or run, or there is no python3, 4 the output could not be written, 141 its reader went away. An example:

    ./torfbarke table write K tables/K.txt k.load
"
}

# why a text is no table: the line that the program names, if it names one, and the refusal, in words
fault() {
    local line='' refused=''
    case ${said?} in
    *' in line '*) line=${said##* in line } line=${line%%[!0-9]*} ;;
    esac
    case $said in
    'refused '*) refused=${said#refused } refused=${refused%%[!0-9]*} ;;
    esac
    case $refused in
    '' | 40 | 41) give "${bytes?}" | od -An -v -tu1 | awk -v number="$line" -v refused="$refused" -f "$root/commands/lib/knot.awk" ;;
    32) echo "refused 32: the letter is one of B E J K N R S T" ;;
    *) echo "refused $refused: $(meaning "$refused")" ;;
    esac
}

# options ARGUMENTS: sets $csv and $force (yes or nothing), $format (one or nothing), and $rest, the words that are none
options() {
    local plain=''
    csv='' force='' format='' rest=()
    while [ $# -gt 0 ]; do
        case $plain$1 in
        --help | -h)
            table_help
            exit 0
            ;;
        --csv) csv=yes ;;
        --force) force=yes ;;
        --format)
            image_named "$@"
            format=$2
            shift
            ;;
        --) plain=: ;;
        -?*) fail 2 "table has no option $1 (a file of that name: ./$1); 'torfbarke table --help' says more" ;;
        *) rest+=("$1") ;;
        esac
        shift
    done
}

# text NAME: the table of a file, or of standard input, in $bytes. As CSV it is turned into the form of the program, each line into one
text() {
    local lines
    there "$1"
    fetch "$1" 327680
    [ "${#bytes}" -le $((4 * 327679)) ] || fail 1 "the text is longer than 327679 bytes"
    [ -n "$csv" ] || return 0
    case $bytes in
    '\xff\xfe'* | '\xfe\xff'*) fail 1 "the text is in two-byte letters (UTF-16); save it as plain text" ;;
    *'\x00'*) fail 1 "the text has a byte 00H: it is no plain text" ;;
    esac
    lines=$(give "$bytes" | awk -f "$root/commands/lib/csv.awk") || fail 1 "${lines##*$'\n'}"
    bytes=$lines${lines:+$'\n'}
}

# the text as the program reads it: without its comments
knots() { give "$bytes" | sed '/^#/d'; }

# made LETTER: the load file of the text in $load, or the end with what is wrong with it
made() {
    local text=$bytes
    hold "$1" < <(knots)
    load=$bytes bytes=$text
    case ${said?} in
    'refused '* | 'no knot'*) fail 1 "$(fault)" ;;
    'the text is longer '*) fail 1 "$said" ;;
    *) heard ;;
    esac
}

python_there() { command -v python3 >/dev/null 2>&1; }

# by_script NAME WORDS: what a script of commands/lib makes of the text, in $found, with status 0 or 1. The end with 1 where the text is no
# table, by the words of the program, and with 3 where the script cannot be run
by_script() {
    local status=0
    python_there || fail 3 "there is no python3, which 'torfbarke table' checks and draws by"
    found=$(python3 -E -s -B "$root/commands/lib/$1" "${@:2}" < <(knots) 2>/dev/null) || status=$?
    case $status${found:+ told} in
    '0 told' | '1 told') return "$status" ;;
    '5 told')
        said=$found
        fail 1 "$(fault)"
        ;;
    esac
    fail 3 "the script $1 ended with status $status"
}

# table_list: by the comments of the files; the gate holds them against the knots
table_list() {
    local lines
    [ $# = 0 ] || fail 2 "table list takes nothing behind it; 'torfbarke table --help' says more"
    lines=$(awk -f "$root/commands/lib/list.awk" "$root"/tables/?.txt 2>/dev/null) || fail 3 "the folder $root/tables lacks its tables"
    put "$lines"$'\n'
}

table_write() {
    local letter file output form load
    options "$@"
    case ${#rest[@]} in
    1 | 2 | 3) ;;
    *) fail 2 "table write takes a letter, and perhaps a text and an output; 'torfbarke table --help' says more" ;;
    esac
    letter=${rest[0]} file=${rest[1]--} output=${rest[2]--}
    letter "$letter"
    [ "$file" != - ] || [ ! -t 0 ] || fail 2 "no table: its text comes from standard input; 'torfbarke table --help' says more"
    apart "$file" "$output" text
    image_form "$output" "$format"
    program write
    text "$file"
    # the program's own judgement comes first, then the check; nothing is written before both
    made "$letter"
    checked "$letter"
    [ "$form" = bin ] || image_python
    out "$output"
    image_give "$load" "$form"
    placed
}

# checked LETTER: the end with 1 unless the text is a table of the letter, or is to be written all the same
checked() {
    if ! python_there; then
        [ -n "$force" ] || fail 3 "there is no python3, so the table cannot be checked; --force writes it all the same"
        say "there is no python3, so the table is not checked. It is written all the same"
    elif ! by_script reference.py "$1"; then
        [ -n "$force" ] || fail 1 "$found. Nothing is written; --force writes it all the same"
        say "$found. It is written all the same"
    fi
}

# one_of LETTER: the end with 1 unless it is one of the eight
one_of() {
    case $1 in
    [BEJKNRST]) ;;
    *) fail 1 "refused 32: the letter is one of B E J K N R S T" ;;
    esac
}

# unforced WORD: the end with 2 where the call has an option that is of write alone
unforced() {
    [ -z "$force" ] || fail 2 "table $1 has no option --force; 'torfbarke table --help' says more"
    [ -z "$format" ] || fail 2 "table $1 has no option --format; 'torfbarke table --help' says more"
}

# table_check, table_plot: without the program, so that they need no prover
table_check() {
    local fits=yes
    options "$@"
    unforced check
    [ ${#rest[@]} = 2 ] || fail 2 "table check takes a letter and a text; 'torfbarke table --help' says more"
    letter "${rest[0]}"
    text "${rest[1]}"
    one_of "${rest[0]}"
    by_script reference.py "${rest[0]}" || fits=''
    put "$found"$'\n'
    [ -n "$fits" ] || exit 1
}

table_plot() {
    local file output name
    options "$@"
    unforced plot
    [ ${#rest[@]} = 3 ] || fail 2 "table plot takes a text, a letter and an output; 'torfbarke table --help' says more"
    file=${rest[0]} output=${rest[2]} name=${rest[0]}
    [ "$file" != - ] || name='standard input'
    apart "$file" "$output" text
    letter "${rest[1]}"
    text "$file"
    one_of "${rest[1]}"
    by_script picture.py "${rest[1]}" "$name" || fail 3 "the script picture.py ended with status 1"
    out "$output"
    put "$found"$'\n'
    placed
}

table_print() {
    image_one 'table print' "$@"
    set -- ${rest[@]+"${rest[@]}"}
    [ $# = 2 ] || fail 2 "table print takes a file and its letter; 'torfbarke table --help' says more"
    there "$1"
    letter "$2"
    program print
    image_fetch "$1" 131073 "$image_said"
    cut_dump "$1"
    pass <(give "${bytes?}") "$2"
    case ${said?} in
    'refused '*:*) fail 1 "$said" ;;
    'refused '*) fail 1 "$said: $(meaning "${said#refused }")" ;;
    *) heard ;;
    esac
}

case "${1-} ${2-}" in
'--help '* | '-h '* | 'print --help' | 'print -h' | 'list --help' | 'list -h') table_help ;;
'list '*) table_list "${@:2}" ;;
'write '*) table_write "${@:2}" ;;
'check '*) table_check "${@:2}" ;;
'plot '*) table_plot "${@:2}" ;;
'print '*) table_print "${@:2}" ;;
*) fail 2 "table list, write, check, plot or print; 'torfbarke table --help' says more" ;;
esac
