# about: counts the erases that traces begin on bench T, a row for each block
# shellcheck shell=bash
# Sourced by torfbarke, after commands/lib/common. The numbers are the wear program's own; they are only laid in columns or in words.
root=${root:?}

wear_help() {
    put "usage: torfbarke wear [--words] FILE..      traces or recordings, each on a fresh bench T; '-': from standard input
       torfbarke wear [--words] --sample    the sample trace that ships with the project

For each block of bench T comes a row: over all files the total of the erases begun, the largest and the smallest count of
one file, and how many files passed the sheet's 100,000 (more than 100,000). An erase counts in the cycle whose D0 starts it.
A file whose first line goes on where a line of a trace ends is a recording, of a part that was blank at its start; its end and
its array are not judged here. With a bad line in any file, or a line of a recording at fault, there is no table: standard
error says which file, which line and what is wrong with it.

  --words   a sentence for each block

Exit status: 0 the table, 1 a bad line, 2 a wrong call, 3 the program could not be built or run, 4 the output could not be
written, 141 its reader went away. An example:

    printf 'W 1 0 12000 3A00 20\\nW 1 0 12000 3A00 D0\\n' >erase.txt
    ./torfbarke wear erase.txt

docs/OPERATORS.md says how to read it.
"
}

words='' sample='' plain='' traces=()
for word in "$@"; do
    case $plain$word in
    --help | -h)
        wear_help
        exit 0
        ;;
    --words) words=yes ;;
    --sample) sample=yes ;;
    --) plain=: ;;
    -?*) fail 2 "wear has no option $word (a file of that name: ./$word); 'torfbarke wear --help' says more" ;;
    *) traces+=("$word") ;;
    esac
done
if [ -n "$sample" ]; then
    [ ${#traces[@]} = 0 ] || fail 2 "traces or --sample, not both"
    traces=("$root/samples/sample.txt")
fi
[ ${#traces[@]} -gt 0 ] || fail 2 "no trace: give one file or more, or --sample for the one that ships; 'torfbarke wear --help' says more"
for file in "${traces[@]}"; do there "$file"; done

program wear
# a file is read by its name; what can be read only once, a FIFO or standard input, is held: 9,999 lines of 31 bytes
names=() held=()
for file in "${traces[@]}"; do
    case $file in
    -*) name=./$file ;;
    *) name=$file ;;
    esac
    if [ "$file" = - ] || [ ! -f "$file" ]; then
        fetch "$file" 309969
        held[${#names[@]}]=${bytes?}
        exec {from}< <(give "$bytes")
        name=/dev/fd/$from
    elif [[ $file == *[!\ -~]* ]] && [ -r "$file" ]; then
        # the program opens names in UTF-8 alone, so one with a byte above ASCII is handed over open
        exec {from}< "$file"
        name=/dev/fd/$from
    fi
    names+=("$name")
done
run "${names[@]}"
heard

# a trace that is not counted: its number among the files, and the line; no table was made
faults=0
while read -r sign number line; do
    case $sign in
    '?')
        file=${traces[number - 1]}
        if [ -n "${held[number - 1]+held}" ]; then
            byte=$(give "${held[number - 1]:76:4}" | od -An -tu1)
        else
            byte=$(tail -c +20 2>/dev/null <"$file" | head -c 1 | od -An -tu1)
        fi
        # a space behind the first 19 bytes: a recording
        if [ "${byte// /}" = 32 ]; then
            say "$file looks like a recording, its first line goes on behind column 19; line $line is no line of one, or at fault: 'torfbarke recording' says more"
            faults=$((faults + 1))
            continue
        fi
        if [ -n "${held[number - 1]+held}" ]; then
            why=$(give "${held[number - 1]:80 * (line - 1):800}" | od -An -v -tu1)
        else
            why=$(tail -c +$((20 * (line - 1) + 1)) 2>/dev/null <"$file" | head -c 200 | od -An -v -tu1)
        fi
        why=$(printf '%s\n' "$why" | awk -v number="$line" -f "$root/commands/lib/fault.awk")
        say "$file: line $line is no line of a trace: $why"
        ;;
    '!') fail 2 "${traces[number - 1]} could not be read to its end" ;;
    X) fail 1 "refused $line at ${traces[number - 1]}: more than 65,535 traces" ;;
    *) break ;;
    esac
    faults=$((faults + 1))
# the first row of the table ends the reading, and what is written behind it has no reader: that is no fault
done < <(printf '%s' "${wrote?}" 2>/dev/null)
[ "$faults" = 0 ] || exit 1

told=$(printf '%s' "$wrote" | awk -v words="$words" -v traces="${#traces[@]}" -f "$root/commands/lib/wear.awk") || fail 3 "the table could not be laid out"
put "$told"$'\n'
