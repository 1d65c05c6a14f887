# about: runs a script, a trace whose groups of lines are repeated, and prints the chip's answers
# shellcheck shell=bash
# Sourced by torfbarke, after commands/lib/common. Standard output is the script program's own; everything else goes to standard error.
root=${root:?}

script_help() {
    put "usage: torfbarke script [--words] [FILE]     a script from a file; '-' or nothing: from standard input
       torfbarke script [--words] --sample   the sample that ships with the project

A script is a trace with groups: '( nnn' opens one, ')' closes it, each on a line of its own, and what stands between them
is repeated 001 to 999 times. Groups may stand inside groups, eight deep, and none is empty. The answers are those of the
lines written out, as 'torfbarke replay' gives them: 3,000 lines at most, 9,998 written out. The script is judged as a whole
before it runs: at a fault '?' and the number of the line are all that is printed; standard error says what is wrong.

  --words   each answer beside its cycle, with what it means, and what each write asks for

Exit status: 0 every line answered, 1 a fault, 2 a wrong call, 3 the program could not be built or run, 4 the output could not
be written, 141 its reader went away. An example:

    printf '( 003\\nI 1 0 12000 0000 00\\n)\\n' | ./torfbarke script

docs/OPERATORS.md has the form of a line, every number and a worked script.
"
}

input script script script.txt "$@"
program script
# 3,000 lines of 20 bytes and one byte more: what follows cannot matter
fetch "${file:?}" 60001
run < <(give "${bytes?}")
heard
bad=$(printf '%s' "${wrote?}" | sed -n 's/^? 0*\([0-9]*\)$/\1/p')
if [ -n "${words?}" ] && [ -z "$bad" ]; then
    lib=$root/commands/lib
    lines=$(awk -f "$lib/words.awk" <(printf '%s' "$wrote") <(awk -f "$lib/expand.awk" <(give "$bytes"))) || fail 3 "the answers could not be put into words"
    put "$lines${lines:+$'\n'}"
else
    put "$wrote"
fi

[ -z "$bad" ] && exit 0
# the lines before the one at fault are good, so their newlines count them
from=$(give "$bytes" | tail -n +"$bad" 2>/dev/null | head -c 200 | od -An -v -tu1)
why=$(printf '%s\n' "$from" | awk -v number="$bad" -v before=<(give "$bytes" | head -n $((bad - 1))) -f "$root/commands/lib/group.awk")
[ -n "$why" ] || why="it is no line of a script: $(printf '%s\n' "$from" | awk -v number="$bad" -f "$root/commands/lib/fault.awk")"
fail 1 "line $bad: $why"
