# about: proves and builds the program once, so that every word then answers at once
# shellcheck shell=bash
# Sourced by torfbarke, after commands/lib/common. Standard output is one line; how far it is goes to standard error.
root=${root:?}

build_help() {
    put "usage: torfbarke build

Every word is answered by one program, which is proved from its sources and built once for each kit and each state of the sources. A word
that is called before does it too, and says so; this word does it alone. It says beforehand how many crates there are and roughly how long
they take, then which one is proved, and at the end where the program is. What was built is kept in a folder of your own below
\$XDG_CACHE_HOME, or else below ~/.cache; 'torfbarke clean' removes it.

Exit status: 0 the program is there, 2 a wrong call, 3 it could not be built, 4 the output could not be written, 141 its reader went away.
"
}

case ${1-} in
--help | -h)
    build_help
    exit 0
    ;;
esac
[ $# = 0 ] || fail 2 "build takes nothing behind it; 'torfbarke build --help' says more"
program none
if [ -n "${TORFBARKE_PROGRAMS-}" ]; then
    put "nothing is built: TORFBARKE_PROGRAMS names the folder of the program, ${built:?}"$'\n'
else
    put "the program is proved and built: ${built:?}"$'\n'
fi
