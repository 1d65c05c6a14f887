# about: removes what was proved and built
# shellcheck shell=bash
# Sourced by torfbarke, after commands/lib/common. Standard output says what was removed; everything else goes to standard error.
root=${root:?}

clean_help() {
    put "usage: torfbarke clean

Removes what earlier calls proved and built: in the folder torfbarke below \$XDG_CACHE_HOME, or else below ~/.cache, the folders whose
name is 32 hexadecimal digits, one for each kit and each state of the sources, with the program, archives for C and logs in them. A
line says what was removed. Anything else in that folder stays, and so does a folder in which another call is building. The next call
of a word proves and builds anew.

Exit status: 0 done, also where there was nothing, 2 a wrong call, 3 something could not be removed, 4 the output could not be written,
141 its reader went away.
"
}

# remove FOLDER: the end with 3 where something of it stays. Its lock is held meanwhile, as a call that builds in it holds it
remove() {
    if [ -e "$1/lock" ]; then
        { exec 9<>"$1/lock"; } 2>/dev/null || fail 3 "$1 could not be removed: it is not yours"
        if ! flock -n 9; then
            say "another call is building in $1: it stays"
            exec 9>&-
            return 0
        fi
    fi
    rm -rf -- "$1" 2>/dev/null || fail 3 "$1 could not be removed to its end"
    exec 9>&-
    put "removed $1"$'\n'
    count=$((count + 1))
}

case ${1-} in
--help | -h)
    clean_help
    exit 0
    ;;
esac
[ $# = 0 ] || fail 2 "clean takes nothing behind it; 'torfbarke clean --help' says more"
cache_place
count=0
if [ -e "${cache:?}" ] || [ -L "$cache" ]; then
    if [ -L "$cache" ] || [ ! -d "$cache" ] || [ ! -O "$cache" ]; then fail 3 "$cache is not a folder of yours: nothing was removed"; fi
fi
for folder in "$cache"/*; do
    name=${folder##*/}
    case $name in
    *[!0-9a-f]*) continue ;;
    esac
    if [ ${#name} = 32 ] && [ -d "$folder" ] && [ ! -L "$folder" ]; then remove "$folder"; fi
done
rmdir -- "$cache" 2>/dev/null || :
[ "$count" -gt 0 ] || put "nothing was removed: there is nothing built in $cache"$'\n'
