#!/usr/bin/env bash
# install.sh install|uninstall: what `make install` and `make uninstall` do. PREFIX is where the package is to be, /usr/local where nothing
# is said; DESTDIR, mostly empty, stands before it while a package is made.
set -eu
set +o posix
unset CDPATH
root=$(dirname -- "$(readlink -f -- "$0")")/..
# shellcheck source=commands/lib/common
. "$root/commands/lib/common"
# shellcheck source=package/lib
. "$root/package/lib"
prefix=${PREFIX:-/usr/local} place=${DESTDIR-}${PREFIX:-/usr/local}
case $prefix in
/*) ;;
*) fail 2 "PREFIX is the whole name of a folder, from / on, not '$prefix'" ;;
esac

install_all() {
    local tree name
    tree=$(mktemp -d) || fail 4 "cannot make a temporary folder"
    # shellcheck disable=SC2064
    trap "rm -rf -- '$tree'" EXIT
    stage "$tree"
    while IFS= read -r name; do
        { mkdir -p -- "$place/${name%/*}" && install -m 644 -- "$tree/$name" "$place/$name"; } 2>/dev/null ||
            fail 4 "cannot write $place/$name; what was there before may be gone"
    done < <(placed)
    say "version $version is in $place"
}

# the files, then the folders that are the package's own, where nothing else is in them
uninstall_all() {
    local name folder
    while IFS= read -r name; do
        rm -f -- "$place/$name" 2>/dev/null || fail 4 "cannot remove $place/$name"
    done < <(placed)
    for folder in share/torfbarke/example/ref share/torfbarke/example share/torfbarke share/doc/torfbarke lib/cmake/Torfbarke; do
        rmdir -- "$place/$folder" 2>/dev/null || :
    done
    say "the files of version $version are no longer in $place"
}

case ${1-} in
install) install_all ;;
uninstall) uninstall_all ;;
*) fail 2 "usage: install.sh install|uninstall, with PREFIX and DESTDIR from outside" ;;
esac
