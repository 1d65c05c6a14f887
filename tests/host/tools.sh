# Sourced by the scripts that link C with the library. The library's archive is for x86-64: on such a machine gcc builds and the
# machine runs; on any other, Debian's cross compiler builds and its user-mode emulator runs.
#   $CC ..        compiles for x86-64          $RUN PROGRAM ..  runs it
#   archive       proves the library, unless that was done for these sources, and leaves it in $lib; its header is in $inc
#   table_archive the same of the second engine, in $table; recording_archive of recordings, in $recording; store_archive of the
#                 store, in $store; held_archive of interrupted loads, in $held; words_archive of words, knots and the version, in $words
#   compiler      makes sure of $CC and $RUN   emulator         makes sure of qemu-x86_64, also where $RUN does not need it
#   $out          a folder of this call for what is built; it goes at the end
# shellcheck shell=bash disable=SC2034
unset CDPATH
root=$(dirname -- "$(readlink -f -- "${BASH_SOURCE[0]}")")/../..
# shellcheck source=commands/lib/common
. "$root/commands/lib/common"
inc=$root/include
out=$(mktemp -d) || fail 4 "cannot make a temporary folder"
trap 'rm -rf -- "$out"' EXIT

archive() {
    library c_functions
    lib=$built
}

table_archive() {
    library c_table
    table=$built
}

recording_archive() {
    library c_recording
    recording=$built
}

store_archive() {
    library c_store
    store=$built
}

words_archive() {
    library c_words
    words=$built
}

held_archive() {
    library c_held
    held=$built
}

# want 'TEST' PACKAGE..: where the test fails, root installs the packages and says so; anybody else is told their names.
want() {
    local test=$1
    shift
    eval "$test" >/dev/null 2>&1 && return
    if [ "$(id -u)" = 0 ] && command -v apt-get >/dev/null; then
        say "installing $*"
        { apt-get update && DEBIAN_FRONTEND=noninteractive apt-get install -y --no-install-recommends "$@"; } >"$out/install.log" 2>&1 ||
            { tail -n 5 "$out/install.log" >&2 && fail 3 "could not install $*"; }
    fi
    eval "$test" >/dev/null 2>&1 || fail 3 "missing: apt-get install $*"
}

emulator() { want 'command -v qemu-x86_64' qemu-user; }

compiler() {
    local probe="printf '#include <stdio.h>\nint main(void) { return puts(\"\") < 0; }\n' | \$CC -static -x c - -o '$out/probe'"
    if [ "$(uname -m)" = x86_64 ]; then
        CC=gcc RUN=
        want "$probe" gcc libc6-dev
    else
        CC=x86_64-linux-gnu-gcc RUN=qemu-x86_64
        want "$probe" gcc-x86-64-linux-gnu libc6-dev-amd64-cross
        emulator
    fi
}
