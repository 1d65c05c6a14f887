# about: the library for C with header, pages and examples as one file, for a machine without the prover
# shellcheck shell=bash
# Sourced by torfbarke, after commands/lib/common. Standard output is the line on the file that was made, or with '-o -' the file itself.
root=${root:?}
# shellcheck source=package/lib
. "$root/package/lib"

dist_help() {
    put "usage: torfbarke dist [-o OUT.tar.gz]

Packs the library for C into OUT.tar.gz, torfbarke-${version?}.tar.gz where nothing is said: the archive libtorfbarke.a, the header,
files for pkg-config and CMake, the examples, the reference and the pages on what is proved, a README and SHA-256 sums of all of them. It
is for machines that have no prover. The same files make the same bytes, whoever packs them, and when. '-o -' is standard output. The
first call proves and builds the library, which takes the Rattle kit and some twenty minutes.

Exit status: 0 done, 2 a wrong call, 3 the library could not be built, 4 the file could not be written: what was there is as it was. There:

    tar -xzf OUT.tar.gz && cd torfbarke-$version && sha256sum -c SHA256SUMS
"
}

# what was made on the way goes, whatever ends this call
dist_drop() {
    trap '' HUP INT TERM
    rm -rf -- "$dist_work"
    [ -z "$dist_new" ] || rm -f -- "$dist_new"
}

# the tree, its README in front too, and the sums of its files
dist_tree() {
    mkdir -- "$1" || fail 4 "cannot make the folder $1"
    stage "$1"
    {
        cp -- "$1/share/doc/torfbarke/README.md" "$1/README.md" &&
            (set -o pipefail && cd -- "$1" && find . -type f -printf '%P\0' | sort -z | xargs -0 sha256sum) >"$1.sums" &&
            mv -- "$1.sums" "$1/SHA256SUMS"
    } || fail 4 "the sums could not be written"
    modes "$1"
}

# names in order, owner, time and modes as they always are
dist_pack() {
    (
        set -o pipefail
        tar --sort=name --format=ustar --owner=0 --group=0 --numeric-owner --mtime='2000-01-01 00:00Z' -C "$1" -cf - "$2" 2>/dev/null |
            gzip -n -9
    ) 2>/dev/null
}

dist_make() {
    local name=torfbarke-$version out=$1 files sum
    case $out in
    -) [ ! -t 1 ] || fail 2 "the file's bytes go to standard output: name a file for them, as in '-o $name.tar.gz'" ;;
    *)
        [ ! -d "$out" ] || fail 2 "$out is a folder, not a file"
        [ ! -e "$out" ] || [ -f "$out" ] || fail 2 "$out is no plain file, so it is not replaced; '-o -' is standard output"
        [ -d "$(dirname -- "$out")" ] || fail 2 "there is no folder $(dirname -- "$out")"
        ;;
    esac
    tar --version 2>/dev/null | grep -q 'GNU tar' || fail 3 "there is no GNU tar: it is in the package tar"
    dist_work=$(mktemp -d) || fail 4 "cannot make a temporary folder"
    dist_new=''
    trap dist_drop EXIT
    trap 'dist_drop; exit 129' HUP
    trap 'dist_drop; exit 130' INT
    trap 'dist_drop; exit 143' TERM
    dist_tree "$dist_work/$name"
    if [ "$out" = - ]; then
        dist_pack "$dist_work" "$name" || { [ $? != 141 ] || exit 141 && unwritten; }
        return
    fi
    dist_new=$out.new.$$
    { dist_pack "$dist_work" "$name" >"$dist_new" && mv -fT -- "$dist_new" "$out"; } 2>/dev/null ||
        fail 4 "$out could not be written: what was there is as it was"
    dist_new=''
    files=$(wc -l <"$dist_work/$name/SHA256SUMS")
    sum=$(sha256sum <"$out")
    put "$out: $files files and their sums, sha256 ${sum%% *}"$'\n'
}

out=torfbarke-$version.tar.gz
while [ $# -gt 0 ]; do
    case $1 in
    --help | -h)
        dist_help
        exit 0
        ;;
    -o)
        [ $# -ge 2 ] || fail 2 "-o takes the name of a file; 'torfbarke dist --help' says more"
        [ -n "$2" ] || fail 2 "the name of a file is empty"
        out=$2
        shift
        ;;
    *) fail 2 "dist has no option or file $1; 'torfbarke dist --help' says more" ;;
    esac
    shift
done
dist_make "$out"
