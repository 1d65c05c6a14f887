# shellcheck shell=bash
# Sourced by tests/command.sh: ./torfbarke dist, and make install, which stands on the same list of files. The archives are stand-ins, an
# object of each name with a line in it: what is packed and how is tried here, and tests/host/package.sh builds programs from the real
# one.
root=${root:?} work=${work:?} tb=${tb:?}
version=$(cat "$root/VERSION")
name=torfbarke-$version
libs=$work/libs
mkdir -p "$libs" "$work/dists/tmp"
for part in c_functions c_table c_recording c_store c_held c_words; do
    printf 'stands for %s\n' "$part" >"$work/$part.o"
    (cd "$work" && ar rcD "$libs/lib$part.a" "$part.o")
done
dist() { (cd "$work/dists" && TORFBARKE_PROGRAMS=$libs TMPDIR=$work/dists/tmp "$tb" dist "$@"); }
# dist_left NAME FILES: in the folder of these calls is nothing but that, and nothing in that of temporary files
dist_left() {
    [ "$(cd "$work/dists" && find . -mindepth 1 -not -name tmp -printf '%P\n' | LC_ALL=C sort | tr '\n' ' ')" = "$2" ] ||
        wrong "$1: other files are left"
    [ -z "$(ls -A "$work/dists/tmp")" ] || wrong "$1: a temporary folder is left"
    cases=$((cases + 1))
}

# wrong calls
call dist --help; try 'dist --help' 0 '*' ''
grep -q 'Exit status' "$work/out" || wrong 'dist --help: no statuses'
call dist -o; one 'dist: -o without a name' 2 '' '-o takes the name of a file'
call dist -o ''; one 'dist: an empty name' 2 '' 'empty'
call dist here; one 'dist: a file without -o' 2 '' 'no option or file here'
call dist --out=here; one 'dist: an option that is none' 2 '' 'no option or file --out=here'
call dist -o tmp; one 'dist: a folder' 2 '' 'is a folder, not a file'
call dist -o nowhere/x.tar.gz; one 'dist: no such folder' 2 '' 'there is no folder nowhere'
call dist -o /dev/null; one 'dist: a device' 2 '' 'is no plain file'
dist_left 'dist: wrong calls' ''

# the file, by its own name and by another, and on standard output
call dist; try 'dist' 0 '*' ''
dist_left 'dist' "$name.tar.gz "
sum=$(sha256sum <"$work/dists/$name.tar.gz" | cut -d ' ' -f 1)
files=$(tar -tzf "$work/dists/$name.tar.gz" | grep -vc '/$')
[ "$(cat "$work/out")" = "$name.tar.gz: $((files - 1)) files and their sums, sha256 $sum" ] || wrong 'dist: another line'
echo old >"$work/dists/x.tar.gz"
call dist -o x.tar.gz; try 'dist over an old file' 0 '*' ''
cmp -s "$work/dists/x.tar.gz" "$work/dists/$name.tar.gz" || wrong 'dist: other bytes the second time'
(umask 077 && TZ=Asia/Tokyo LC_ALL=C dist -o -) >"$work/dist.out" 2>"$work/err" || wrong 'dist to standard output'
cmp -s "$work/dist.out" "$work/dists/$name.tar.gz" || wrong 'dist: other bytes on standard output, under another umask and clock'
cases=$((cases + 1))
full() { dist -o - >/dev/full; }
call full; one 'dist: no room for standard output' 4 '' 'could not be written to its end'
broken() { dist -o - | head -c 1 >/dev/null; return "${PIPESTATUS[0]}"; }
call broken; try 'dist: its reader went away' 141 '' ''
dist_left 'dist: three calls' "$name.tar.gz x.tar.gz "

# what is in it: names in order, owner and time fixed, every file with its sum, the archives as one
TZ=UTC tar -tvzf "$work/dists/x.tar.gz" --full-time --numeric-owner >"$work/list"
awk '{ print $6 }' "$work/list" | LC_ALL=C sort -c || wrong 'dist: names out of order'
[ -z "$(awk '$2 != "0/0" || $4 " " $5 != "2000-01-01 00:00:00"' "$work/list")" ] || wrong 'dist: an owner or a time of this machine'
mkdir "$work/undist"
tar -xzf "$work/dists/x.tar.gz" -C "$work/undist"
tree=$work/undist/$name
(cd "$tree" && sha256sum --quiet --strict -c SHA256SUMS) || wrong 'dist: a sum is wrong'
[ "$(find "$tree" -type f | wc -l)" = "$files" ] || wrong 'dist: another number of files'
[ "$(wc -l <"$tree/SHA256SUMS")" = $((files - 1)) ] || wrong 'dist: a file without a sum'
[ "$(ar t "$tree/lib/libtorfbarke.a" | sort | tr '\n' ' ')" = 'c_functions.o c_held.o c_recording.o c_store.o c_table.o c_words.o ' ] ||
    wrong 'dist: other objects'
[ "$(ar p "$tree/lib/libtorfbarke.a" c_store.o)" = 'stands for c_store' ] || wrong 'dist: another object'
cmp -s "$root/include/torfbarke.h" "$tree/include/torfbarke.h" || wrong 'dist: another header'
for part in REFERENCE.md CLAIMS.md TRUST.md RULES.md; do
    cmp -s "$root/docs/$part" "$tree/share/doc/torfbarke/$part" || wrong "dist: another $part"
done
for part in "$root"/example/*.c "$root"/example/ref/*.c; do
    [ -f "$tree/share/torfbarke/${part#"$root/"}" ] || wrong "dist: no ${part##*/}"
done
grep -q "^Version: $version\$" "$tree/lib/pkgconfig/torfbarke.pc" || wrong 'dist: torfbarke.pc has another version'
grep -q "\"$version\"" "$tree/lib/cmake/Torfbarke/TorfbarkeConfigVersion.cmake" || wrong 'dist: CMake has another version'
grep -q 'There is no licence yet: the owner has still to name one' "$tree/README.md" || wrong 'dist: the README is silent on the licence'
grep -q 'There is no licence yet: the owner has still to name one' "$root/README.md" || wrong 'the README is silent on the licence'
! grep -rqF "$root" "$tree" || wrong 'dist: a place of this machine'
! grep -rq '@VERSION@' "$tree" || wrong 'dist: a file without its version'
cases=$((cases + 16))

# what goes wrong leaves the old file as it was
echo old >"$work/dists/x.tar.gz"
mv "$libs/libc_held.a" "$work/libc_held.a"
call dist -o x.tar.gz; one 'dist: an archive is missing' 3 '' 'libc_held.a'
echo junk >"$libs/libc_held.a"
call dist -o x.tar.gz; try 'dist: an archive that is none' 3 '' 'is no archive'
mv "$work/libc_held.a" "$libs/libc_held.a"
roomless() { (ulimit -f 1 && dist -o x.tar.gz); }
call roomless; try 'dist: no room' 4 '' 'could not be written'
[ "$(cat "$work/dists/x.tar.gz")" = old ] || wrong 'dist: the old file is gone'
dist_left 'dist: what goes wrong' "$name.tar.gz x.tar.gz "

# make install, DESTDIR before PREFIX, and make uninstall, which takes what it put there and nothing else
if command -v make >/dev/null; then
    making() { (cd / && TORFBARKE_PROGRAMS=$libs make -s -C "$root" "$@"); }
    call making install PREFIX=/opt/tb DESTDIR="$work/dest"; try 'make install' 0 '' "version $version is in $work/dest/opt/tb"
    (cd "$tree" && find . -type f -not -name SHA256SUMS -not -path ./README.md | LC_ALL=C sort) >"$work/names"
    (cd "$work/dest/opt/tb" && find . -type f | LC_ALL=C sort) | cmp -s - "$work/names" || wrong 'make install: other files than in dist'
    (cd "$work/dest/opt/tb" && grep -v ' README.md$' "$tree/SHA256SUMS" | sha256sum --quiet --strict -c -) ||
        wrong 'make install: other bytes than in dist'
    echo mine >"$work/dest/opt/tb/lib/mine.a"
    echo mine >"$work/dest/opt/tb/share/torfbarke/mine"
    call making uninstall PREFIX=/opt/tb DESTDIR="$work/dest"; try 'make uninstall' 0 '' 'no longer in'
    [ "$(cd "$work/dest" && find . -type f | LC_ALL=C sort | tr '\n' ' ')" = './opt/tb/lib/mine.a ./opt/tb/share/torfbarke/mine ' ] ||
        wrong 'make uninstall: other files are left'
    call making install PREFIX=here DESTDIR="$work/dest"; try 'make install: no whole name' 2 '*' 'PREFIX is the whole name of a folder'
    : >"$work/dest/file"
    call making install PREFIX=/file DESTDIR="$work/dest"; try 'make install: no folder can be made' 2 '*' 'cannot write'
    call making; try 'make' 0 '*' ''
    grep -q 'make install' "$work/out" || wrong 'make: nothing is told'
    cases=$((cases + 4))
fi
