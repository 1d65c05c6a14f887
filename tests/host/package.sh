#!/usr/bin/env bash
# package.sh: the package for a host. All archives as one, with every function of the header in it once and nothing else for a linker to
# see; `make install` into a folder, the programs of docs/REFERENCE.md and the examples built from there by pkg-config and by CMake, with
# gcc and with clang, and run; moved elsewhere; taken away again; and `./torfbarke dist` unpacked, its sums compared, built from.
set -eu
here=$(dirname -- "$(readlink -f -- "$0")")
# shellcheck source=tests/host/tools.sh
. "$here/tools.sh"
compiler
root=$(cd -- "$root" && pwd)
version=$(cat "$root/VERSION")
want 'command -v pkg-config' pkg-config
want 'command -v cmake' cmake
want 'command -v make' make
[ -z "$RUN" ] || fail 3 "here programs run in an emulator, which the package's own Makefile does not know: nothing was tested"
compilers=$CC
if command -v clang >/dev/null; then compilers="$compilers clang"; fi
names=$(sed 's|/\*.*\*/||' "$inc/torfbarke.h" | sed -n 's/^[a-z0-9_]* \(tb_[a-z_]*\)(.*/\1/p' | sort)
say() { printf '%s\n' "$*"; }

# the whole tree, by `make install`, in $out/there; DESTDIR stands before PREFIX
(cd / && make -s -C "$root" install PREFIX=/opt/tb DESTDIR="$out/there") 2>"$out/log" ||
    { cat "$out/log" >&2 && fail 1 "make install failed"; }
tree=$out/there/opt/tb
archive=$tree/lib/libtorfbarke.a
seen=$(nm -g --defined-only "$archive" 2>/dev/null | awk 'NF == 3 { print $3 }' | sort)
[ "$seen" = "$names" ] || fail 1 "the archive has other names than the header: $(diff <(echo "$names") <(echo "$seen") | tr '\n' ' ')"
needs=$(nm -u "$archive" 2>/dev/null | awk '$1 == "U" { print $2 }' | sort -u | tr '\n' ' ')
for need in $needs; do
    case $need in memcpy | memset | memmove | memcmp) ;; *) fail 1 "the archive needs $need" ;; esac
done
{
    printf '#define TB_UNCHECKED\n#include <torfbarke.h>\nstatic void (*volatile const all[])(void) = {\n'
    for name in $names; do printf '(void (*)(void))%s,\n' "$name"; done
    printf '};\nint main(void) {\nunsigned n = 0;\nfor (unsigned i = 0; i < sizeof all / sizeof all[0]; i++) n += all[i] != 0;\n'
    printf 'return n != %s;\n}\n' "$(wc -w <<<"$names")"
} >"$out/every.c"
$CC -std=c11 -Wall -Wextra -Werror -I "$tree/include" "$out/every.c" "$archive" -o "$out/every" ||
    fail 1 "the functions do not link at once"
"$out/every" || fail 1 "a function is not there"
[ -z "$(find "$out/there" -type f -not -perm 644)" ] || fail 1 "a file has another mode than 644"
! grep -rq '@VERSION@' "$tree" || fail 1 "a file has no version in it"
say "one archive: $(wc -w <<<"$names") functions, and it needs ${needs% }"

# programs and examples by pkg-config and the examples' Makefile, with each compiler, and by CMake; what they print is compared
by_pkg_config() {
    local cc name line flags
    export PKG_CONFIG_PATH=$1/lib/pkgconfig
    [ "$(pkg-config --modversion torfbarke)" = "$version" ] || fail 1 "pkg-config tells another version"
    for cc in $compilers; do
        for flags in -O2 '-O2 -DNDEBUG' '-O0 -DTB_UNCHECKED'; do
            while read -r name line; do
                # shellcheck disable=SC2046,SC2086
                $cc -std=c11 $flags -Wall -Wextra -Werror "$1/share/torfbarke/example/ref/$name.c" \
                    $(pkg-config --cflags --libs torfbarke) -o "$out/$name" ||
                    fail 1 "$name.c does not compile by $cc $flags"
                [ "$("$out/$name")" = "$line" ] || fail 1 "$name, by $cc $flags, does not print what the page says: $line"
            done < <(python3 "$root/tests/reference.py" prints)
        done
        make -s -C "$1/share/torfbarke/example" CC="$cc" BUILD="$out/made-$cc" >"$out/log" 2>&1 ||
            { cat "$out/log" >&2 && fail 1 "the examples' Makefile fails with $cc"; }
        rm -rf "$out/made-$cc"
    done
}
by_cmake() {
    local cc
    for cc in $compilers; do
        rm -rf "$out/cmake"
        {
            cmake -S "$1/share/torfbarke/example" -B "$out/cmake" -DCMAKE_C_COMPILER="$cc" -DCMAKE_PREFIX_PATH="$1" \
                -DCMAKE_BUILD_TYPE=Release && cmake --build "$out/cmake" && (cd "$out/cmake" && ctest)
        } >"$out/log" 2>&1 || { tail -n 20 "$out/log" >&2 && fail 1 "the examples do not build and run by CMake with $cc"; }
        grep -q '100% tests passed' "$out/log" || fail 1 "CMake ran no examples"
    done
}
asked() { # asked VERSION: whether CMake takes this package for that version
    mkdir -p "$out/asks"
    printf 'cmake_minimum_required(VERSION 3.13)\nproject(asks C)\nfind_package(Torfbarke %s REQUIRED)\n' "$1" >"$out/asks/CMakeLists.txt"
    rm -rf "$out/asks/build"
    cmake -S "$out/asks" -B "$out/asks/build" -DCMAKE_PREFIX_PATH="$tree" >/dev/null 2>&1
}
by_pkg_config "$tree"
by_cmake "$tree"
IFS=. read -r major minor patch <<<"$version"
asked "$version" || fail 1 "CMake does not take version $version for itself"
asked "$major.$minor" || fail 1 "CMake does not take version $version for $major.$minor"
! asked "$major.$((minor + 1))" || fail 1 "CMake takes version $version for $major.$((minor + 1))"
! asked "$((major + 1)).0" || fail 1 "CMake takes version $version for $((major + 1)).0"
[ "$major" != 0 ] || [ "$minor" = 0 ] || ! asked "0.$((minor - 1))" || fail 1 "CMake takes version $version for 0.$((minor - 1))"
[ "$patch" = 0 ] || asked "$major.$minor.$((patch - 1))" || fail 1 "CMake does not take version $version for $major.$minor.$((patch - 1))"
say "installed: examples and programs of the reference by pkg-config and by CMake, with $compilers; other versions are refused"

# moved as it is, the tree serves
mv "$out/there" "$out/else where"
mkdir "$out/moved"
mv "$out/else where/opt/tb" "$out/moved/tb"
tree=$out/moved/tb
by_pkg_config "$tree"
# taken away, with a file of somebody else's beside it
echo mine >"$tree/share/torfbarke/mine"
make -s -C "$root" uninstall PREFIX="$tree" 2>/dev/null || fail 1 "make uninstall failed"
[ "$(find "$tree" -type f)" = "$tree/share/torfbarke/mine" ] || fail 1 "make uninstall left: $(find "$tree" -type f | tr '\n' ' ')"
say "moved, it serves; uninstalled, nothing of it is left, and nothing else is gone"

# the same as one file: twice the same bytes, whatever the time, the umask and the names of the machine; it is whole, and builds
(umask 077 && TZ=Asia/Tokyo "$root/torfbarke" dist -o "$out/a.tar.gz") >"$out/line" 2>"$out/log" ||
    { cat "$out/log" >&2 && fail 1 "dist failed"; }
(umask 022 && LANG=C "$root/torfbarke" dist -o - | cat >"$out/b.tar.gz") 2>/dev/null || fail 1 "dist to standard output failed"
cmp -s "$out/a.tar.gz" "$out/b.tar.gz" || fail 1 "two calls of dist make different files"
grep -q "sha256 $(sha256sum <"$out/a.tar.gz" | cut -d ' ' -f 1)\$" "$out/line" || fail 1 "dist tells another sum"
mkdir "$out/unpacked"
tar -xzf "$out/a.tar.gz" -C "$out/unpacked"
tree=$out/unpacked/torfbarke-$version
(cd "$tree" && sha256sum --quiet --strict -c SHA256SUMS) || fail 1 "a sum is wrong"
[ "$(find "$tree" -type f | wc -l)" = $(($(wc -l <"$tree/SHA256SUMS") + 1)) ] || fail 1 "a file has no sum"
grep -q 'no licence yet' "$tree/README.md" || fail 1 "the README does not speak of the licence"
for name in REFERENCE.md CLAIMS.md TRUST.md RULES.md; do
    cmp -s "$root/docs/$name" "$tree/share/doc/torfbarke/$name" || fail 1 "$name is another"
done
cmp -s "$inc/torfbarke.h" "$tree/include/torfbarke.h" || fail 1 "the header is another"
by_pkg_config "$tree"
printf x >>"$tree/include/torfbarke.h"
! (cd "$tree" && sha256sum --quiet --strict -c SHA256SUMS) >/dev/null 2>&1 || fail 1 "a changed file has a good sum"
say "dist: twice the same bytes; unpacked, its sums are right and its programs run"
