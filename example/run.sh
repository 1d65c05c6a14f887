#!/usr/bin/env bash
# Builds and runs the examples: a table goes into a load file and from there into a simulated part, in bytes and in words; and a card
# measures while a table of it is replaced.
set -eu
here=$(dirname -- "$(readlink -f -- "$0")")
# shellcheck source=tests/host/tools.sh
. "$here/../tests/host/tools.sh"
archive
held_archive
words_archive
compiler
for name in table word measure; do
    $CC -std=c11 -O2 -Wall -Wextra -Werror -static -I "$inc" "$here/$name.c" "$lib" "$held" "$words" -o "$out/$name" ||
        fail 3 "the example $name could not be built"
    $RUN "$out/$name" || fail 1 "the example $name ended with a wrong answer"
done
