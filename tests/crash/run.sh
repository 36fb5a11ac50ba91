#!/bin/sh
# Whole sessions of the program paviluko under a recorder of its file operations (record.c), with the power cut at every
# moment of them, the program killed, and operations made to fail (host/tests/crash). A line each.
# Run from the repository's top; the library is built before. PAVILUKO_LIB may name another folder with its archive.
# PAVILUKO_CRASH=N makes the bounds N times greater, for a longer run.
set -eu

. tests/with_library.sh
sh tests/cipher/packages.sh gcc libc6-dev

quietly gcc -std=c11 -O2 -Wall -Wextra -Werror -shared -fPIC -o "$place/record.so" tests/crash/record.c
PAVILUKO_RECORDER=$place/record.so
export PAVILUKO_RECORDER
quietly sh tools/cargo.sh test --release --quiet -p paviluko_host --test crash -- --nocapture
grep -o 'crash states: .*' "$log"
grep -o '[0-9]* of [0-9]* syncs .*' "$log" | sed 's,^,crash states: ,'
