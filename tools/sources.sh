#!/bin/sh
# Prints the SHA-256 of the library's sources: that of the sorted sha256sum lines of crates.txt, include/paviluko.h, and every file
# in src/, specs/ and proofs/ of the crate paviluko and of all crates that it stands on. It depends on their names and bytes alone:
# not on the folder, on git, on dates, modes or the language that is set.
set -eu
LC_ALL=C
export LC_ALL
cd "$(dirname "$0")/.."

folders=
for crate in $(sh tools/crates.sh paviluko); do
    for part in src specs proofs; do
        [ ! -d "crates/$crate/$part" ] || folders="$folders crates/$crate/$part"
    done
done
[ -n "$folders" ] || { echo 'the library has no sources here' >&2; exit 1; }

# shellcheck disable=SC2086 # a list of folders
lines=$(find crates.txt include/paviluko.h $folders ! -type d -exec sha256sum {} +)
printf '%s\n' "$lines" | sort | sha256sum | cut -d' ' -f1
