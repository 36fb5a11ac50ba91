#!/bin/sh
# Shows the main job: builds the proved library and the programs where they are missing or not made from their sources, and
# runs the demonstration. Needs no arguments and no files.
# PAVILUKO_LIB may name a folder with the library's archive, which is then taken as it is, as target/bin/heatsplit is.
set -eu
cd "$(dirname "$0")/.."

command -v cargo >/dev/null 2>&1 || { echo 'cargo is not on the PATH: install Rust 1.95 or newer' >&2; exit 1; }
command -v cc >/dev/null 2>&1 || sh tests/cipher/packages.sh gcc libc6-dev

heatsplit=target/bin/heatsplit

if [ -z "${PAVILUKO_LIB:-}" ]; then
    sh tools/lib.sh --brief
    sh tools/heatsplit.sh
elif [ ! -x "$heatsplit" ]; then
    echo "$heatsplit is not built, and is left out: make run without PAVILUKO_LIB builds it"
    heatsplit=
fi

echo 'building the program'
sh tools/cargo.sh build --release --quiet -p paviluko_host
echo
exec target-rust/release/paviluko demo ${heatsplit:+--heatsplit "$heatsplit"}
