#!/bin/sh
# Holds the library's heat split to the model's, and both to the request's sentences, on drawn pairs of tables; and the program
# heatsplit to stored inputs, of which it is written down what it prints. A line or two each.
# Run from the repository's top; library and program are built before. PAVILUKO_LIB may name another folder with the archive,
# HEATSPLIT another program.
set -eu

program=${HEATSPLIT:-target/bin/heatsplit}
[ -x "$program" ] || { echo "$program is missing: sh tools/heatsplit.sh builds it" >&2; exit 1; }

. tests/with_library.sh
sh tests/cipher/packages.sh gcc libc6-dev libssl-dev python3

quietly sh tools/cargo.sh build --release --quiet -p paviluko_histories
target-rust/release/splits

python3 -B tests/heat/cases.py "$program" tests/heat/cases.txt
