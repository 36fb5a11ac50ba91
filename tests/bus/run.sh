#!/bin/sh
# Holds the library's reading of the wired bus, and the model's, to frames that were published, and one to the other on all
# that is near a good frame. A line each.
# Run from the repository's top; the library is built before. PAVILUKO_LIB may name another folder with its archive.
set -eu

. tests/with_library.sh
sh tests/cipher/packages.sh gcc libc6-dev libssl-dev

quietly sh tools/cargo.sh build --release --quiet -p paviluko_histories
target-rust/release/frames tests/bus/published.txt
