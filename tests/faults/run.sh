#!/bin/sh
# A box under faults: cards of somebody's choosing, cards that fill up, what others may not have, and daily use for years. A line each.
# Run from the repository's top; the library is built before. PAVILUKO_LIB may name another folder with its archive.
set -eu

program=target-rust/release/paviluko

. tests/with_library.sh
sh tests/cipher/packages.sh gcc libc6-dev python3

export TMPDIR="$place"

quietly sh tools/cargo.sh build --release --quiet -p paviluko_host
for test in hostile full secrets; do
    quietly python3 -B "tests/faults/$test.py" "$program"
    echo "faults: $(cat "$log")"
done
quietly sh tools/cargo.sh test --release --quiet -p paviluko_host --test daily -- --nocapture
grep '[0-9] starts\|[0-9] transactions' "$log" | sed 's/^\.*/faults: /'
