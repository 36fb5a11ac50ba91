#!/bin/sh
# Holds the library against a model written from the scope alone: the bench sheet's cases, Rust's declarations of the C
# boundary, tables sealed before an update, and random whole histories with fixed seeds. A line each.
# Run from the repository's top; the library is built before. PAVILUKO_LIB may name another folder with its archive.
set -eu

rust=target-rust/release

. tests/with_library.sh
sh tests/cipher/packages.sh gcc libc6-dev libssl-dev

quietly sh tools/cargo.sh build --release --quiet

sheet=crates/bench_sheet/stdout
"$rust/sheet" >"$log"
"$rust/bus_sheet" <crates/bench_sheet/stdin >>"$log"
if ! diff "$log" "$sheet" >&2; then
    echo "the model's answers to the bench sheet are not the library's" >&2
    exit 1
fi
echo "bench sheet: $(wc -l <"$sheet") lines, the model's and the library's the same"

quietly sh tools/cargo.sh test --release --quiet -p paviluko_model
quietly sh tools/cargo.sh test --release --quiet -p paviluko_host --test agreement
echo "C boundary: Rust's declarations agree with the library"

quietly sh tools/cargo.sh test --release --quiet -p paviluko_host --test bits
echo "C boundary: no bit of a record or a checkpoint can be turned over"

quietly sh tools/cargo.sh test --release --quiet -p paviluko_histories --test old_tables -- --nocapture
grep '^old tables: ' "$log"

quietly sh tools/cargo.sh test --release --quiet -p paviluko_histories --lib
echo "histories: each of 50 faults put into a model or its card is caught"

quietly "$rust/histories" --histories 2400 --events 400 --seed 1
echo 'histories: library and model the same'
cat "$log"
