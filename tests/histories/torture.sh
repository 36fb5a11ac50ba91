#!/usr/bin/env bash
# Runs so many random histories of 400 events, from a seed on, with a progress line, and as many pairs of tables for the
# heat split from that seed.
set -euo pipefail
cd "$(dirname "$0")/../.."

sh tools/lib.sh --brief
sh tests/cipher/packages.sh gcc libc6-dev libssl-dev
sh tools/cargo.sh build --release --quiet -p paviluko_histories
target-rust/release/histories --histories "$1" --events 400 --seed "$2" --progress
target-rust/release/splits --pairs "$1" --seed "$2"
