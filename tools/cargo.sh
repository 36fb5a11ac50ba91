#!/bin/sh
# Runs cargo at the repository's top, without a network: the two crates that the host uses come from Debian's packages.
#     sh tools/cargo.sh build --release -p paviluko_host
set -eu

sh tests/cipher/packages.sh librust-lexopt-dev librust-libc-dev
command=$1
shift
exec cargo "$command" --config tools/cargo.toml --offline "$@"
