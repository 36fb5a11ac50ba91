#!/bin/sh
# Tests the static library of records, checkpoint files and the table against the model in Python.
# Run from the repository's top; the library is built before.
# Arguments, if any, are the differential test's count and seed.
set -eu

library=target/staticlib/libtest_sealed.a
here=tests/sealed
built=target/tests/sealed

[ -f "$library" ] || { echo "$library is missing: build it first" >&2; exit 1; }
sh tests/cipher/packages.sh gcc libc6-dev python3 python3-cryptography
mkdir -p "$built"

gcc -shared -o "$built/libsealed.so" -Wl,--whole-archive "$library" -Wl,--no-whole-archive

# Debian's own Python, which has the package.
PYTHONDONTWRITEBYTECODE=1 /usr/bin/python3 "$here/differential.py" "$built/libsealed.so" "$@"
