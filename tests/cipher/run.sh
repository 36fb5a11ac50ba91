#!/bin/sh
# Tests the cipher's static library against OpenSSL and NIST's known answers.
# Run from the repository's top; the library is built before.
# Arguments, if any, are the differential test's count and seed.
set -eu

library=target/staticlib/libtest_cipher.a
here=tests/cipher
built=target/tests/cipher

[ -f "$library" ] || { echo "$library is missing: build it first" >&2; exit 1; }
sh "$here/packages.sh" gcc libc6-dev libssl-dev
mkdir -p "$built"

for test in vectors differential; do
    gcc -O2 -Wall -Wextra -Werror -o "$built/$test" "$here/$test.c" "$library" -lcrypto
done

data=crates/vectors/data
"$built/vectors" "$data/aes-128-ecb.txt" "$data/gcm-encrypt-128.txt" "$data/gcm-decrypt-128.txt"
"$built/differential" "$@"
