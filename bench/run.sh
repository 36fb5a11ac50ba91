#!/bin/sh
# Benchmarks of the static libraries: the cipher against other libraries; records, checkpoint files and transactions
# against the bare cipher; frames off the bus, heat splits, a day of all collectors, and the stack of each call, through the C
# boundary.
# Run from the repository's top; the libraries are built before.
set -eu

library=target/staticlib/libtest_cipher.a
sealed=target/staticlib/libtest_sealed.a
boundary=target/staticlib/libpaviluko.a
built=target/bench

for each in "$library" "$sealed" "$boundary"; do
    [ -f "$each" ] || { echo "$each is missing: build it first" >&2; exit 1; }
done
sh tests/cipher/packages.sh gcc libc6-dev libssl-dev libmbedtls-dev libbearssl-dev \
    nettle-dev libgcrypt20-dev
mkdir -p "$built"

# -rdynamic lets the program's answer about the CPU stand before mbedTLS's own.
gcc -O2 -Wall -Wextra -Werror -rdynamic -Itests/cipher -o "$built/cipher" bench/cipher.c \
    "$library" -lcrypto -lmbedcrypto -lbearssl -lnettle -lgcrypt
gcc -O2 -Wall -Wextra -Werror -Itests/cipher -Itests/sealed -o "$built/sealed" bench/sealed.c \
    "$boundary" "$sealed" "$library"
gcc -O2 -Wall -Wextra -Werror -Itests/cipher -o "$built/bus" bench/bus.c "$boundary" "$library"
gcc -O2 -Wall -Wextra -Werror -Itests/cipher -o "$built/heat" bench/heat.c "$boundary" "$library"
gcc -O2 -Wall -Wextra -Werror -Itests/cipher -o "$built/day" bench/day.c "$boundary" "$library"
gcc -O2 -Wall -Wextra -Werror -o "$built/stack" bench/stack.c "$boundary" -lpthread

"$built/cipher"
echo
"$built/sealed"
echo
"$built/bus"
echo
"$built/heat"
echo
"$built/day"
echo
"$built/stack"
