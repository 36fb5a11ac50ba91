#!/bin/sh
# Tests the C programs that people copy: examples/firmware.c in each standard that the header allows, with the power cut at
# every store, and the program in README.md, which must print what README.md shows. A line each.
# Run from the repository's top; the library is built before.
set -eu

library=target/staticlib/libpaviluko.a
example=examples/firmware.c
wanted=examples/firmware.out
built=target/tests/firmware
flags='-O2 -Wall -Wextra -Wpedantic -Werror -Iinclude'

[ -f "$library" ] || { echo "$library is missing: build it first" >&2; exit 1; }
sh tests/cipher/packages.sh gcc g++ libc6-dev
mkdir -p "$built"

fail() {
    echo "firmware: $1" >&2
    exit 1
}

# ---- the example: every standard, one output ----

# shellcheck disable=SC2086 # a list of flags
{
    gcc -std=c99 $flags -o "$built/c99" "$example" "$library"
    gcc -std=c11 $flags -o "$built/c11" "$example" "$library"
    g++ -std=c++17 $flags -o "$built/c++17" -x c++ "$example" -x none "$library"
}
for standard in c99 c11 c++17; do
    "$built/$standard" >"$built/$standard.out" || fail "as $standard it ended with status $?"
    diff "$wanted" "$built/$standard.out" || fail "as $standard it prints something else than $wanted"
done
echo "firmware: no warning as C99, C11 and C++17, and each prints $wanted"

# ---- cuts ----

# The stores of the uncut day, and a table without its last column: a number that a cut caught is given up, so the later ones
# are higher.
stores=$(sed -n 's/.* \([0-9]*\) stores$/\1/p' "$wanted")
[ "$stores" -gt 0 ] || fail "$wanted does not say how many stores"
table() { # FILE
    sed -n '/^meter/,$p' "$1" | sed 's/ *[^ ]*$//'
}
table "$wanted" >"$built/table"
[ "$(wc -l <"$built/table")" -gt 10 ] || fail "$wanted has no table"

# Runs the example with a fault. Its table is the one without; how often the box started again is as given.
with() { # STARTS OPTION N
    status=0
    "$built/c99" "$2" "$3" >"$built/fault.out" || status=$?
    [ "$status" = 0 ] || { cat "$built/fault.out" >&2; fail "$2 $3 ended with status $status"; }
    [ "$(grep -c 'starting again$' "$built/fault.out")" = "$1" ] || fail "$2 $3: not $1 starts more"
    table "$built/fault.out" | diff "$built/table" - || fail "$2 $3: another table"
    runs=$((runs + 1))
}

runs=0
store=1
while [ "$store" -le "$stores" ]; do
    with 1 --cut-before "$store"
    with 1 --cut-after "$store"
    with 1 --cut-in "$store"
    store=$((store + 13))
done
with 1 --cut-before "$stores"
with 1 --cut-after "$stores"
with 1 --cut-in "$stores"
for record in 1 2 75 120 121 150; do
    with 0 --misread "$record"
    with 1 --spoil "$record"
done
echo "firmware: $runs days with a cut, a misread or a spoilt record end with the same table"
"$built/c99" --cut-before $((stores + 1)) >"$built/fault.out" && fail "a cut that never came was not reported"
for wrong in --cut-before '--spoil 0' '--never 1' 'x y z'; do
    # shellcheck disable=SC2086 # a list of arguments
    "$built/c99" $wrong >/dev/null 2>&1 && fail "taken: $wrong"
done

"$built/c++17" --every

# ---- README.md's program ----

# The indented lines between two lines of text, without their indent.
between() { # FIRST LAST
    sed -n "/^$1/,/^$2/s/^    //p" README.md
}
# In a folder of its own, with links to what they name: rt wants none among the repository's files.
readme=$(sh tools/scratch.sh)
trap 'rm -rf "$readme"' EXIT
trap 'exit 1' INT TERM
ln -s "$(pwd)/include" "$(pwd)/target" "$readme"
between 'A whole program,' 'It is built and run so' >"$readme/sample.c"
between 'It is built and run so' 'A call that is turned down' >"$readme/session"
[ -s "$readme/sample.c" ] || fail "README.md has no program where it was"
[ "$(grep -c '^\$ ' "$readme/session")" = 2 ] || fail "README.md does not show two commands"
sed '/^\$ /d' "$readme/session" >"$readme/wanted"
[ -s "$readme/wanted" ] || fail "README.md does not show what the program prints"

# shellcheck disable=SC2086 # a list of flags
gcc -std=c99 $flags -o "$readme/strict" "$readme/sample.c" "$library"
# The commands as they stand there.
(cd "$readme" && sed -n 's/^\$ //p' session | sh -e) >"$readme/out" || fail "README.md's commands ended with status $?"
diff "$readme/wanted" "$readme/out" || fail "README.md's program prints something else than README.md shows"
echo "firmware: README.md's program prints what README.md shows"
