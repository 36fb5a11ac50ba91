#!/bin/sh
# Tests the library that C programs link, with its header: the header by itself, struct layouts, a session, what a refusal
# leaves, what is left of a key, and, under valgrind, sealing in the lent buffer, torn records, heat splits and what a host can
# hand over by mistake.
# Run from the repository's top; the library is built before. The argument, if any, is how many rounds of bad input.
set -eu

library=target/staticlib/libpaviluko.a
header=include/paviluko.h
here=tests/boundary
built=target/tests/boundary

[ -f "$library" ] || { echo "$library is missing: build it first" >&2; exit 1; }
sh tests/cipher/packages.sh gcc g++ libc6-dev valgrind
mkdir -p "$built/edited"

fail() {
    echo "boundary: $1" >&2
    exit 1
}

# ---- the header by itself ----

# Twice, as a program of several files may have it.
printf '#include "paviluko.h"\n#include "paviluko.h"\n' >"$built/header.c"

# Whether the header in a folder compiles.
compiles() { # STANDARD FOLDER OPTION..
    standard=$1
    folder=$2
    shift 2
    case $standard in
    c++*) compiler='g++ -x c++' ;;
    *) compiler='gcc -x c' ;;
    esac
    # shellcheck disable=SC2086 # a command with an option
    LC_ALL=C $compiler -std="$standard" -Wall -Wextra -Wpedantic -Werror -fsyntax-only -I"$folder" "$@" "$built/header.c" \
        2>"$built/errors"
}

# It does not compile, and these words are why.
refuses() { # WORDS STANDARD FOLDER OPTION..
    words=$1
    shift
    if compiles "$@"; then
        fail "the header compiles, and should not: $*"
    fi
    grep -q "$words" "$built/errors" || { cat "$built/errors" >&2; fail "the header is refused for another reason: $*"; }
}

asserts=$(grep -n '^PAVILUKO_ASSERT(' "$header" | cut -d: -f1)
[ "$(echo "$asserts" | wc -l)" -ge 28 ] || fail "the header asserts less of its layout than it did"
for standard in c99 c11 c++17; do
    compiles "$standard" include || { cat "$built/errors" >&2; fail "the header does not compile as $standard"; }
    # Freestanding, since the C library's own headers for these are seldom there.
    for machine in -m32 -mx32; do
        refuses 'libpaviluko.a is for x86-64' "$standard" include "$machine" -ffreestanding
    done
    # Each number of the layout, made another.
    for line in $asserts; do
        sed "${line}s/== /== 1/" "$header" >"$built/edited/paviluko.h"
        refuses 'static assertion failed\|is negative' "$standard" "$built/edited"
    done
    # A struct made another.
    sed 's/^    uint8_t present;/    uint8_t present, more[2];/' "$header" >"$built/edited/paviluko.h"
    refuses 'static assertion failed\|is negative' "$standard" "$built/edited"
done

# The numbers 1 to 19 in order, each a PAVILUKO_REFUSED_, and none of the names that these things had before.
sed -n '/PAVILUKO_TAKEN = 0/,/};/s/^ *\(PAVILUKO_[A-Z_]*\) = \([0-9]*\).*/\1 \2/p' "$header" | awk '
    $2 != NR - 1 || $1 !~ (NR == 1 ? "^PAVILUKO_TAKEN$" : "^PAVILUKO_REFUSED_") { exit 1 }
    END { if (NR != 20) exit 1 }' || fail "the numbers of the header are not PAVILUKO_TAKEN and 19 times PAVILUKO_REFUSED_"
if grep -nE 'paviluko_[a-z_]*(mark|journal)|PAVILUKO_[A-Z_]*(MARK|JOURNAL)' "$header" ||
    grep -nwE 'paviluko_points_kept|PAVILUKO_(LISTED|CONDITION|NUMBERS|LENGTH|TRANSACTION|LANE|POSITION|FULL)' "$header" ||
    grep -nwE 'PAVILUKO_(SPENT|CLOSED|EPOCH|TURN|VERSION|MISSING|NO_POINT|UNSEEN)' "$header"; then
    fail "the header has a name from before"
fi
echo "boundary: the header compiles alone as C99, C11 and C++17, and refuses another machine and another layout"

# ---- the calls ----

# Without the library.
gcc -std=c11 -O2 -Wall -Wextra -Werror -Iinclude -o "$built/passed_on" "$here/passed_on.c"
"$built/passed_on"

gcc -std=c11 -O2 -Wall -Wextra -Werror -Iinclude -o "$built/agree" "$here/agree.c" "$library"
"$built/agree"

gcc -std=c11 -O2 -g -Wall -Wextra -Werror -Iinclude -o "$built/in_place" "$here/in_place.c" "$library"
valgrind --error-exitcode=9 -q "$built/in_place"

# ---- a torn last record ----

gcc -std=c11 -O2 -g -Wall -Wextra -Werror -Iinclude -o "$built/torn" "$here/torn.c" "$library"
valgrind --error-exitcode=9 -q "$built/torn"

# ---- the yearly heat split ----

gcc -std=c11 -O2 -g -Wall -Wextra -Werror -Iinclude -o "$built/heat" "$here/heat.c" "$library"
valgrind --error-exitcode=9 -q "$built/heat"

# ---- what is left of a key ----

compilers=gcc
if command -v clang >"$built/clang"; then
    compilers='gcc clang'
fi
for compiler in $compilers; do
    for level in -O0 -O2 -O3; do
        "$compiler" -std=gnu11 "$level" -Wall -Wextra -Wpedantic -Werror -Iinclude -o "$built/clear" "$here/clear.c" "$library"
        "$built/clear" >"$built/clear.out" || { tail -n 1 "$built/clear.out" >&2; fail "clear, $compiler $level"; }
        echo "clear, $compiler $level: $(tail -n 1 "$built/clear.out")"
    done
done

# ---- bad input ----

gcc -O2 -g -Wall -Wextra -Werror -Iinclude -o "$built/bad_input" "$here/bad_input.c" "$library"
valgrind --error-exitcode=9 -q "$built/bad_input" "${1:-300}"
