#!/usr/bin/env bash
# The gate: the layout of the files, the proofs with their must-fail edits, and the programs (rt ci), and the tests outside
# Rattle on what is built after it. Its last line is rt ci's own, and is printed only where everything else passed too.
set -euo pipefail
cd "$(dirname "$0")/.."

work=$(sh tools/scratch.sh)
trap 'wait; rm -rf "$work"' EXIT
trap 'exit 1' INT TERM
declare -A started

# Starts a test beside what follows.
beside() { # NAME
    sh "tests/$1/run.sh" >"$work/$1" 2>&1 &
    started[$1]=$!
}

# Waits for a test, and shows what it printed.
shown() { # NAME
    local status=0
    wait "${started[$1]}" || status=$?
    cat "$work/$1"
    [ "$status" -eq 0 ] || echo "tests/$1/run.sh ended with status $status" >&2
    return "$status"
}

# All packages at once: two tests cannot install theirs at the same time.
sh tests/cipher/packages.sh gcc g++ libc6-dev librust-lexopt-dev librust-libc-dev libssl-dev make mandoc pkgconf python3 python3-cryptography valgrind

status=0
rt ci 2>&1 | tee "$work/ci" | sed '$d' || status=$?
verdict=$(tail -n 1 "$work/ci")
if ! [[ $status = 0 && $verdict =~ ^[0-9]+\ passed,\ 0\ failed$ ]]; then
    echo "rt ci ended with: $verdict (status $status)" >&2
    exit 1
fi
# An edit that cannot be applied or read fails nothing there, and says nothing of a promise.
okay=$(grep '^rt: ok;' "$work/ci") || { echo 'rt ci printed no line rt: ok' >&2; exit 1; }
if [[ $okay =~ ,\ 0*[1-9][0-9]*\ bad ]]; then
    echo "rt ci passed with bad must-fail edits, which count here: $okay" >&2
    exit 1
fi

# Whatever is tested from here on is made in this run: heatsplit by rt ci, the archives below.
export TMPDIR="$work"
rm -rf target
install -D -m 755 crates/heatsplit/out/heatsplit target/bin/heatsplit

# The archives are made one after the other, since two runs of rt wait for each other at a crate that both stand on, the one with
# the longest tests first. What tests an archive runs beside the making of the next; what builds in a second folder begins when no
# rt runs here any more.
sh tools/lib.sh
beside histories
beside bus
beside heat
beside program
beside crash
beside faults
beside boundary
beside firmware
sh tools/archive.sh test_sealed
beside sealed
sh tools/archive.sh test_cipher
beside cipher
sh tests/axioms.sh --ci "$work/ci" paviluko test_sealed test_cipher
beside install

failed=
for test in cipher sealed boundary firmware histories bus heat program crash faults install; do
    shown "$test" || failed="$failed $test"
done
if [ -n "$failed" ]; then
    echo "failed:$failed" >&2
    exit 1
fi

echo "$verdict"
