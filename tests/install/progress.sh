#!/bin/sh
# What tools/lib.sh shows and leaves while the library is proved, with a script in rt's place: nothing is proved here. A line.
# Run from the repository's top.
set -eu

place=$(sh tools/scratch.sh)
trap 'rm -rf "$place"' EXIT
trap 'exit 1' INT TERM
log=$place/log
top=$place/tree
identity=$top/target/staticlib/libpaviluko.txt

mkdir "$top" "$place/bin"
sh tools/copy.sh "$top"
cp tests/install/rt.sh "$place/bin/rt"
chmod 755 "$place/bin/rt"
PATH=$place/bin:$PATH
export PATH

fail() {
    cat "$log" >&2
    echo "tools/lib.sh: $1" >&2
    exit 1
}

# Runs it, and holds its exit status against what is expected.
lib() { # STATUS VARIABLES..
    wanted=$1
    shift
    status=0
    env "$@" sh "$top/tools/lib.sh" >"$log" 2>&1 </dev/null || status=$?
    [ "$status" = "$wanted" ] || fail "exit status $status and not $wanted"
}

lines() { grep -c '^\[ *[0-9]* of [0-9]*\] ' "$log" || true; }

crates=$(sh tools/crates.sh paviluko | tr '\n' ' ')
all=$(echo "$crates" | wc -w)

# From nothing: a line for each crate, numbered from 1 on; then the identity.
lib 0
sed -n 's/^\[ *\([0-9]*\) of .*/\1/p' "$log" >"$place/numbers"
seq "$all" | diff - "$place/numbers" >&2 || fail 'the crates are not counted from 1 on'
grep -qx "\[ *[0-9]* of $all\] octets: proved in [0-9]* s" "$log" || fail 'no line for octets'
! grep -q 'what the prover says' "$log" || fail 'it shows what rt says of crates that are proved'
tail -n 4 "$log" | diff - "$identity" >&2 || fail 'other lines in libpaviluko.txt'
cmp "$top/crates/paviluko/out/libpaviluko.a" "$top/target/staticlib/libpaviluko.a" >&2 || fail 'not the archive that rt built'
for crate in $crates; do
    grep -q '^logic=proved functions=' "$top/target/log/$crate" || fail "no verdict on $crate in target/log"
done
sum=$(sha256sum "$top/target/staticlib/libpaviluko.a")
printf 'edition %s\nsources %s\narchive %s\nkit no kit\n' "$(sed -n 's/^#define PAVILUKO_EDITION //p' include/paviluko.h)" \
    "$(sh tools/sources.sh)" "${sum%% *}" | diff - "$identity" >&2 || fail 'another identity'

# Up to date; and not, if a byte of the archive, or a source, is another one.
lib 0
[ "$(wc -l <"$log")" = 5 ] && grep -q 'is up to date$' "$log" || fail 'it builds again what is up to date'
echo more >>"$top/target/staticlib/libpaviluko.a"
lib 0 OLD="$crates"
[ "$(lines)" = 1 ] && grep -q "^\[$all of $all\] paviluko: " "$log" || fail 'a line for a crate that was proved before'
echo '-- more' >>"$top/crates/sealed/specs/Lib.antt"
lib 0
[ "$(lines)" = "$all" ] || fail 'a changed source is passed over'

# A crate that is not proved: what rt says of it, and of no other.
echo '-- more' >>"$top/crates/sealed/specs/Lib.antt"
lib 1 BAD=vault
grep -q '\] vault: NOT PROVED$' "$log" || fail 'no line for the crate that is not proved'
grep -q '\] journal: not tried, for vault is not proved$' "$log" || fail 'no line for a crate that stands on it'
grep -q '\] bus: proved in [0-9]* s$' "$log" || fail 'a crate that does not stand on it is not tried'
grep 'what the prover says' "$log" >"$place/shown" || true
echo 'what the prover says of vault' | diff - "$place/shown" >&2 || fail 'not what rt says of vault'
[ ! -f "$identity" ] || fail 'an identity of a library that was not built'
lib 1 BAD=paviluko
grep -qx 'the archive is not made' "$log" || fail 'not what rt says of the archive'
[ ! -f "$identity" ] || fail 'an identity of an archive that was not made'
[ ! -f "$top/target/staticlib/libpaviluko.a" ] || fail 'an archive that was not made'
lib 1 MUTE=paviluko
grep -q 'no verdict on what it linked$' "$log" || fail 'an archive with no verdict is taken'
[ ! -f "$identity" ] || fail 'an identity of an archive with no verdict'

# Sources that are edited meanwhile.
lib 1 EDITED=crates/table/specs/Lib.antt
grep -q '^the sources changed while' "$log" || fail 'it does not say that the sources changed'
[ ! -f "$identity" ] || fail 'an identity of other sources'

# Broken off: nothing runs on, and the next build is whole.
SLOW=vault sh "$top/tools/lib.sh" >"$log" 2>&1 &
job=$!
tries=0
until [ -s "$top/target/asleep" ]; do
    tries=$((tries + 1))
    [ "$tries" -lt 300 ] || fail 'it did not come to vault'
    sleep 0.1
done
asleep=$(cat "$top/target/asleep")
kill -s TERM "$job"
status=0
wait "$job" || status=$?
[ "$status" = 1 ] || fail "broken off, it ends with status $status"
[ ! -d "/proc/$asleep" ] || grep -q '^State:.Z' "/proc/$asleep/status" || fail 'broken off, it leaves a process behind'
[ ! -f "$identity" ] || fail 'broken off, it leaves an identity'
lib 0
[ -f "$identity" ] || fail 'no identity'
echo "install: make lib counts $all crates, shows what is not proved, and leaves nothing behind when it is broken off"
