#!/bin/sh
# Builds the proved library, target/staticlib/libpaviluko.a, where it is missing or was not made from these sources by this kit.
# It ends with the library's identity: edition, hash of the sources, hash of the archive, kit. The same lines are beside the
# archive in libpaviluko.txt; an archive that does not fit them (of a build that was broken off, say) is built anew.
#
# Every proof is checked once, a crate behind those that it stands on, with as many processes as rt chooses. A line is printed for
# each crate that ends, and none for one that was proved before; a terminal also shows what is being proved now. Where a crate is not
# proved, those that do not stand on it are still tried, what rt said of it is shown, and the exit status is 1.
# What rt said of each crate is left in target/log/NAME.
#
# With --brief, an archive that is up to date is passed over without a word.
set -eu
cd "$(dirname "$0")/.."

archive=target/staticlib/libpaviluko.a
identity=target/staticlib/libpaviluko.txt

fail() {
    echo "$1" >&2
    exit 1
}

# The identity, with the hash of the sources as they are now.
describe() { # KIT
    edition=$(sed -n 's/^#define PAVILUKO_EDITION \([0-9]*\)$/\1/p' include/paviluko.h)
    sources=$(sh tools/sources.sh)
    archived=$(sha256sum "$archive")
    [ -n "$edition" ] || fail 'include/paviluko.h has no PAVILUKO_EDITION'
    printf 'edition %s\nsources %s\narchive %s\nkit %s\n' "$edition" "$sources" "${archived%% *}" "$1"
}

# ---- is there anything to do ----

if command -v rt >/dev/null 2>&1; then
    kit=$(rt version)
else
    [ -f "$identity" ] || fail 'rt is not on the PATH: install the Rattle kit'
    kit=$(sed -n 's/^kit //p' "$identity")
fi
if [ -f "$archive" ] && [ -f "$identity" ] && [ "$(describe "$kit")" = "$(cat "$identity")" ]; then
    [ "${1:-}" != --brief ] || exit 0
    echo "$archive is up to date"
    cat "$identity"
    exit 0
fi
command -v rt >/dev/null 2>&1 || fail 'the library is not up to date, and rt is not on the PATH: install the Rattle kit'

# ---- rt beside us, and how far it is ----

scratch=$(sh tools/scratch.sh)
job=
said=$scratch/said
began=$(date +%s)

# rt has a process group of its own, which a signal to this script does not reach.
clean() {
    if [ -n "$job" ]; then
        kill -s TERM -- "-$job" 2>/dev/null || true
        tries=0
        while [ "$tries" -lt 50 ] && kill -s 0 -- "-$job" 2>/dev/null; do
            sleep 0.1
            tries=$((tries + 1))
        done
    fi
    rm -rf "$scratch"
}
trap clean EXIT
trap 'exit 1' HUP INT PIPE TERM

# What stands in the terminal's last line, where there is a terminal.
moving() {
    [ ! -t 1 ] || printf '\r\033[K%s' "$1"
}

line() {
    moving ''
    echo "$1"
}

# Runs a script that calls rt, and shows in the meantime how far it is. The status is rt's.
run_rt() { # DOING WORDS..
    doing=$1
    shift
    : >"$said"
    TMPDIR=$scratch setsid "$@" >"$said" 2>&1 &
    job=$!
    while kill -0 "$job" 2>/dev/null; do
        ! is_proving || announce
        moving "$(printf '[%2d of %d] %s  %s' "$ended" "$all" "$(elapsed)" "$doing")"
        sleep 0.1
    done
    status=0
    wait "$job" || status=$?
    job=
    ! is_proving || announce
    moving ''
    return "$status"
}

# Whether rt began a check, by the lines that it prints then: of a crate that was proved before, here or in another copy on this
# machine, it has nothing to say.
is_proving() {
    grep -q '^rt: chose --jobs \|^logic' "$said"
}

crates=$(sh tools/crates.sh paviluko)
all=$(echo "$crates" | wc -l)
below=$(echo "$crates" | grep -vx paviluko)
ended=0
announced=
failed=

announce() {
    [ -z "$announced" ] || return 0
    announced=yes
    line "checking the proofs of the library's $all crates: some five to ten minutes where none is proved yet"
}

# A crate has ended: counts it, and prints its line unless it had been proved before.
end() { # NAME WORDS
    ended=$((ended + 1))
    [ -z "$2" ] || line "$(printf '[%2d of %d] %s: %s' "$ended" "$all" "$1" "$2")"
}

elapsed() {
    took=$(($(date +%s) - began))
    printf '%d:%02d' $((took / 60)) $((took % 60))
}

# The first crate below this one that is not proved.
lacks() { # NAME
    [ -n "$failed" ] || return 0
    for each in $(sh tools/crates.sh "$1"); do
        case " $failed " in
        *" $each "*) echo "$each"; return ;;
        esac
    done
}

# ---- the proofs of the crates below, then the archive ----

before=$(sh tools/sources.sh)
mkdir -p target/staticlib target/log
rm -f "$identity"

for crate in $below; do
    rm -f "target/log/$crate"
    lacking=$(lacks "$crate")
    if [ -n "$lacking" ]; then
        end "$crate" "not tried, for $lacking is not proved"
        continue
    fi
    start=$(date +%s)
    # shellcheck disable=SC2016 # for the other shell
    if run_rt "proving $crate" sh -c 'cd "crates/$1" && exec rt lib' sh "$crate"; then
        words=
        ! is_proving || words="proved in $(($(date +%s) - start)) s"
        end "$crate" "$words"
    else
        failed="$failed $crate"
        cat "$said" >>"$scratch/shown"
        end "$crate" 'NOT PROVED'
    fi
    cp "$said" "target/log/$crate"
done
[ -z "$failed" ] || { cat "$scratch/shown" >&2; fail 'the library is not built: a proof failed'; }
start=$(date +%s)
run_rt 'proving paviluko and compiling the library' sh tools/archive.sh paviluko ||
    { cat "$said" >&2; fail 'the library is not built: paviluko is not proved, or was not compiled'; }
end paviluko "proved and compiled in $(($(date +%s) - start)) s"

# ---- its identity ----

describe "$kit" >"$scratch/identity"
grep -qx "sources $before" "$scratch/identity" || fail 'the sources changed while the library was built: build it again'
cp "$scratch/identity" "$identity"
# Newer than a program that was linked with it before these lines were there: cargo then builds it again.
touch "$archive"
echo "$archive, after $(elapsed) minutes:"
cat "$identity"
