#!/bin/sh
# Builds the program heatsplit, target/bin/heatsplit, where it is missing or a source of it is newer: rt proves it and what it stands
# on, links it and runs it on the crate's own tables (rt run), which have to give the lines that are stored beside them. What rt says
# is shown where it fails.
set -eu
cd "$(dirname "$0")/.."

program=target/bin/heatsplit
crate=crates/heatsplit

# Whether it is there, and no source of it is newer.
is_new() {
    [ -x "$program" ] || return 1
    crates=$(sh tools/crates.sh heatsplit) || return 1
    folders=
    for each in $crates; do
        for part in src specs proofs; do
            [ ! -d "crates/$each/$part" ] || folders="$folders crates/$each/$part"
        done
    done
    # shellcheck disable=SC2086 # a list of folders
    [ -z "$(find crates.txt $folders -newer "$program")" ]
}

! is_new || exit 0
if ! command -v rt >/dev/null 2>&1; then
    echo "$program is not up to date, and rt is not on the PATH: install the Rattle kit" >&2
    exit 1
fi
echo 'proving and building the program heatsplit'
scratch=$(sh tools/scratch.sh)
trap 'rm -rf "$scratch"' EXIT
trap 'exit 1' HUP INT PIPE TERM
fail() {
    cat "$scratch/said" >&2
    echo "heatsplit is not built: $1" >&2
    exit 1
}
input=$(pwd)/$crate/stdin
(cd "$crate" && TMPDIR=$scratch rt run <"$input") >"$scratch/lines" 2>"$scratch/said" || fail 'it is not proved, or did not run'
cmp "$scratch/lines" "$crate/stdout" >>"$scratch/said" 2>&1 || fail 'it prints other lines than crates/heatsplit/stdout has'
[ -x "$crate/out/heatsplit" ] || fail "rt run left no $crate/out/heatsplit"
install -D -m 755 "$crate/out/heatsplit" "$program.new"
mv "$program.new" "$program"
