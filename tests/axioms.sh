#!/bin/sh
# What the proofs take for granted, by the checker's own count. It counts where code is linked, over everything that is reached: on the last line
# of an archive's or a program's check stands axioms=, how many contracts of C functions, which nothing proves, it rests on; where there is none
# the word is left out. An archive must rest on none. A line for all, and with --each a line for each of them.
# A crate that states an axiom, or declares a C function, of its own is refused by rt.
#
# An archive's line is in target/log, where tools/archive.sh leaves it. A program's is in what rt ci printed, the file behind --ci, if it was
# proved then; where rt ci took it over from an earlier run, or there is no such file, rt check gives it.
# Run from the repository's top, behind tools/archive.sh of the archives named: sh tests/axioms.sh [--each] [--ci FILE] ARCHIVE..
set -eu

each=
said=/dev/null
while :; do
    case ${1:-} in
    --each) each=yes; shift ;;
    --ci) said=$2; shift 2 ;;
    *) break ;;
    esac
done

# The last line of a check of what is linked, and not of a library or of tests.
verdict_in() { # FILE
    grep -h '^logic=proved functions=.* target=' "$1" | tail -n 1
}

# What rt ci printed of a crate, without what it printed of its tests.
ci_of() { # NAME
    awk -v head="== $1" '/^== / || /^rt: / { on = 0 } $0 == head { on = 1; next } on' "$said"
}

# How many axioms such a line tells of.
count() { # NAME LINE
    [ -n "$2" ] || { echo "no verdict of a linked $1" >&2; exit 1; }
    n=$(echo "$2" | sed -n 's/.* axioms=\([0-9]*\) .*/\1/p')
    echo "${n:-0}"
}

place=$(sh tools/scratch.sh)
trap 'rm -rf "$place"' EXIT
trap 'exit 1' HUP INT TERM

archives=
for name in "$@"; do
    log=target/log/$name
    [ -f "$log" ] || { echo "$log is missing: build the archive first" >&2; exit 1; }
    n=$(count "$name" "$(verdict_in "$log")")
    [ "$n" = 0 ] || { echo "the archive $name rests on $n axioms" >&2; exit 1; }
    archives="$archives, $name"
    [ -z "$each" ] || echo "archive $name: $n"
done
programs=
for name in $(sed -n 's/^\([a-z0-9_]*\)[^#]*:.*/\1/p' crates.txt); do
    [ -f "crates/$name/src/main.rt" ] || continue
    ci_of "$name" >"$place/said"
    verdict=$(verdict_in "$place/said" || true)
    if [ -z "$verdict" ]; then
        (cd "crates/$name" && rt check) >"$place/said" 2>&1 || { cat "$place/said" >&2; exit 1; }
        verdict=$(verdict_in "$place/said" || true)
    fi
    n=$(count "$name" "$verdict")
    programs="$programs, $name $n"
    [ -z "$each" ] || echo "program $name: $n"
done
echo "axioms: none in the archives${archives#,}; in programs, for C calls for files and streams:${programs#,}"
