#!/bin/sh
# Prints the crates that a crate stands on by crates.txt, directly or through others, and the crate itself: a line each, every crate
# behind those that it stands on. Libraries of the kit are left out.
# sh tools/crates.sh NAME
set -eu
cd "$(dirname "$0")/.."

NAME=$1 awk '
    function visit(name,    all, count, i) {
        if (name in seen || !(name in deps)) return
        seen[name] = 1
        count = split(deps[name], all, " ")
        for (i = 1; i <= count; i++) visit(all[i])
        print name
    }
    { sub(/#.*/, "") }
    # Behind the name may stand what kind of crate it is.
    /:/ { name = $1; sub(/:.*/, "", name); sub(/^[^:]*:/, ""); deps[name] = $0 }
    END {
        if (!(ENVIRON["NAME"] in deps)) { print "crates.txt does not list " ENVIRON["NAME"] > "/dev/stderr"; exit 1 }
        visit(ENVIRON["NAME"])
    }' crates.txt
