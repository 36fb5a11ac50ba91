# For the tests of the compiled library in Rust, which read it in (". tests/with_library.sh") at the repository's top: the archive,
# a folder for what they write, and how they run a command.

library=${PAVILUKO_LIB:-target/staticlib}/libpaviluko.a
[ -f "$library" ] || { echo "$library is missing: build it first" >&2; exit 1; }
PAVILUKO_LIB=$(cd "$(dirname "$library")" && pwd)
export PAVILUKO_LIB

place=$(sh tools/scratch.sh)
trap 'rm -rf "$place"' EXIT
trap 'exit 1' INT TERM
log=$place/log

# Runs a command, whose output is shown only where it fails.
quietly() {
    "$@" >"$log" 2>&1 || { cat "$log" >&2; exit 1; }
}
