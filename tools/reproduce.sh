#!/bin/sh
# Builds the library a second time, in another folder, and compares the two archives byte for byte. It begins from nothing: every
# proof is checked again, some five to ten minutes. With --proved the other folder takes over the crates that are proved here, and only
# the archive is made anew.
# No library of a proved crate has this folder's path in it, so the second build uses the same bytes either way; that is looked at too.
#
# rt takes over what its checks kept in other copies on this machine, where it finds a note of it beside the kit. Root's notes are
# for root alone, so root has the second build done as nobody; where rt finds some all the same, this fails.
set -eu
cd "$(dirname "$0")/.."

fail() {
    echo "$1" >&2
    exit 1
}

sh tools/lib.sh --brief

here=$(pwd -P)
# Not in memory, unless TMPDIR is: a build from nothing leaves some gigabyte in out/
place=$(mktemp -d "${TMPDIR:-/tmp}/paviluko.XXXXXX")
chmod 711 "$place"
trap 'rm -rf "$place"' EXIT
trap 'exit 1' HUP INT PIPE TERM
there=$place/second
[ "${#there}" != "${#here}" ] || there=$there-folder

sh tools/copy.sh "$there"
if [ "${1:-}" = --proved ]; then
    for crate in $(sh tools/crates.sh paviluko | grep -vx paviluko); do
        mkdir "$there/crates/$crate/out"
        cp -R "crates/$crate/out/rlib" "$there/crates/$crate/out"
    done
    sh "$there/tools/lib.sh" >"$place/log" 2>&1 || { cat "$place/log" >&2; fail 'the library is not built in the other folder'; }
else
    echo "building from nothing in $there"
    as=
    if [ "$(id -u)" = 0 ]; then
        as='setpriv --reuid=65534 --regid=65534 --clear-groups'
        chown -R 65534:65534 "$place"
    fi
    # shellcheck disable=SC2086 # a command with options, or nothing
    TMPDIR=$place $as sh "$there/tools/lib.sh" || fail 'the library is not built in the other folder'
    for crate in $(sh tools/crates.sh paviluko); do
        grep -q '^logic=proved ' "$there/target/log/$crate" || fail "the other folder took $crate over, and did not prove it"
        ! grep 'begins with what a check kept in' "$there/target/log/$crate" >&2 || fail "the other folder did not prove $crate from nothing"
    done
fi

archive=target/staticlib/libpaviluko.a
cmp "$archive" "$there/$archive" >&2 || fail 'the archives are not the same'
diff target/staticlib/libpaviluko.txt "$there/target/staticlib/libpaviluko.txt" >&2 || fail 'the identities are not the same'
echo "two folders: the archives are the same, $(wc -c <"$archive") bytes, $(sed -n 's/^archive //p' target/staticlib/libpaviluko.txt)"
for crate in $(sh tools/crates.sh paviluko | grep -vx paviluko); do
    for rlib in "crates/$crate/out/rlib" "$there/crates/$crate/out/rlib"; do
        [ -d "$rlib/$crate.rlib" ] || fail "$rlib has no library of $crate"
        ! grep -rlF -e "$here" -e "$there" "$rlib" >&2 || fail 'these files have a path of the folder that they were made in'
    done
done
! grep -lF -e "$here" -e "$there" "$archive" "$there/$archive" >&2 || fail 'these archives have a path of the folder that they were made in'
echo 'two folders: no path of either in the archive or in the libraries of the proved crates'
