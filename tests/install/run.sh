#!/bin/sh
# What make lists; what the archives need from outside; what `make install` leaves: the list of files, a C program that knows them
# by pkg-config alone, the man page, and `make uninstall`. Then what `make lib` shows, and the build in a second folder, whose
# archive must be the same byte for byte. A line each.
# Run from the repository's top, while no rt runs in it; the library is built before.
set -eu

# Each make here is the first one, even where this test runs below make test.
unset MAKEFLAGS MFLAGS MAKELEVEL MAKEOVERRIDES

header=include/paviluko.h
page=docs/paviluko.3

sh tests/cipher/packages.sh gcc libc6-dev make pkgconf mandoc

place=$(sh tools/scratch.sh)
trap 'rm -rf "$place"' EXIT
trap 'exit 1' INT TERM
log=$place/log
prefix=$place/prefix

fail() {
    echo "$1" >&2
    exit 1
}

# Runs a command, whose output is shown only where it fails.
quietly() {
    "$@" >"$log" 2>&1 </dev/null || { cat "$log" >&2; exit 1; }
}

# ---- the list of commands ----

make >"$place/help"
for target in $(sed -n 's/^\.PHONY: //p' Makefile); do
    grep -q "^make $target  *[a-zA-Z]" "$place/help" || fail "make alone does not list make $target"
    [ "$target" = help ] || grep -q "make $target\b" README.md || fail "README.md does not name make $target"
done
echo "install: make alone lists $(wc -l <"$place/help") commands"

# ---- what the archives need from outside ----

# A host may have no C library (docs/DECISIONS.md): an archive may need these two names, and no other.
for archive in target/staticlib/lib*.a; do
    nm -u "$archive" | sed -n 's/^ *U //p' | sort -u >"$place/names"
    [ -s "$place/names" ] || fail "nm shows no name that $archive needs: it is not read as it was"
    other=$(grep -vx 'memcpy\|memset' "$place/names" | tr '\n' ' ') || true
    [ -z "$other" ] || fail "$archive needs another name from outside: $other"
done
echo "install: $(ls target/staticlib/lib*.a | wc -l) archives need memcpy and memset from outside, and no other name"

# ---- the files ----

firmware=
[ ! -f examples/firmware.c ] || firmware=share/doc/paviluko/examples/firmware.c

quietly make install PREFIX="$prefix"
(cd "$prefix" && find . ! -type d) | LC_ALL=C sort >"$place/list"
for file in include/paviluko.h lib/libpaviluko.a lib/libpaviluko.txt lib/pkgconfig/paviluko.pc $firmware share/man/man3/paviluko.3; do
    echo "./$file"
done | diff - "$place/list" >&2 || fail 'other files are installed than expected'
for file in include/paviluko.h share/man/man3/paviluko.3; do
    [ "$(stat -c %a "$prefix/$file")" = 644 ] || fail "$file is not for everybody to read"
done
cmp target/staticlib/libpaviluko.a "$prefix/lib/libpaviluko.a"

# For a package: the files in DESTDIR, written for PREFIX.
quietly make install PREFIX=/opt/paviluko DESTDIR="$place/package"
(cd "$place/package/opt/paviluko" && find . ! -type d) | LC_ALL=C sort | diff "$place/list" - >&2 || fail 'other files in DESTDIR'
grep -qx 'prefix=/opt/paviluko' "$place/package/opt/paviluko/lib/pkgconfig/paviluko.pc" || fail 'DESTDIR is in paviluko.pc'
quietly make uninstall PREFIX=/opt/paviluko DESTDIR="$place/package"
[ -z "$(find "$place/package" ! -type d)" ] || fail 'files are left in DESTDIR'
! make install PREFIX=below/here >"$log" 2>&1 || fail 'a PREFIX that is no whole path is taken'
echo "install: $(wc -l <"$place/list") files, below PREFIX and below DESTDIR"

# ---- a C program ----

edition=$(sed -n 's/^#define PAVILUKO_EDITION //p' "$header")
PKG_CONFIG_PATH=$prefix/lib/pkgconfig
export PKG_CONFIG_PATH
[ "$(pkg-config --modversion paviluko)" = "0.$edition" ] || fail "pkg-config has another version than 0.$edition"

# Compiles a program with what pkg-config says and nothing else, and runs it.
program() { # NAME SOURCE
    # shellcheck disable=SC2046 # a list of words
    (cd "$place" && quietly gcc -Wall -Wextra -Werror -o "$1" "$2" $(pkg-config --cflags --libs paviluko) && quietly "./$1")
}

sed -n '/^\.EX$/,/^\.EE$/p' "$page" | sed -e '1d' -e '$d' -e 's/\\e/\\/g' >"$place/example.c"
program example example.c
echo "edition $edition, number 0, 15 calls" | diff - "$log" >&2 || fail "the man page's example prints something else"
echo "install: the man page's example, by pkg-config: $(cat "$log")"
if [ -n "$firmware" ]; then
    program firmware "$prefix/$firmware"
    echo 'install: examples/firmware.c, by pkg-config'
fi

# ---- the man page ----

mandoc -Tlint -W warning "$page" >"$log" || true
[ ! -s "$log" ] || { cat "$log" >&2; fail "mandoc has something to say of $page"; }
functions=0
# Two functions are the header's own.
for name in $(grep -o 'paviluko_[a-z_]*(' "$header" | sort -u | grep -vx 'paviluko_some(\|paviluko_len('); do
    grep -qF " $name" "$page" || fail "$page has no $name)"
    functions=$((functions + 1))
done
constants=0
for name in $(grep -o 'PAVILUKO_\(TAKEN\|REFUSED_[A-Z_]*\|STORE_[A-Z_]*\) = [0-9]*' "$header" | sed 's/\(.*\) = \(.*\)/\2_\1/'); do
    grep -qw "${name%%_*} ${name#*_}" "$page" || fail "$page has no ${name#*_} with the number ${name%%_*}"
    constants=$((constants + 1))
done
[ "$functions" -ge 30 ] && [ "$constants" -ge 31 ] || fail "$header: $functions functions and $constants constants found, too few"
echo "install: the man page has $functions functions and $constants numbers of the header"

quietly make uninstall PREFIX="$prefix"
[ -z "$(find "$prefix" ! -type d)" ] || fail 'make uninstall leaves files'
echo 'install: nothing is left after make uninstall'

# ---- make lib, and the second folder ----

sh tests/install/progress.sh
sh tools/reproduce.sh --proved
