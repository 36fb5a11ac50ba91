#!/bin/sh
# Puts what a C program needs below a prefix: the header, the archive with its identity, the pkg-config file and the man page; and
# the example host among the documents. With --remove it takes them away again, and the folders that were only theirs.
# sh tools/install.sh [--remove] PREFIX [DESTDIR]; the files go to DESTDIR/PREFIX and are written for PREFIX.
set -eu
cd "$(dirname "$0")/.."

remove=
[ "${1:-}" != --remove ] || { remove=yes; shift; }
prefix=${1:?'the prefix is missing'}
root=${2:-}$prefix
case $prefix in
*[!A-Za-z0-9/._~+@,=-]* | [!/]*)
    echo "PREFIX is a path from / on, of letters, digits and /._~+@,=-, and not: $prefix" >&2
    exit 1
    ;;
esac

# What is installed, a line each: the file below the prefix, and where it is from.
files() {
    echo 'include/paviluko.h include/paviluko.h'
    echo 'lib/libpaviluko.a target/staticlib/libpaviluko.a'
    echo 'lib/libpaviluko.txt target/staticlib/libpaviluko.txt'
    echo 'share/man/man3/paviluko.3 docs/paviluko.3'
    [ ! -f examples/firmware.c ] || echo 'share/doc/paviluko/examples/firmware.c examples/firmware.c'
}

if [ -n "$remove" ]; then
    files | while read -r file from; do rm -f "$root/$file"; done
    rm -f "$root/lib/pkgconfig/paviluko.pc" "$root/share/doc/paviluko/examples/firmware.c"
    for folder in share/doc/paviluko/examples share/doc/paviluko; do
        [ ! -d "$root/$folder" ] || rmdir "$root/$folder" 2>/dev/null || true
    done
    echo "removed from $root"
    exit 0
fi

edition=$(sed -n 's/^edition //p' target/staticlib/libpaviluko.txt)
files | while read -r file from; do install -D -m 644 "$from" "$root/$file"; done
install -d "$root/lib/pkgconfig"
sed -e "s|@PREFIX@|$prefix|" -e "s|@EDITION@|$edition|" tools/paviluko.pc.in >"$root/lib/pkgconfig/paviluko.pc"
chmod 644 "$root/lib/pkgconfig/paviluko.pc"
echo "installed below $root: paviluko.h, libpaviluko.a, paviluko.pc and paviluko(3)"
