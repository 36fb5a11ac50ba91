#!/bin/sh
# Builds a static library of crates/ (rt lib, over what earlier checks kept) and puts it where C programs link it from,
# target/staticlib/libNAME.a. What rt said is left in target/log/NAME; its last line, the verdict on the library, is printed. Where it
# fails, all of it is shown, and there is no archive.
# sh tools/archive.sh NAME
set -eu
cd "$(dirname "$0")/.."

name=${1:?'the name of a static library is missing'}
made=crates/$name/out/lib$name.a
archive=target/staticlib/lib$name.a
log=target/log/$name

mkdir -p target/staticlib target/log
rm -f "$made" "$archive" "$log"
(cd "crates/$name" && exec rt lib) >"$log" 2>&1 || { cat "$log" >&2; exit 1; }
verdict=$(tail -n 1 "$log")
case $verdict in
'logic=proved functions='*' target='*) ;;
*)
    cat "$log" >&2
    echo "rt lib of $name ended with no verdict on what it linked" >&2
    exit 1
    ;;
esac
[ -f "$made" ] || { echo "rt lib of $name left no $made" >&2; exit 1; }
# In two steps, so that no half of it is ever there under its name.
cp "$made" "$archive.new"
mv "$archive.new" "$archive"
echo "$archive: $verdict"
