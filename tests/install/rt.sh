#!/bin/sh
# Stands for rt in a test of tools/lib.sh: it proves nothing, and leaves in a crate's out/, prints and ends as rt does. The crates in
# OLD are proved already, the one in BAD is not proved, of the one in MUTE it prints no verdict, and at the one in SLOW it sleeps, in
# a process of its own. A file in EDITED is edited meanwhile.
set -eu

command=$1
shift
case $command in
version)
    echo 'no kit'
    ;;
lib)
    # In the crate's folder, as rt wants it.
    crate=$(basename "$(pwd)")
    top=../..
    [ "$(basename "$(dirname "$(pwd)")")" = crates ] && [ -f "$top/crates.txt" ] && [ -d src ] || { echo 'rt: no crate is here' >&2; exit 2; }
    kind=
    ! grep -q "^$crate staticlib:" "$top/crates.txt" || kind=archive
    if [ -z "$kind" ]; then
        case " ${OLD:-} " in
        *" $crate "*) exit 0 ;;
        esac
    fi
    for below in $(sh "$top/tools/crates.sh" "$crate" | grep -vx "$crate"); do
        [ -f "$top/crates/$below/out/rlib/stamp" ] ||
            { echo "rt: the library $below did not build, so nothing above it was checked" >&2; exit 1; }
    done
    mkdir -p out
    echo "rt: chose --jobs 2 for $crate"
    echo "what the prover says of $crate"
    if [ "$crate" = "${SLOW:-}" ]; then
        sleep 3600 &
        echo $! >"$top/target/asleep"
        wait
    fi
    sum='sum=0 native=nat,char,string logic-built=trusted libraries-built=trusted statements=trusted incremental=trusted'
    if [ -n "$kind" ]; then
        [ -z "${EDITED:-}" ] || echo '-- more' >>"$top/$EDITED"
        [ "${BAD:-}" != "$crate" ] || { echo 'the archive is not made'; exit 1; }
        echo 'an archive' >"out/lib$crate.a"
        [ "${MUTE:-}" = "$crate" ] || echo "logic=proved functions=1 target=x86_64-unknown-linux-gnu cpu=x86-64-v2 $sum"
    else
        rm -rf out/rlib
        [ "${BAD:-}" != "$crate" ] || { echo 'logic=not-proved functions=0 of 1'; exit 1; }
        mkdir -p "out/rlib/$crate.rlib"
        echo 'a stamp' >out/rlib/stamp
        echo "logic=proved functions=1 $sum"
    fi
    ;;
*)
    echo "rt: this stands for rt version and rt lib alone, and not for rt $command" >&2
    exit 2
    ;;
esac
