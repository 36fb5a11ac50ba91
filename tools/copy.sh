#!/bin/sh
# Copies what the library is built from, and what builds it, into a folder: the crates without their out/, crates.txt, include/ and
# tools/.
# sh tools/copy.sh FOLDER
set -eu
cd "$(dirname "$0")/.."

to=${1:?'the folder is missing'}
mkdir -p "$to"
tar -cf - --no-wildcards-match-slash --exclude='crates/*/out' crates crates.txt include tools | tar -xf - -C "$to"
