#!/usr/bin/env bash
# Builds what is measured, and measures it: the cipher beside other libraries, what seals beside the cipher, and the library
# as firmware calls it.
set -euo pipefail
cd "$(dirname "$0")/.."

sh tools/archive.sh test_cipher
sh tools/archive.sh test_sealed
sh tools/lib.sh
sh bench/run.sh
