#!/bin/sh
# Makes a folder for temporary files and prints its name; whoever asked for it removes it. It is in memory where there is
# room: tests and checks make thousands of small files and remove them again. Anybody may pass through the folder, since rt
# runs programs as nobody.
set -eu

place=${TMPDIR:-/tmp}
memory=/dev/shm
if [ -d "$memory" ] && [ -w "$memory" ] && [ "$(df -Pk "$memory" | awk 'NR == 2 { print $4 }')" -ge 4000000 ]; then
    place=$memory
fi
made=$(mktemp -d "$place/paviluko.XXXXXX")
chmod 711 "$made"
echo "$made"
