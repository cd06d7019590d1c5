#!/bin/sh
# Lets calls of the system go wrong below `rds`, and says which answers were none that docs/COMMAND.md tells: peers that send garbage, zeros or
# nothing, that end or reset; openings and threads that are refused; reads and writes that fail or move one byte. No run may take longer than
# LIMIT seconds (120): sh bench/broken.sh. It needs a C compiler, and to be root for the runs of another user, who may start few threads.
set -eu
cd "$(dirname "$0")/.."
. bench/program.sh
room=$(mktemp -d)
trap 'rm -rf "$room"' EXIT
cc -O2 -shared -fPIC -o "$room/fault.so" bench/peers/fault.c -ldl
python3 bench/broken.py "$PROGRAM" "$room/fault.so"
