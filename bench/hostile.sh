#!/bin/sh
# Gives `rds` words, scripts, sources and sinks that it has to refuse, and too little of what it needs, and says which answers were not the
# ones that docs/COMMAND.md and docs/SCRIPT.md tell: sh bench/hostile.sh
cd "$(dirname "$0")/.." || exit 2
. bench/program.sh
exec python3 bench/hostile.py "$PROGRAM"
