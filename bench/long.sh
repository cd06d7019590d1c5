#!/bin/sh
# Runs `rds run --wire tcp` on scripts of three sizes again and again, for MINUTES (10) in all, and says whether later runs took more memory than the
# first ones; then it has one run of each kind under valgrind: sh bench/long.sh [MINUTES]. It needs valgrind. A process ends with its script, so what
# is watched is a run of 20,000 to 120,000 sends at a time, and what many runs leave behind on the machine.
cd "$(dirname "$0")/.." || exit 2
. bench/program.sh
exec python3 bench/long.py "$PROGRAM" "${1:-10}"
