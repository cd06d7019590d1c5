#!/bin/sh
# Leaves eight hosts idle for SECONDS (five by default), every two of them connected over TCP, and prints the processor time of that and
# of the same run in which nobody waits: sh bench/idle.sh [SECONDS]
set -eu
cd "$(dirname "$0")/../crates/rds_bench_hosts"
[ -x out/rds_bench_hosts ] || rt run >/dev/null
for seconds in 0 "${1:-5}"; do
    python3 ../../bench/spent.py out/rds_bench_hosts idle "$seconds"
done
