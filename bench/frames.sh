#!/bin/sh
# Hands N frames (1,000,000) by a seed (7), lawful and damaged ones, to a splitter and a connection, and compares each answer with that of a plain
# reader of the format: sh bench/frames.sh [N [SEED ..]]. It prints a line a seed, and ends with 1 where a stream was answered otherwise.
cd "$(dirname "$0")/.." || exit 2
HOSTILE=crates/rds_test_hostile/out/rds_test_hostile
[ -x "$HOSTILE" ] || (cd crates/rds_test_hostile && rt run > /dev/null) || exit 1
count=${1:-1000000}
[ $# -gt 0 ] && shift
status=0
for seed in "${@:-7}"; do
    "$HOSTILE" frames "$seed" "$count" || status=1
done
exit $status
