#!/bin/sh
# Sends N messages (50,000) between eight hosts by `rds run --wire tcp`, with cuts at random places, while packets are delayed and lost and
# sockets are closed from outside, and compares chains of hashes over what each port pair sent and received:
# sh bench/selftest.sh [N [SEED ..]]. It prints a line a seed (1 to 10), and ends with 1 where one is wrong. It needs unshare, and uses tc and ss.
cd "$(dirname "$0")/.." || exit 2
. bench/program.sh
if [ -z "$INSIDE" ] && unshare -rn true 2> /dev/null; then
    exec env INSIDE=1 RDS="$PROGRAM" unshare -rn sh bench/selftest.sh "$@"
fi
if [ -n "$INSIDE" ]; then
    ip link set lo up
    tc qdisc add dev lo root netem delay 1ms 1ms loss 0.5% 2> /dev/null || echo "no netem on this machine: no packet is delayed or lost"
else
    echo "no network of its own on this machine: nothing is delayed, lost or closed"
fi
exec python3 bench/selftest.py "$PROGRAM" "$@"
