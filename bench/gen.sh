#!/bin/sh
# Times `rds gen N SEED` as a whole process, beside the same sends over libzmq and ENet where those are installed: sh bench/gen.sh [N ..]
cd "$(dirname "$0")/.." || exit 2
. bench/program.sh
SEED=${SEED:-7}
[ $# -gt 0 ] || set -- 1000 10000 100000
PEERS=$(mktemp -d)
trap 'rm -rf "$PEERS"' EXIT
[ -f /usr/include/zmq.h ] && g++ -O2 -o "$PEERS/zmq" bench/peers/zmq_gen.cc -lzmq -lpthread
[ -f /usr/include/enet/enet.h ] && g++ -O2 -o "$PEERS/enet" bench/peers/enet_gen.cc -lenet -lpthread
for count in "$@"; do
    python3 bench/timed.py "$count" "$PROGRAM" gen "$count" "$SEED" < /dev/null
    [ -x "$PEERS/zmq" ] && "$PEERS/zmq" "$count" "$SEED" inproc && "$PEERS/zmq" "$count" "$SEED" tcp
    [ -x "$PEERS/enet" ] && "$PEERS/enet" "$count" "$SEED"
done
exit 0
