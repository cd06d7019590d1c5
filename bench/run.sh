#!/bin/sh
# Runs `rds run`, in memory and over TCP, by turns with a program over libzmq that reads the same script, moves its datagrams between two
# threads and prints the same report, and prints the ratios of the medians: sh bench/run.sh [COUNT ..]. ROUNDS is the number of turns.
cd "$(dirname "$0")/.." || exit 2
. bench/program.sh
[ $# -gt 0 ] || set -- 10000 100000
folder=$(mktemp -d)
trap 'rm -rf "$folder"' EXIT
g++ -O2 -std=c++17 -o "$folder/zmq_script" bench/peers/zmq_script.cc -lzmq -lpthread || exit 1
for count in "$@"; do
    awk -v count="$count" 'BEGIN {
        print "hosts 2\nbind A 4000 16777216 16777216\nbind B 4001 16777216 16777216"
        for (i = 0; i < count / 2; i++) print "send A 4000 B 4001 f:60\nsend B 4001 A 4000 f:60"
        print "drain"
    }' > "$folder/script"
    python3 bench/turns.py "$count" "${ROUNDS:-7}" "$PROGRAM" "$folder/zmq_script" < "$folder/script" || exit 1
done
