#!/bin/sh
# Times `rds run` of scripts with two, four and eight hosts, each of which sends to the next one in a circle: sh bench/hosts.sh [COUNT ..]
cd "$(dirname "$0")/.." || exit 2
. bench/program.sh
[ $# -gt 0 ] || set -- 1000 10000 100000
folder=$(mktemp -d)
trap 'rm -rf "$folder"' EXIT
for count in "$@"; do
    for hosts in 2 4 8; do
        awk -v count="$count" -v hosts="$hosts" 'BEGIN {
            print "hosts " hosts
            for (h = 0; h < hosts; h++) print "bind " substr("ABCDEFGH", h + 1, 1) " 4000 16777216 16777216"
            for (i = 0; i < count; i++) {
                h = i % hosts
                print "send " substr("ABCDEFGH", h + 1, 1) " 4000 " substr("ABCDEFGH", (h + 1) % hosts + 1, 1) " 4000 f:60"
            }
        }' > "$folder/script"
        printf '%s hosts, ' "$hosts"
        python3 bench/timed.py "$count" "$PROGRAM" run < "$folder/script"
    done
done
