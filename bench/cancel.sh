#!/bin/sh
# Times `rds play` of COUNT sends of one socket and then as many cancellations by another, which cover none of them, and prints how the
# time grows: sh bench/cancel.sh [COUNT ..]. ROUNDS is the number of turns.
cd "$(dirname "$0")/.." || exit 2
. bench/program.sh
[ $# -gt 0 ] || set -- 4000 16000
folder=$(mktemp -d)
trap 'rm -rf "$folder"' EXIT
for count in "$@"; do
    awk -v count="$count" 'BEGIN {
        print "hosts 2\nbind A 4000 16777216 16777216\nbind A 4001 16777216 16777216"
        for (i = 0; i < count; i++) print "send A 4000 B 4000 f:10"
        for (i = 0; i < count; i++) print "cancel A 4001 B 4000"
    }' > "$folder/$count"
done
for count in "$@"; do set -- "$@" "$folder/$count"; shift; done
python3 bench/growth.py "${ROUNDS:-5}" "$PROGRAM" "$@"
