#!/bin/sh
# Refuses each allocation in turn, and ends at the first wrong answer: sh bench/refuse.sh
#
# First of calls, one after another (crates/rds_test_hostile): one that answers that memory ran out is made once more, and what came of it in the end
# has to be what comes where nothing is refused. The line of a call tells how many of its growths were refused so. A growth that asks for more room
# than is needed, and is refused, may be followed by one that asks for less, so each is also refused together with the next one.
#
# Then of programs. A whole exchange of two lines has to write its one line, or to end with status 6 where it had no memory to begin with. The
# program `rds` has to write its whole text, or nothing, with status 6: it plays one example, and runs two. Over TCP it may also end with status
# 5, where a thread is refused, which doesn't tell why.
set -eu
cd "$(dirname "$0")/.."
. bench/program.sh
HOSTILE=crates/rds_test_hostile/out/rds_test_hostile
[ -x "$HOSTILE" ] || (cd crates/rds_test_hostile && rt run >/dev/null)
room=$(mktemp -d)
trap 'rm -rf "$room"' EXIT
cc -O2 -shared -fPIC -o "$room/refuse.so" bench/peers/refuse.c -ldl
refused=0 more=0

# The arguments are a file for standard input, and a program with its words.
refuse_each() {
    input=$1
    shift
    REFUSE_COUNT="$room/count" LD_PRELOAD="$room/refuse.so" "$@" <"$input" >"$room/text"
    count=$(od -An -tu8 "$room/count" | tr -d ' ')
    whole=0 again=0 none=0 faults=0
    for at in $(seq 1 "$count"); do
        status=0
        REFUSE=$at REFUSE_MORE=$more LD_PRELOAD="$room/refuse.so" "$@" <"$input" >"$room/line" || status=$?
        case $status in
        0) whole=$((whole + 1)) ;;
        10) again=$((again + 1)) ;;
        5) [ "${*#*tcp}" != "$*" ] && faults=$((faults + 1)) || wrong "$at" "$@" ;;
        6) [ ! -s "$room/line" ] && none=$((none + 1)) || wrong "$at" "$@" ;;
        *) wrong "$at" "$@" ;;
        esac
        case $status in 0 | 10) cmp "$room/text" "$room/line" || wrong "$at" "$@" ;; esac
    done
    refused=$((refused + count))
}

# The arguments are the number of an allocation, and the program with its words.
wrong() {
    at=$1
    shift
    echo "wrong: $*: allocation $at: status $status"
    exit 1
}

for call in $("$HOSTILE" growths | sed 's/:.*//'); do
    more=0
    refuse_each /dev/null "$HOSTILE" growths "$call"
    alone=$again
    more=1
    refuse_each /dev/null "$HOSTILE" growths "$call"
    echo "$call: $alone growths refused alone, $again with the next one"
done

tell_each() {
    refuse_each "$@"
    shift 2
    echo "$count allocations refused in turn${1+ ($*)}: $whole texts were whole, $none runs had no memory, $faults no thread"
}

more=0
tell_each /dev/null "$HOSTILE" exchange
tell_each examples/retransmission.rds "$PROGRAM" play
tell_each examples/three_hosts.rds "$PROGRAM" run
tell_each examples/hello.rds "$PROGRAM" run --wire tcp
echo "$refused allocations refused in turn, no answer wrong"
