#!/bin/sh
# Measures one part of the library: sh bench/component.sh BENCHMARK [COUNT [MORE ..]]. bench/README.md has the benchmarks and their words.
set -eu
cd "$(dirname "$0")/../crates"

# Calls a benchmark: the end of its program's name, its own name, and its words.
call() {
    program=rds_bench_$1
    shift
    [ -x "$program/out/$program" ] || (cd "$program" && rt run > /dev/null)
    "$program/out/$program" "$@"
}

# Calls a benchmark three times.
thrice() {
    for _ in 1 2 3; do
        call "$@"
    done
}

# Two lines, and two connections without lines that move as many of the same lengths.
lines() {
    for _ in 1 2 3; do
        call hosts line "$1"
        for length in 8 60 1024; do
            call program conn "$1" 64 "$length"
            call program conn "$1" 1 "$length"
        done
    done
}

# How many calls of the allocator 10,000 rounds of a kind make: the difference between two runs.
allocations() {
    for rounds in 20000 10000; do
        valgrind rds_bench_hosts/out/rds_bench_hosts socket "$rounds" "$1" 2>&1 |
            sed -n 's/.*total heap usage: \([0-9,]*\) allocs.*/\1/p' | tr -d ,
    done | { read -r more && read -r few && echo "$1: $((more - few)) allocations in 10000 rounds"; }
}

benchmark=${1:-}
[ $# -eq 0 ] || shift
case $benchmark in
frame) call bytes frame "${1:-20}" ;;
link) call bytes link "${1:-300000000}" ;;
tables) thrice tables tables "${1:-30000000}" ;;
mail) thrice tables mail "${1:-10000000}" ;;
map) thrice tables map "${1:-30000000}" ;;
conn) thrice program conn "${1:-1000000}" "${2:-64}" "${3:-60}" ;;
line) lines "${1:-300000}" ;;
socket)
    thrice hosts socket "${1:-10000000}"
    command -v valgrind > /dev/null || exit 0
    for kind in send recv poll plain; do
        allocations "$kind"
    done
    ;;
play)
    [ $# -gt 0 ] || set -- 10000 100000 200000
    for kind in mixed cancelled; do
        echo "$kind"
        for count in "$@"; do
            call program play "$count" "$kind"
        done
    done
    ;;
report)
    [ $# -gt 0 ] || set -- 10000 100000
    for count in "$@"; do
        call program report "$count"
    done
    ;;
*)
    echo "usage: sh bench/component.sh frame|link|tables|mail|map|conn|line|socket|play|report [COUNT [MORE ..]]" >&2
    exit 2
    ;;
esac
