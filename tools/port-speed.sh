#!/usr/bin/env bash
# Nanoseconds a post and its receive: through a port, and through a list and a deque of the C++ library behind its mutex, in one
# thread, and from one thread to another; the least and the median of nine runs, taken in turn. `alone` is a process that has
# never had a second thread. Of one thread the instructions too: tools/port-speed.sh [COUNT [PROGRAM]]
# Wants g++ and valgrind, and crates/port_speed built (rt run in crates/port_speed), or PROGRAM, as tools/build-unproved leaves it.
cd "$(dirname "$0")/.." || exit 2
count=${1:-1000000}
program=${2:-crates/port_speed/out/port_speed}
work=$(mktemp -d) || exit 2
trap 'rm -rf "$work"' EXIT
g++ -std=c++20 -O2 -pthread -o "$work/queue" tools/speed/queue.cpp || exit 2
# The command of a case, as port-one or list-two, without its count.
command_of() {
    [ "${1%-*}" = port ] && echo "$program ${1#*-}" || echo "$work/queue ${1%-*} ${1#*-}"
}
# The instructions of a case with so many.
instructions() {
    valgrind --tool=callgrind --callgrind-out-file="$work/out" $(command_of "$1") "$2" 2>&1 >/dev/null | awk '/Collected/ {print $4}'
}
cases='list-alone deque-alone port-one list-one deque-one port-two list-two deque-two'
for _ in 1 2 3 4 5 6 7 8 9; do
    for case in $cases; do
        $(command_of "$case") "$count" 2>> "$work/$case" > /dev/null || exit 2
    done
done
for case in $cases; do
    sort -n "$work/$case" | awk -v n="$count" -v case="$case" \
        'NR == 1 {least = $1} NR == 5 {median = $1} END {printf "%-11s %8.1f %8.1f\n", case, least / n, median / n}'
done
for case in port-one list-one deque-one; do
    printf '%-11s %8s instructions\n' "$case" $((($(instructions "$case" 30000) - $(instructions "$case" 10000)) / 20000))
done
