#!/usr/bin/env bash
# Nanoseconds a passage through a lock and through a mutex of the C library, in one thread and in two that contend, the
# least and the median of nine runs, taken in turn. `alone` is a process that has never had a second thread: tools/lock-speed.sh [PASSES]
# Wants gcc, and crates/lock_speed built (rt run in crates/lock_speed).
cd "$(dirname "$0")/.." || exit 2
passes=${1:-10000000}
work=$(mktemp -d) || exit 2
trap 'rm -rf "$work"' EXIT
gcc -O2 -pthread -o "$work/mutex" tools/speed/mutex.c || exit 2
for _ in 1 2 3 4 5 6 7 8 9; do
    for threads in one two; do
        crates/lock_speed/out/lock_speed $threads "$passes" 2>> "$work/lock-$threads" > /dev/null || exit 2
        "$work/mutex" $threads "$passes" 2>> "$work/mutex-$threads" > /dev/null || exit 2
    done
    "$work/mutex" alone "$passes" 2>> "$work/mutex-alone" > /dev/null || exit 2
done
for threads in alone one two; do
    [ $threads = two ] && all=$((2 * passes)) || all=$passes
    for what in lock mutex; do
        [ -e "$work/$what-$threads" ] || continue
        sort -n "$work/$what-$threads" | awk -v n="$all" -v what="$what" -v threads="$threads" \
            'NR == 1 {least = $1} NR == 5 {median = $1} END {printf "%-5s %-5s %8.1f %8.1f\n", what, threads, least / n, median / n}'
    done
done
