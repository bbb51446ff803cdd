#!/usr/bin/env bash
# Nanoseconds a decode, from its call to its output's turn: of a plain codec, and of shared codecs in one, two and four threads,
# each on a codec of its own, or all on one. The least and the median of nine runs, taken in turn, are of the time of all threads
# together. Of one thread the instructions a decode too: tools/shared-speed.sh [COUNT [PROGRAM]]
# Wants valgrind, and crates/shared_speed built (rt run in crates/shared_speed), or PROGRAM, as tools/build-unproved leaves it.
cd "$(dirname "$0")/.." || exit 2
count=${1:-20000}
program=${2:-crates/shared_speed/out/shared_speed}
work=$(mktemp -d) || exit 2
trap 'rm -rf "$work"' EXIT
# The instructions of the program with these words.
instructions() {
    valgrind --tool=callgrind --callgrind-out-file="$work/out" "$program" "$@" 2>&1 >/dev/null | awk '/Collected/ {print $4}'
}
cases='plain-1 own-1 own-2 own-4 one-2 one-4'
for _ in 1 2 3 4 5 6 7 8 9; do
    for case in $cases; do
        "$program" "${case%-*}" "${case#*-}" "$count" 2>> "$work/$case" > /dev/null || exit 2
    done
done
for case in $cases; do
    sort -n "$work/$case" | awk -v n="$((${case#*-} * count))" -v case="$case" \
        'NR == 1 {least = $1} NR == 5 {median = $1} END {printf "%-8s %10.1f %10.1f\n", case, least / n, median / n}'
done
for mode in plain own; do
    printf '%-8s %10s instructions\n' "$mode-1" $((($(instructions $mode 1 3000) - $(instructions $mode 1 1000)) / 2000))
done
