#!/usr/bin/env bash
# A delta chunk of raw video, of an I420 picture, decoded and encoded; a plain C loop of each (gcc -O2), and a memcpy of as many
# bytes: instructions by callgrind, and microseconds a chunk, the best of seven runs in turn:
# tools/raw-speed.sh [WIDTH HEIGHT [ROUNDS]]. Wants valgrind and gcc, and crates/raw_speed built (rt run in crates/raw_speed).
cd "$(dirname "$0")/.." || exit 2
width=${1:-1920} height=${2:-1080} rounds=${3:-500}
program=crates/raw_speed/out/raw_speed
work=$(mktemp -d) || exit 2
trap 'rm -rf "$work"' EXIT
gcc -O2 -o "$work/deltas" tools/speed/deltas.c || exit 2
bytes=$((width * height + 2 * (width / 2) * (height / 2)))

count() {
    valgrind --tool=callgrind --callgrind-out-file="$work/out" "$@" 2>&1 >/dev/null | awk '/Collected/ {print $4}'
}

nanoseconds() {
    local start end
    start=$(date +%s%N)
    "$@" >/dev/null
    end=$(date +%s%N)
    echo $((end - start))
}

rounds_of() {
    echo $(($(nanoseconds "$@" "$rounds") - $(nanoseconds "$@" 0)))
}

least() {
    if [ -z "$2" ] || [ "$1" -lt "$2" ]; then echo "$1"; else echo "$2"; fi
}

# command NAME: what each row runs, without the number of its rounds
declare -A command=(
    [decoded]="$program decode $width $height" [loop_decoded]="$work/deltas add $bytes"
    [encoded]="$program encode $width $height" [loop_encoded]="$work/deltas less $bytes"
    [memcpy]="$work/deltas copy $bytes"
)
rows="loop_decoded decoded loop_encoded encoded memcpy"

declare -A best
for _ in 1 2 3 4 5 6 7; do
    for row in $rows; do
        # shellcheck disable=SC2086
        best[$row]=$(least "$(rounds_of ${command[$row]})" "${best[$row]}")
    done
done
printf '%-13s %14s %14s\n' '' instructions microseconds
for row in $rows; do
    # shellcheck disable=SC2086
    instructions=$(($(count ${command[$row]} 3) - $(count ${command[$row]} 2)))
    awk -v r="${row/_/, }" -v i="$instructions" -v t="${best[$row]}" -v n="$rounds" 'BEGIN {printf "%-13s %14d %14.1f\n", r, i, t / n / 1000}'
done
awk -v a="${best[decoded]}" -v b="${best[loop_decoded]}" -v c="${best[encoded]}" -v d="${best[loop_encoded]}" -v m="${best[memcpy]}" \
    'BEGIN {printf "decoded: %.2f of the loop; encoded: %.2f of the loop, %.2f of the memcpy\n", a / b, c / d, c / m}'
