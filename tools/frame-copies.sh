#!/usr/bin/env bash
# Copies of an I420 frame, tight and with padded rows, beside memcpy of as many bytes (gcc -O2): instructions by
# callgrind, and microseconds a copy, the best of seven runs in turn: tools/frame-copies.sh [WIDTH HEIGHT [ROUNDS]].
# Wants valgrind and gcc, and crates/video_speed built (rt run in crates/video_speed).
cd "$(dirname "$0")/.." || exit 2
width=${1:-1920} height=${2:-1080} rounds=${3:-2000}
program=crates/video_speed/out/video_speed
work=$(mktemp -d) || exit 2
trap 'rm -rf "$work"' EXIT
gcc -O2 -o "$work/frames" tools/speed/frames.c || exit 2
bytes=$((width * height + 2 * ((width + 1) / 2) * ((height + 1) / 2)))

count() {
    valgrind --tool=callgrind --callgrind-out-file="$work/out" "$@" 2>&1 >/dev/null | awk '/Collected/ {print $4}'
}

nanoseconds() {
    local start end
    start=$(date +%s%N)
    "$@" >/dev/null
    end=$(date +%s%N)
    echo $((end - start))
}

# nanoseconds of the rounds alone, by the command without its last word
rounds_of() {
    echo $(($(nanoseconds "$@" "$rounds") - $(nanoseconds "$@" 0)))
}

least() {
    if [ -z "$2" ] || [ "$1" -lt "$2" ]; then echo "$1"; else echo "$2"; fi
}

best_memcpy='' best_tight='' best_padded=''
for _ in 1 2 3 4 5 6 7; do
    best_memcpy=$(least "$(rounds_of "$work/frames" "$bytes")" "$best_memcpy")
    best_tight=$(least "$(rounds_of "$program" "$width" "$height" tight)" "$best_tight")
    best_padded=$(least "$(rounds_of "$program" "$width" "$height" padded)" "$best_padded")
done
printf '%-8s %14s %8s %14s %8s\n' copy instructions times microseconds times
memcpy=$(($(count "$work/frames" "$bytes" 1) - $(count "$work/frames" "$bytes" 0)))
for copy in memcpy tight padded; do
    if [ "$copy" = memcpy ]; then
        instructions=$memcpy
    else
        instructions=$(($(count "$program" "$width" "$height" "$copy" 1) - $(count "$program" "$width" "$height" "$copy" 0)))
    fi
    best="best_$copy"
    awk -v c="$copy" -v i="$instructions" -v m="$memcpy" -v t="${!best}" -v b="$best_memcpy" -v n="$rounds" \
        'BEGIN {printf "%-8s %14d %8.2f %14.1f %8.2f\n", c, i, i / m, t / n / 1000, t / b}'
done
