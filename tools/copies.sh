#!/usr/bin/env bash
# Instructions a sample of the 36 copies of audio data and of plain C loops (gcc -O2), by callgrind:
# tools/copies.sh [FRAMES], of two channels. Wants valgrind and gcc, and crates/copy_speed built (rt run
# in crates/copy_speed).
cd "$(dirname "$0")/.." || exit 2
frames=${1:-1048576}
program=crates/copy_speed/out/copy_speed
work=$(mktemp -d) || exit 2
trap 'rm -rf "$work"' EXIT
gcc -O2 -o "$work/copies" tools/speed/copies.c || exit 2

count() {
    valgrind --tool=callgrind --callgrind-out-file="$work/out" "$@" 2>&1 >/dev/null | awk '/Collected/ {print $4}'
}

formats='u8 s16 s32 u8-planar s16-planar s32-planar'
printf '%-11s %-11s %8s %8s %6s\n' from to copy loop times
for from in $formats; do
    for to in $formats; do
        copy=$(($(count "$program" "$from" "$to" "$frames" 1) - $(count "$program" "$from" "$to" "$frames" 0)))
        loop=$(($(count "$work/copies" "$from" "$to" "$frames" 1) - $(count "$work/copies" "$from" "$to" "$frames" 0)))
        awk -v f="$from" -v t="$to" -v a="$copy" -v b="$loop" -v n=$((2 * frames)) \
            'BEGIN {printf "%-11s %-11s %8.2f %8.2f %6.2f\n", f, t, a / n, b / n, a / b}'
    done
done
