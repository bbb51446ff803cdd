#!/usr/bin/env bash
# Instructions a sample of the coders and of plain C loops (gcc -O2), by callgrind: tools/speed.sh [MIB]
# Wants valgrind and gcc, and crates/coder_speed built (rt run in crates/coder_speed).
cd "$(dirname "$0")/.." || exit 2
mib=${1:-4}
program=crates/coder_speed/out/coder_speed
work=$(mktemp -d) || exit 2
trap 'rm -rf "$work"' EXIT
gcc -O2 -o "$work/loops" tools/speed/loops.c || exit 2

count() {
    valgrind --tool=callgrind --callgrind-out-file="$work/out" "$@" 2>&1 >/dev/null | awk '/Collected/ {print $4}'
}

printf '%-8s %-7s %12s %12s %6s\n' codec work coder loop times
for codec in pcm-s16 ulaw alaw; do
    made=$(count "$program" "$codec" make "$mib")
    made_c=$(count "$work/loops" "$codec" make "$mib")
    for work_word in decode encode; do
        samples=$((mib * 1048576))
        if [ "$codec" = pcm-s16 ] || [ "$work_word" = encode ]; then samples=$((samples / 2)); fi
        coder=$(($(count "$program" "$codec" "$work_word" "$mib") - made))
        loop=$(($(count "$work/loops" "$codec" "$work_word" "$mib") - made_c))
        awk -v c="$codec" -v w="$work_word" -v a="$coder" -v b="$loop" -v n="$samples" \
            'BEGIN {printf "%-8s %-7s %12.2f %12.2f %6.2f\n", c, w, a / n, b / n, a / b}'
    done
done
