#!/usr/bin/env bash
# Instructions of one decoder with its queues, with no script: decodes, each shown before the next, flushes, all of them
# called before any is resolved, and one reset of a codec with so many tasks: tools/codec-speed.sh [COUNT..]
# Wants valgrind, and crates/codec_speed built (rt run in crates/codec_speed).
cd "$(dirname "$0")/.." || exit 2
program=crates/codec_speed/out/codec_speed
work=$(mktemp -d) || exit 2
trap 'rm -rf "$work"' EXIT
# The instructions of the program with these words.
instructions() {
    valgrind --tool=callgrind --callgrind-out-file="$work/out" "$program" "$@" 2>&1 >/dev/null | awk '/Collected/ {print $4}'
}
counts=("$@")
[ $# -gt 0 ] || counts=(2500 5000 10000)
printf '%-8s %10s %14s\n' work count instructions
for what in decodes flushes; do
    for count in "${counts[@]}"; do
        printf '%-8s %10s %14s\n' $what "$count" "$(instructions $what "$count")"
    done
done
[ $# -gt 0 ] || counts=(1 1000 100000)
for count in "${counts[@]}"; do
    printf '%-8s %10s %14s\n' resets "$count" "$(($(instructions resets "$count") - $(instructions tasks "$count")))"
done
