#!/usr/bin/env bash
# Instructions of single decodes in a history of nearly 1,000,000 entries: of the first thousand, and of those at which memory
# grows, where a copy of the whole would show: tools/longest-step.sh [DECODE..]
# A decode makes five entries. Its cost is that of so many decodes less that of one fewer.
# Wants valgrind, and crates/codec_speed built (rt run in crates/codec_speed), or PROGRAM set to another build of it.
cd "$(dirname "$0")/.." || exit 2
program=${PROGRAM:-crates/codec_speed/out/codec_speed}
work=$(mktemp -d) || exit 2
trap 'rm -rf "$work"' EXIT
# The instructions of so many decodes.
instructions() {
    valgrind --tool=callgrind --callgrind-out-file="$work/out" "$program" decodes "$1" 2>&1 >/dev/null | awk '/Collected/ {print $4}'
}
places=("$@")
# Vectors grow near the first decodes of these pairs, and a segment of 1,024 entries is opened near the second ones.
[ $# -gt 0 ] || places=(999 1000 1001 49151 49152 98303 98304 104857 104858 196606 196607 196608 196609 199884 199885 199886)
before=
last=
printf '%-8s %12s\n' decode instructions
for place in "${places[@]}"; do
    [ "$last" = $((place - 1)) ] || before=$(instructions $((place - 1)))
    now=$(instructions "$place")
    printf '%-8s %12s\n' "$place" "$((now - before))"
    before=$now
    last=$place
done
