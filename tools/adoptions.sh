#!/usr/bin/env bash
# Instructions to make audio data, by callgrind: over a resource that is there already (adopt), and with a copy of the
# bytes (new), of 1 KiB and of 1 MiB: tools/adoptions.sh [ROUNDS]. Wants valgrind, and crates/copy_speed built (rt run in
# crates/copy_speed).
cd "$(dirname "$0")/.." || exit 2
rounds=${1:-1000}
program=crates/copy_speed/out/copy_speed
work=$(mktemp -d) || exit 2
trap 'rm -rf "$work"' EXIT

count() {
    valgrind --tool=callgrind --callgrind-out-file="$work/out" "$@" 2>&1 >/dev/null | awk '/Collected/ {print $4}'
}

printf '%-6s %8s %13s\n' way bytes instructions
for way in adopt new; do
    for bytes in 1024 1048576; do
        all=$(count "$program" "$way" "$bytes" "$rounds")
        none=$(count "$program" "$way" "$bytes" 0)
        printf '%-6s %8d %13d\n' "$way" "$bytes" $(((all - none) / rounds))
    done
done
