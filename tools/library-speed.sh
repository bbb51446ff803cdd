#!/usr/bin/env bash
# What the library for C and libFLAC cost on the same blocks and frames, in one run of one C program that links both
# (tools/speed/library.c): nanoseconds a sample (the least of nine rounds that take turns), and instructions a sample by
# callgrind (the work's own and what it calls): tools/library-speed.sh [PREFIX [SECONDS]]. PREFIX is where tools/build-library
# put the library (if not said, out/zemirako). libFLAC codes with the same candidates (fixed predictors, blocks of 4096, the
# level's partition orders and stereo modes) without its MD5 sum, once with its guess of the predictor's order and once with
# each tried. Wants valgrind, libflac-dev and gcc.
set -euo pipefail

top=$(cd "$(dirname "$0")/.." && pwd)
prefix=${1:-$top/out/zemirako}
seconds=${2:-20}
work=$(mktemp -d)
trap 'rm -rf "$work"' EXIT
gcc -std=gnu11 -Wall -Wextra -Werror -O2 -g -I"$prefix/include" -o "$work/library" "$top/tools/speed/library.c" \
  "$prefix/lib/libzemirako.a" -lFLAC -lm

echo "load: $(cut -d ' ' -f 1-3 /proc/loadavg) on $(nproc) processors; libFLAC $(pkg-config --modversion flac)"
for row in "16 4" "16 6" "24 6"; do
  read -r depth level <<<"$row"
  "$work/library" "$depth" "$level" "$seconds" 9 >"$work/times"
  valgrind --tool=callgrind --callgrind-out-file="$work/out" "$work/library" "$depth" "$level" 1 1 >"$work/few" 2>/dev/null
  callgrind_annotate --inclusive=yes --threshold=100 "$work/out" >"$work/costs"
  echo "$depth bits, level $level: $(head -n 1 "$work/times")"
  samples=$(awk 'NR == 1 {print $2 + 0}' "$work/few")
  sed 1d "$work/times" | while read -r name time; do
    cost=$(awk -v name=":$name " 'index($0 " ", name) {gsub(",", "", $1); print $1; exit}' "$work/costs")
    awk -v name="$name" -v time="$time" -v cost="$cost" -v samples="$samples" \
      'BEGIN {printf "  %-22s %6.2f ns, %6.1f instructions a sample\n", name, time, cost / samples}'
  done
done
