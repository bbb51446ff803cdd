#!/usr/bin/env bash
# Measures loads: load.sh [PROGRAM [START [N [ROUNDS]]]]
# First ROUNDS (10) calls of `load START N` (1, 5000), whose summaries must all be that of tools/load-sum.py. Then the same
# script by `run` with 1 to 16 workers, report and all, and by the engine for C on one thread, where tools/build-engine has put
# it. A row has the least time in seconds, calls and outputs a second, and the peak of memory. Calls are configures, decodes,
# flushes and takes; the engine's are configures and decodes. Needs /usr/bin/time and python3, and for the engine gcc.
set -euo pipefail
top=$(cd "$(dirname "$0")/.." && pwd)
program=$(realpath "${1:-$top/crates/wcrun/out/wcrun}")
start=${2:-1} chunks=${3:-5000} rounds=${4:-10}
work=$(mktemp -d)
trap 'rm -rf "$work"' EXIT
cd "$work"

# the least time of the calls of these words, and the greatest peak; each call's text goes to the file `text`
least() {
  local best= peak=0 took kib
  for _ in $(seq "$rounds"); do
    /usr/bin/time -o timed -f '%e %M' "$@" > text
    read -r took kib < timed
    if [ -z "$best" ] || awk "BEGIN { exit !($took < $best) }"; then best=$took; fi
    if [ "$kib" -gt "$peak" ]; then peak=$kib; fi
    if [ "${same:-}" ]; then cmp text wanted; fi
  done
  echo "$best $peak"
}

row() {
  local name=$1 calls=$2 outputs=$((4 * chunks))
  shift 2
  read -r took kib <<< "$(least "$@")"
  awk "BEGIN { t = $took > 0 ? $took : 0.01; printf \"%s: %.2f s, %.0f calls/s, %.0f outputs/s, %d KiB\\n\", \"$name\", $took, $calls / t, $outputs / t, $kib }"
}

python3 "$top/tools/load-sum.py" "$start" "$chunks" > wanted
python3 "$top/tools/load-script.py" "$start" "$chunks" > script.json
cat wanted
calls=$((4 * (2 * chunks + 2)))
same=1 row "load, 4 workers" $calls "$program" load "$start" "$chunks"
for workers in 1 2 4 8 16; do row "run, $workers workers" $calls "$program" run script.json --workers $workers; done
engine=$top/out/zemirako_engine
if [ -f "$engine/lib/libzemirako_engine.a" ] && command -v gcc > /dev/null; then
  gcc -std=c11 -Wall -Wextra -Werror -O2 -I"$engine/include" -o engine "$top/tools/speed/load.c" "$engine/lib/libzemirako_engine.a"
  same=1 row "engine for C, 1 thread" $((4 * (chunks + 1))) ./engine "$start" "$chunks"
fi
