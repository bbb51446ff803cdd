#!/usr/bin/env bash
# Measures a replay of one chunk of 1, 2 and 4 MiB: seconds, peak memory, and instructions by valgrind's callgrind.
# tools/measure.sh [PROGRAM]
cd "$(dirname "$0")/.." || exit 2
program=$(realpath "${1:-crates/wcrun/out/wcrun}") || exit 2
work=$(mktemp -d) || exit 2
trap 'rm -rf "$work"' EXIT
for mib in 1 2 4; do
  script=$work/$mib.json
  {
    printf '%s' '{"codecs":[{"name":"d","kind":"audio-decoder"}],"callers":[{"name":"a","steps":[{"do":"configure","on":"d","config":{"codec":"pcm-s16","sampleRate":8000,"numberOfChannels":1}},{"do":"chunk","as":"c","init":{"type":"key","timestamp":0,"data":"'
    head -c $((mib * 524288)) /dev/zero | sed 's/\x00/0102/g'
    printf '%s' '"}},{"do":"decode","on":"d","chunk":"c"},{"do":"flush","on":"d","as":"p"},{"do":"await","promise":"p"}]}],"order":["a","a","a","a",{"start":"d"},{"done":"d","at":1},{"turn":"d"},{"turn":"d"},{"start":"d"},{"done":"d","at":2},{"turn":"d"},{"turn":"d"},{"start":"d"},{"done":"d","at":3},{"turn":"d"},"a"]}'
  } > "$script"
  timed=$( { /usr/bin/time -f '%e s, %M KiB' "$program" replay "$script" > "$work/report"; } 2>&1 )
  counted=$(valgrind --tool=callgrind --callgrind-out-file=/dev/null "$program" replay "$script" 2>&1 > /dev/null | sed -n 's/.*Collected : //p')
  echo "$mib MiB: script $(stat -c %s "$script") bytes, report $(stat -c %s "$work/report") bytes, $timed, $counted instructions"
done
