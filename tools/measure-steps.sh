#!/usr/bin/env bash
# Replays scripts of many steps, and prints what each costs: tools/measure-steps.sh [PROGRAM]
# shown: each chunk is decoded and shown before the next comes. queued: all decodes are called before any work begins.
# flushes: all steps flush, and no work begins before. taken: half of the steps decode, each shown before the next, and the
# others then take what was shown. encoded: all encodes of one sound are called before any work begins. checked: the report of
# `shown`, judged by `check`.
# Wants /usr/bin/time and valgrind.
cd "$(dirname "$0")/.." || exit 2
program=$(realpath "${1:-crates/wcrun/out/wcrun}") || exit 2
work=$(mktemp -d) || exit 2
trap 'rm -rf "$work"' EXIT

# script KIND STEPS
script() {
  awk -v kind="$1" -v n="$2" 'BEGIN {
    printf "{\"codecs\":[{\"name\":\"d\",\"kind\":\"audio-decoder\"}],\"callers\":[{\"name\":\"a\",\"steps\":["
    printf "{\"do\":\"configure\",\"on\":\"d\",\"config\":{\"codec\":\"pcm-s16\",\"sampleRate\":8000,\"numberOfChannels\":1}},"
    printf "{\"do\":\"chunk\",\"as\":\"c\",\"init\":{\"type\":\"key\",\"timestamp\":0,\"data\":\"0100\"}}"
    half = kind == "taken" ? n / 2 + 1 : n
    for (i = 2; i < n; i++) {
      if (i >= half) printf ",{\"do\":\"take\",\"on\":\"d\",\"as\":\"t%d\"}", i
      else if (kind == "flushes") printf ",{\"do\":\"flush\",\"on\":\"d\",\"as\":\"p%d\"}", i
      else printf ",{\"do\":\"decode\",\"on\":\"d\",\"chunk\":\"c\"}"
    }
    printf "]}],\"order\":[\"a\",{\"start\":\"d\"},{\"done\":\"d\",\"at\":1},{\"turn\":\"d\"},{\"turn\":\"d\"},\"a\""
    if (kind == "queued" || kind == "flushes") for (i = 2; i < n; i++) printf ",\"a\""
    for (i = 2; i < half; i++) {
      if (kind == "shown" || kind == "taken") printf ",\"a\""
      printf ",{\"start\":\"d\"},{\"done\":\"d\",\"at\":%d},{\"turn\":\"d\"},{\"turn\":\"d\"}", i
    }
    if (kind == "queued") for (i = 2; i < n; i++) printf ",{\"turn\":\"d\"}"
    for (i = half; i < n; i++) printf ",\"a\""
    printf "]}\n"
  }'
}

# encodes STEPS
encodes() {
  awk -v n="$1" 'BEGIN {
    printf "{\"codecs\":[{\"name\":\"d\",\"kind\":\"audio-encoder\"}],\"callers\":[{\"name\":\"a\",\"steps\":["
    printf "{\"do\":\"configure\",\"on\":\"d\",\"config\":{\"codec\":\"pcm-s16\",\"sampleRate\":8000,\"numberOfChannels\":1}},"
    printf "{\"do\":\"audio\",\"as\":\"x\",\"init\":{\"format\":\"s16\",\"sampleRate\":8000,\"numberOfFrames\":1,"
    printf "\"numberOfChannels\":1,\"timestamp\":0,\"data\":\"0100\"}}"
    for (i = 2; i < n; i++) printf ",{\"do\":\"encode\",\"on\":\"d\",\"data\":\"x\"}"
    printf "]}],\"order\":[\"a\",{\"start\":\"d\"},{\"done\":\"d\",\"at\":1},{\"turn\":\"d\"},{\"turn\":\"d\"},\"a\""
    for (i = 2; i < n; i++) printf ",\"a\""
    for (i = 2; i < n; i++) printf ",{\"start\":\"d\"},{\"done\":\"d\",\"at\":%d},{\"turn\":\"d\"},{\"turn\":\"d\"}", i
    printf "]}\n"
  }'
}

# cost LABEL STEPS WORD..: what the program takes with these words
cost() {
  label=$1 steps=$2
  shift 2
  took=$(/usr/bin/time -f '%e s, %M KB' "$program" "$@" 2>&1 > "$work/written" | tail -1)
  count=$(valgrind --tool=callgrind --callgrind-out-file="$work/out" "$program" "$@" 2>&1 > /dev/null | awk '/Collected/ {print $4}')
  printf '%-8s %7d steps: %s, %s instructions, %d bytes written\n' "$label" "$steps" "$took" "$count" "$(stat -c %s "$work/written")"
}

# measure KIND STEPS
measure() {
  if [ "$1" = encoded ]; then encodes "$2"; else script "$1" "$2"; fi > "$work/script.json"
  cost "$1" "$2" replay "$work/script.json"
  [ "$1" = shown ] || return
  cp "$work/written" "$work/report"
  cost checked "$2" check "$work/script.json" "$work/report"
}

for steps in 25000 50000 100000; do measure shown "$steps"; done
for steps in 2500 5000 10000; do measure queued "$steps"; done
for steps in 2500 5000 10000; do measure flushes "$steps"; done
for steps in 25000 50000 100000; do measure taken "$steps"; done
for steps in 25000 50000 100000; do measure encoded "$steps"; done
