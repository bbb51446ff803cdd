#!/usr/bin/env bash
# Times `wcrun probe` beside `flac -d` and `sox` on ten minutes of sound, two channels at 44.1 kHz and 16 bits, and shows the
# memory of each; then the same on one minute, with instructions, and beside `decode_frame` on the frames of the same file
# (crates/flac_speed, built in the same way as the program): tools/sound-speed.sh [PROGRAM [FLAC_SPEED]]
# probe reads each frame of a FLAC file whole, as flac -d does; of a WAV file it reads the parts and makes the chunks.
# Wants flac, sox, python3, /usr/bin/time and valgrind; FLAC_SPEED is out/unproved/flac_speed where it is left out, which
# tools/build-unproved flac_speed makes.
here=$(cd "$(dirname "$0")" && pwd)
program=$(realpath "${1:-$("$here"/program)}") || exit 2
frames=$(realpath "${2:-$here/../out/unproved/flac_speed}") || exit 2
work=$(mktemp -d) || exit 2
trap 'rm -rf "$work"' EXIT
cd "$work" || exit 2

# sound MINUTES
sound() {
  sox -n -r 44100 -c 2 -b 16 "$1.wav" synth "$1:00" pinknoise vol 0.3 tremolo 3 60
  flac -s -5 "$1.wav"
}

# timed WORDS..
timed() {
  best=
  for _ in 1 2 3 4 5 6 7; do
    made=$(/usr/bin/time -f '%U %M' "$@" 2>&1 > /dev/null | tail -1)
    best=$(printf '%s\n%s\n' "$best" "$made" | grep . | sort -n | head -1)
  done
  echo "$best" | awk '{printf "%s s, %d MB", $1, $2 / 1024}'
}

counted() {
  valgrind --tool=callgrind --callgrind-out-file=out "$@" 2>&1 > /dev/null | awk '/Collected/ {print $4}'
}

sound 10
sound 1
for minutes in 10 1; do
  echo "$minutes minutes, flac: probe $(timed "$program" probe $minutes.flac); flac -d $(timed flac -s -d -c $minutes.flac); sox $(timed sox $minutes.flac -t raw -)"
  echo "$minutes minutes, wav: probe $(timed "$program" probe $minutes.wav); sox $(timed sox $minutes.wav -t raw -)"
done
"$here"/flac-frames.py pack 1.flac frames > /dev/null || exit 2
echo "one minute of flac: decode_frame $(timed "$frames" decode frames)"
read=$(counted "$program" probe 1.flac)
whole=$(counted "$frames" decode frames)
echo "the same, instructions: probe $read; decode_frame $whole ($(awk "BEGIN {printf \"%.2f\", $read / $whole}") times); flac -d $(counted flac -s -d -c 1.flac)"
