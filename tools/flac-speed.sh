#!/usr/bin/env bash
# Instructions a sample (by callgrind) and nanoseconds a sample (the least user time of nine alternating runs) of decoding FLAC
# frames of a file, of libFLAC without MD5 on the same file (a small C program over libflac-dev, which drops the samples), and
# of the system's `flac -d`, which also checks the MD5 sum and reads and writes files, on so many seconds of stereo:
# tools/flac-speed.sh [SECONDS]. Wants valgrind, flac, libflac-dev, gcc and python3, and crates/flac_speed built (rt run in
# crates/flac_speed).
cd "$(dirname "$0")/.." || exit 2
seconds=${1:-60}
program=crates/flac_speed/out/flac_speed
work=$(mktemp -d) || exit 2
trap 'rm -rf "$work"' EXIT

# sound BITS: two voices and a little noise, 44,100 frames a second
sound() {
  python3 - "$1" "$seconds" <<'PY'
import math, random, sys
bits, seconds = int(sys.argv[1]), int(sys.argv[2])
random.seed(1)
top, size, out = 2 ** (bits - 1) - 1, bits // 8, bytearray()
for i in range(44100 * seconds):
    a = math.sin(i * 0.031) * 0.4 + math.sin(i * 0.0071 + math.sin(i * 0.00011) * 9) * 0.3
    for voice in (a + 0.1 * math.sin(i * 0.05), a - 0.1 * math.sin(i * 0.043)):
        out += int(top * (voice + random.uniform(-0.002, 0.002))).to_bytes(size, "little", signed=True)
sys.stdout.buffer.write(out)
PY
}

cat > "$work/theirs.c" <<'C'
#include <FLAC/stream_decoder.h>
#include <stdio.h>
static unsigned long long count;
static FLAC__StreamDecoderWriteStatus take(const FLAC__StreamDecoder *d, const FLAC__Frame *f, const FLAC__int32 *const in[], void *x) {
  count += f->header.blocksize;
  return FLAC__STREAM_DECODER_WRITE_STATUS_CONTINUE;
}
static void fault(const FLAC__StreamDecoder *d, FLAC__StreamDecoderErrorStatus s, void *x) {}
int main(int n, char **words) {
  FLAC__StreamDecoder *d = FLAC__stream_decoder_new();
  FLAC__stream_decoder_set_md5_checking(d, false);
  FLAC__stream_decoder_init_file(d, words[1], take, NULL, fault, NULL);
  FLAC__stream_decoder_process_until_end_of_stream(d);
  printf("%llu\n", count);
  return 0;
}
C
gcc -O2 -o "$work/theirs" "$work/theirs.c" -lFLAC || exit 2

# count WORDS..: the instructions of a command
count() {
  valgrind --tool=callgrind --callgrind-out-file="$work/out" "$@" 2>&1 > /dev/null | awk '/Collected/ {print $4}'
}

# times WORDS..: the user time of a command, in seconds
times() {
  TIMEFORMAT=%3U
  { time "$@" > /dev/null 2>&1; } 2>&1
}

samples=$((44100 * 2 * seconds))
for bits in 16 24; do
  sound "$bits" > "$work/raw"
  for level in 0 5 8; do
    flac --silent -f "-$level" --force-raw-format --endian=little --sign=signed --channels=2 --bps="$bits" \
      --sample-rate=44100 -o "$work/a.flac" "$work/raw" || exit 2
    tools/flac-frames.py pack "$work/a.flac" "$work/frames" > /dev/null || exit 2
    ours=$(count "$program" decode "$work/frames")
    library=$(count "$work/theirs" "$work/a.flac")
    theirs=$(count flac --silent -d -f -o "$work/b.wav" "$work/a.flac")
    for _ in 1 2 3 4 5 6 7 8 9; do
      echo "$(times "$program" decode "$work/frames") $(times "$work/theirs" "$work/a.flac") $(times flac --silent -d -f -o "$work/b.wav" "$work/a.flac")"
    done > "$work/times"
    awk -v b="$bits" -v l="$level" -v o="$ours" -v f="$library" -v t="$theirs" -v n="$samples" '
      NR == 1 {x = $1; y = $2; z = $3}
      {if ($1 < x) x = $1; if ($2 < y) y = $2; if ($3 < z) z = $3}
      END {
        printf "%d bits, level %d: %.1f instructions a sample, libFLAC %.1f, flac -d %.1f; ", b, l, o / n, f / n, t / n
        printf "%.1f ns a sample, libFLAC %.1f, flac -d %.1f\n", x * 1e9 / n, y * 1e9 / n, z * 1e9 / n
      }' "$work/times"
  done
done
