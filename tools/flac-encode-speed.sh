#!/usr/bin/env bash
# What encoding FLAC frames costs: instructions a sample (by callgrind, on a few seconds), nanoseconds a sample (the least user
# time of five alternating runs) and the bytes of all frames, of crates/flac_encode_speed, of libFLAC without MD5 (a small C
# program over libflac-dev, which drops the frames) that guesses the order of the predictor and that tries each (as
# `flac -e` does), and of the system's `flac`, which also makes the MD5 sum and writes a file; each with fixed predictors,
# blocks of 4096 and partition orders up to 6 (`flac --lax -l 0 -b 4096 -r 6`): one channel, and two with all stereo modes
# (`-m`), on tones with a little noise, on noise and on silence of 44.1 kHz and 16 bits:
# tools/flac-encode-speed.sh [SECONDS [SECONDS FOR CALLGRIND]]. What a file of one block costs is taken off the instructions.
# Wants valgrind, flac, libflac-dev, gcc and python3, and crates/flac_encode_speed built (rt run in that folder).
cd "$(dirname "$0")/.." || exit 2
seconds=${1:-60}
few=${2:-3}
program=crates/flac_encode_speed/out/flac_encode_speed
work=$(mktemp -d) || exit 2
trap 'rm -rf "$work"' EXIT

# sound KIND CHANNELS: two voices and a little noise, or noise alone, or silence
sound() {
  python3 - "$1" "$2" "$seconds" <<'PY'
import array, math, random, sys
kind, channels, seconds = sys.argv[1], int(sys.argv[2]), int(sys.argv[3])
random.seed(1)
out, noise = array.array("h"), random.Random(2)
for i in range(44100 * seconds):
    if kind == "tones":
        a = math.sin(i * 0.031) * 0.4 + math.sin(i * 0.0071 + math.sin(i * 0.00011) * 9) * 0.3
        for voice in (a + 0.1 * math.sin(i * 0.05), a - 0.1 * math.sin(i * 0.043))[:channels]:
            out.append(int(32767 * (voice + noise.uniform(-0.002, 0.002))))
    else:
        for _ in range(channels):
            out.append(noise.randint(-32768, 32767) if kind == "noise" else 0)
sys.stdout.buffer.write(out.tobytes())
PY
}

cat > "$work/theirs.c" <<'C'
#include <FLAC/stream_encoder.h>
#include <stdio.h>
#include <stdlib.h>
#include <string.h>
FLAC__bool FLAC__stream_encoder_set_do_md5(FLAC__StreamEncoder *e, FLAC__bool value);
static unsigned long long count;
static FLAC__StreamEncoderWriteStatus take(const FLAC__StreamEncoder *e, const FLAC__byte bytes[], size_t size, uint32_t samples, uint32_t frame, void *x) {
  if (samples) count += size;
  return FLAC__STREAM_ENCODER_WRITE_STATUS_OK;
}
int main(int n, char **words) {
  unsigned channels = atoi(words[1]);
  FLAC__StreamEncoder *e = FLAC__stream_encoder_new();
  FLAC__stream_encoder_set_do_md5(e, false);
  FLAC__stream_encoder_set_streamable_subset(e, false);
  FLAC__stream_encoder_set_channels(e, channels);
  FLAC__stream_encoder_set_bits_per_sample(e, 16);
  FLAC__stream_encoder_set_sample_rate(e, 44100);
  FLAC__stream_encoder_set_compression_level(e, 0);
  FLAC__stream_encoder_set_do_mid_side_stereo(e, channels == 2);
  FLAC__stream_encoder_set_loose_mid_side_stereo(e, false);
  FLAC__stream_encoder_set_max_lpc_order(e, 0);
  FLAC__stream_encoder_set_blocksize(e, 4096);
  FLAC__stream_encoder_set_max_residual_partition_order(e, 6);
  FLAC__stream_encoder_set_do_exhaustive_model_search(e, strcmp(words[2], "each") == 0);
  FLAC__stream_encoder_init_stream(e, take, NULL, NULL, NULL, NULL);
  FILE *file = fopen(words[3], "rb");
  static short in[8192];
  static FLAC__int32 wide[8192];
  size_t got;
  while ((got = fread(in, 2 * channels, 8192 / channels, file)) > 0) {
    for (size_t i = 0; i < got * channels; i++) wide[i] = in[i];
    FLAC__stream_encoder_process_interleaved(e, wide, got);
  }
  FLAC__stream_encoder_finish(e);
  printf("%llu\n", count);
  return 0;
}
C
gcc -O2 -o "$work/theirs" "$work/theirs.c" -lFLAC || exit 2

# encode CODER CHANNELS FILE: encodes a file, and prints the bytes of all frames
encode() {
  case $1 in
    ours) "${run[@]}" "$program" encode s16 44100 "$2" 16 6 4096 4096 "$3" | awk '{print $2}' ;;
    guess | each) "${run[@]}" "$work/theirs" "$2" "$1" "$3" ;;
    flac)
      mode=--no-mid-side
      if [ "$2" = 2 ]; then mode=-m; fi
      "${run[@]}" flac --silent -f --lax --no-padding --no-seektable -l 0 -b 4096 -r 6 "$mode" --force-raw-format --endian=little \
        --sign=signed --channels="$2" --bps=16 --sample-rate=44100 -o "$work/a.flac" "$3" && stat -c %s "$work/a.flac"
      ;;
  esac
}

# count CODER CHANNELS FILE: the instructions of an encoding
count() {
  run=(valgrind --tool=callgrind "--callgrind-out-file=$work/out" "--log-file=$work/log")
  encode "$@" > /dev/null
  awk '/Collected/ {print $4}' "$work/log"
}

# times CODER CHANNELS FILE: the user time of an encoding, in seconds
times() {
  run=()
  TIMEFORMAT=%3U
  { time encode "$@" > /dev/null 2>&1; } 2>&1
}

echo "load: $(cut -d ' ' -f 1-3 /proc/loadavg) on $(nproc) processors; $(flac --version)"
for channels in 1 2; do
  for kind in tones noise silence; do
    sound "$kind" "$channels" > "$work/raw"
    head -c $((few * 44100 * 2 * channels)) "$work/raw" > "$work/few"
    head -c $((4096 * 2 * channels)) "$work/raw" > "$work/block"
    for coder in ours guess each flac; do
      all=$(count "$coder" "$channels" "$work/few")
      block=$(count "$coder" "$channels" "$work/block")
      run=()
      echo "$coder $all $block $(encode "$coder" "$channels" "$work/raw")" >> "$work/counts"
    done
    for _ in 1 2 3 4 5; do
      for coder in ours guess each flac; do
        echo "$coder $(times "$coder" "$channels" "$work/raw")" >> "$work/times"
      done
    done
    echo "$channels channels, $kind:"
    awk -v samples=$((44100 * channels * seconds)) -v few=$(((44100 * few - 4096) * channels)) '
      FNR == NR {if (!($1 in least) || $2 < least[$1]) least[$1] = $2; next}
      {printf "  %s: %.1f instructions and %.1f ns a sample, %d bytes\n", $1, ($2 - $3) / few, least[$1] * 1e9 / samples, $4}
    ' "$work/times" "$work/counts"
    rm "$work/times" "$work/counts"
  done
done
