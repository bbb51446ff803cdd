#!/usr/bin/env python3
"""Decodes broken FLAC frames, each in the same process, and compares the answers with libFLAC's.

    tools/flac-broken.py [--program PATH] [--changes N] [--seed S]

The frames: one of the standard's, cut to every length and with each bit changed in turn; and N random changes (100,000 where it
is left out) of frames that the system's `flac` wrote: a bit, a byte, a piece cut out, put in or moved, the end cut off; every
other one with its sums made right again, so that what is behind the sums is reached. Each frame is decoded by
`flac_speed each`, and by libFLAC (a small C program, compiled by gcc with libflac-dev).

A frame that both take must have the same samples. Where one alone takes it, the script counts why, as far as it sees it:
  differs     the frame's rate, channels or depth are not the description's (we refuse it)
  behind      libFLAC leaves bytes behind the frame (we refuse it)
  past its depth  a sample of libFLAC's does not fit the depth (we refuse it)
  of 32 bits  we refuse it, and libFLAC lets samples of 32 bits wrap
  ours alone  libFLAC refuses it
  theirs alone  we refuse it, for another reason: a sample does not fit the depth of its subframe, while all come to fit by stereo
Ends with 1 where samples differ, or a frame takes over a second.
"""
import argparse
import importlib.util
import os
import random
import subprocess
import sys
import tempfile
import time

HERE = os.path.dirname(os.path.realpath(__file__))
spec = importlib.util.spec_from_file_location("flac_frames", os.path.join(HERE, "flac-frames.py"))
flac_frames = importlib.util.module_from_spec(spec)
spec.loader.exec_module(flac_frames)

FIRST = bytes.fromhex("fff869180000bf0358fd03128baa9a")
DESCRIPTION = bytes.fromhex("664c6143800000221000100000000f00000f0ac442f0000000013e84b41807dc690307586a3dad1a2e0f")

SOURCE = r"""
#include <FLAC/stream_decoder.h>
#include <stdint.h>
#include <stdio.h>
#include <stdlib.h>
#include <string.h>

/* One frame at a time: its description and then its bytes, read to their end. */
static const unsigned char *head, *frame;
static size_t size, at;
static unsigned blocks, faults, rate, channels, depth, block, past;
static uint64_t sum;

static FLAC__StreamDecoderReadStatus give(const FLAC__StreamDecoder *d, FLAC__byte out[], size_t *n, void *x) {
  size_t left = 42 + size - at, most = *n < left ? *n : left, i;
  for (i = 0; i < most; i++, at++) out[i] = at < 42 ? head[at] : frame[at - 42];
  *n = most;
  return most ? FLAC__STREAM_DECODER_READ_STATUS_CONTINUE : FLAC__STREAM_DECODER_READ_STATUS_END_OF_STREAM;
}

static FLAC__StreamDecoderTellStatus tell(const FLAC__StreamDecoder *d, FLAC__uint64 *out, void *x) {
  *out = at;
  return FLAC__STREAM_DECODER_TELL_STATUS_OK;
}

static FLAC__StreamDecoderWriteStatus take(const FLAC__StreamDecoder *d, const FLAC__Frame *f, const FLAC__int32 *const in[], void *x) {
  unsigned i, c, b;
  rate = f->header.sample_rate, channels = f->header.channels, depth = f->header.bits_per_sample, block = f->header.blocksize;
  unsigned wide = depth <= 16 ? 2 : 4;
  blocks++;
  sum = 0xcbf29ce484222325u;
  for (i = 0; i < block; i++)
    for (c = 0; c < channels; c++) {
      uint32_t v = (uint32_t)in[c][i] << (8 * wide - depth);
      int64_t most = (int64_t)1 << (depth - 1);
      past |= in[c][i] >= most || in[c][i] < -most;
      for (b = 0; b < wide; b++) sum = (sum ^ (v >> (8 * b) & 255)) * 0x100000001b3u;
    }
  return FLAC__STREAM_DECODER_WRITE_STATUS_CONTINUE;
}

static void fault(const FLAC__StreamDecoder *d, FLAC__StreamDecoderErrorStatus s, void *x) { faults++; }

int main(int n, char **words) {
  FILE *file = fopen(words[1], "rb");
  unsigned char *all = malloc(1 << 28);
  size_t length = fread(all, 1, 1 << 28, file), from = 42;
  head = all;
  while (from + 4 <= length) {
    size = (size_t)all[from] << 24 | all[from + 1] << 16 | all[from + 2] << 8 | all[from + 3];
    frame = all + from + 4, from += 4 + size;
    at = 0, blocks = faults = past = 0;
    FLAC__uint64 end = 0;
    FLAC__StreamDecoder *d = FLAC__stream_decoder_new();
    FLAC__stream_decoder_set_md5_checking(d, false);
    FLAC__stream_decoder_init_stream(d, give, NULL, tell, NULL, NULL, take, NULL, fault, NULL);
    FLAC__stream_decoder_process_until_end_of_metadata(d);
    FLAC__stream_decoder_process_single(d);
    FLAC__stream_decoder_get_decode_position(d, &end);
    FLAC__stream_decoder_delete(d);
    if (blocks == 1 && !faults) printf("%u %016llx %u %u %u %llu %u\n", block, (unsigned long long)sum, rate, channels, depth, (unsigned long long)end - 42, past);
    else printf("-\n");
  }
  return 0;
}
"""


def crc(table, width, data):
    sum_ = 0
    for byte in data:
        sum_ = ((sum_ << 8) & ((1 << width) - 1)) ^ table[(sum_ >> (width - 8)) ^ byte]
    return sum_


def summed(frame):
    """The frame with both of its sums made right, if it has a header."""
    if len(frame) < 12:
        return frame
    size = flac_frames.header_size(frame[:20])
    if size + 3 > len(frame):
        return frame
    body = frame[:size] + bytes([crc(flac_frames.CRC8, 8, frame[:size])]) + frame[size + 1 : -2]
    return body + crc(flac_frames.CRC16, 16, body).to_bytes(2, "big")


def changed(frame, draw):
    """A random change of a frame."""
    out = bytearray(frame)
    for _ in range(draw.choice((1, 1, 1, 2, 3))):
        if not out:
            break
        # Every other change is near the front, where the codes stand.
        place = draw.randrange(min(len(out), 16) if draw.random() < 0.5 else len(out))
        kind = draw.randrange(7)
        if kind <= 2:
            out[place] ^= 1 << draw.randrange(8)
        elif kind == 3:
            out[place] = draw.randrange(256)
        elif kind == 4:
            del out[place : place + draw.randrange(1, 4)]
        elif kind == 5:
            out[place:place] = bytes(draw.randrange(256) for _ in range(draw.randrange(1, 4)))
        else:
            del out[place + 1 :]
    return bytes(out)


def packs(draw, changes):
    """Descriptions with broken frames."""
    cuts = [FIRST[:size] for size in range(len(FIRST))]
    bits = [FIRST[:i // 8] + bytes([FIRST[i // 8] ^ 128 >> i % 8]) + FIRST[i // 8 + 1 :] for i in range(8 * len(FIRST))]
    yield DESCRIPTION, [FIRST, FIRST + b"\0"] + cuts + bits + [summed(it) for it in bits]
    with tempfile.TemporaryDirectory() as work:
        flac_frames.cases(work)
        names = sorted(it for it in os.listdir(work) if not it.endswith(".stdout"))
        files = []
        for name in names:
            with open(f"{work}/{name}", "rb") as it:
                file = it.read()
            at, frames = 42, []
            while at < len(file):
                size = int.from_bytes(file[at : at + 4], "big")
                frames.append(file[at + 4 : at + 4 + size])
                at += 4 + size
            files.append((file[:42], [it for it in frames if len(it) < 3000] or frames[-1:]))
    for number, (description, frames) in enumerate(files):
        count = changes // len(files) + (number < changes % len(files))
        made = [changed(draw.choice(frames), draw) for _ in range(count)]
        yield description, [it if i % 2 else summed(it) for i, it in enumerate(made)]


def main():
    parser = argparse.ArgumentParser(description=__doc__.splitlines()[0])
    parser.add_argument("--program", default="crates/flac_speed/out/flac_speed")
    parser.add_argument("--changes", type=int, default=100000)
    parser.add_argument("--seed", type=int, default=1)
    options = parser.parse_args()
    draw = random.Random(options.seed)
    kinds = {"both refuse": 0, "both take": 0, "differs": 0, "behind": 0, "past its depth": 0, "of 32 bits": 0, "ours alone": 0, "theirs alone": 0, "samples differ": 0}
    slow, shown = 0, {}
    with tempfile.TemporaryDirectory() as work:
        with open(f"{work}/it.c", "w") as it:
            it.write(SOURCE)
        subprocess.run(["gcc", "-O2", "-o", f"{work}/theirs", f"{work}/it.c", "-lFLAC"], check=True)
        for description, frames in packs(draw, options.changes):
            with open(f"{work}/frames", "wb") as it:
                it.write(description + b"".join(len(frame).to_bytes(4, "big") + frame for frame in frames))
            begin = time.monotonic()
            ours = subprocess.run([options.program, "each", f"{work}/frames"], check=True, capture_output=True, text=True).stdout.splitlines()
            slow += time.monotonic() - begin > max(1, len(frames) * 0.01)
            theirs = subprocess.run([f"{work}/theirs", f"{work}/frames"], check=True, capture_output=True, text=True).stdout.splitlines()
            if not len(ours) == len(theirs) == len(frames):
                sys.exit(f"{len(frames)} frames, {len(ours)} and {len(theirs)} answers")
            said = int.from_bytes(description[18:21], "big") >> 4, (description[20] >> 1 & 7) + 1, ((description[20] & 1) << 4 | description[21] >> 4) + 1
            for frame, our, their in zip(frames, ours, theirs):
                words = their.split()
                if our == "-" and their == "-":
                    kind = "both refuse"
                elif their == "-":
                    kind = "ours alone"
                elif our == "-" and tuple(map(int, words[2:5])) != said:
                    kind = "differs"
                elif our == "-" and int(words[5]) != len(frame):
                    kind = "behind"
                elif our == "-" and words[6] == "1":
                    kind = "past its depth"
                elif our == "-" and words[4] == "32":
                    kind = "of 32 bits"
                elif our == "-":
                    kind = "theirs alone"
                elif our == " ".join(words[:2]) and int(words[5]) == len(frame):
                    kind = "both take"
                else:
                    kind = "samples differ"
                kinds[kind] += 1
                if kind in ("ours alone", "theirs alone", "samples differ"):
                    shown.setdefault(kind, []).append((description, frame, our, their))
    print("; ".join(f"{kind} {count}" for kind, count in kinds.items()) + f"; {slow} slow")
    for kind, rows in shown.items():
        for description, frame, our, their in rows[:6]:
            print(f"{kind}: {description.hex()} {frame[:100].hex()} ({len(frame)} bytes): ours {our}, theirs {their}")
    sys.exit(1 if kinds["samples differ"] or slow else 0)


if __name__ == "__main__":
    main()
