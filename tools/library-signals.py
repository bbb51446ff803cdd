#!/usr/bin/env python3
"""Turns 100 signals into FLAC and back by examples/wav_flac.c, and compares with the system's `flac`, sample by sample.

    tools/library-signals.py [PREFIX]

PREFIX is where tools/build-library put the library (if not said, out/zemirako at the top of the repository). The signals
have each depth (8, 16, 24 and 32 bits) and each count of channels (1 to 8), several rates and lengths, and are noise, tones,
silence, a constant, a ramp, or the least and the greatest value in turn. Of each signal:

  - `flac -t` passes the example's FLAC file (it has no MD5 sum), `flac -d` gives its samples, and so does the example;
  - of the file that `flac` itself makes of the signal the example gives the samples too.

Ends with 1 where one of these fails. Needs python3, cc and flac (1.4 or later, for 32 bits).
"""
import argparse
import math
import os
import random
import struct
import subprocess
import sys
import tempfile

TOP = os.path.dirname(os.path.dirname(os.path.realpath(__file__)))
COUNT = 100
DEPTHS = (8, 16, 24, 32)
RATES = (8000, 11025, 16000, 22050, 44100, 48000, 96000, 192000, 12345)
LENGTHS = (1, 2, 17, 1000, 4095, 4096, 4097, 9000)
KINDS = ("noise", "tones", "quiet noise", "silence", "constant", "ramp", "extremes")
# The masks of speakers with which `flac` takes so many channels.
MASKS = (0, 0x4, 0x3, 0x7, 0x33, 0x607, 0x60F, 0x70F, 0x63F)


def signal(kind, depth, channels, length, rate, draw):
    """The samples of a signal, frame by frame."""
    low, high = -(1 << (depth - 1)), (1 << (depth - 1)) - 1
    level = draw.randint(low, high)
    for i in range(length):
        for channel in range(channels):
            if kind == "noise":
                yield draw.randint(low, high)
            elif kind == "quiet noise":
                yield draw.randint(low >> 4, high >> 4)
            elif kind == "tones":
                yield int(high * 0.9 * math.sin(2 * math.pi * (220 + 110 * channel) * i / rate))
            elif kind == "silence":
                yield 0
            elif kind == "constant":
                yield level
            elif kind == "ramp":
                yield (i * 3 + channel) % (high - low + 1) + low
            else:
                yield (low, high)[(i + channel) % 2]


def packed(samples, depth):
    """The bytes of samples in a WAV file: of 8 bits from 0 to 255."""
    if depth == 8:
        return bytes(sample + 128 for sample in samples)
    size = depth // 8
    return b"".join(sample.to_bytes(size, "little", signed=True) for sample in samples)


def wav(data, depth, channels, rate):
    """A WAV file, with the extensible format where the plain one does not say enough."""
    frame = channels * depth // 8
    if depth <= 16 and channels <= 2:
        form = struct.pack("<HHIIHH", 1, channels, rate, rate * frame, frame, depth)
    else:
        guid = bytes.fromhex("0100000000001000800000aa00389b71")
        form = struct.pack("<HHIIHHHHI", 0xFFFE, channels, rate, rate * frame, frame, depth, 22, depth, MASKS[channels]) + guid
    parts = b"fmt " + struct.pack("<I", len(form)) + form + b"data" + struct.pack("<I", len(data)) + data + b"\0" * (len(data) % 2)
    return b"RIFF" + struct.pack("<I", 4 + len(parts)) + b"WAVE" + parts


def data_of(path):
    """The bytes of the samples of a WAV file."""
    with open(path, "rb") as file:
        whole = file.read()
    at = 12
    while whole[at : at + 4] != b"data":
        at += 8 + (int.from_bytes(whole[at + 4 : at + 8], "little") + 1) // 2 * 2
    return whole[at + 8 : at + 8 + int.from_bytes(whole[at + 4 : at + 8], "little")]


def passes(*words):
    run = subprocess.run(words, capture_output=True, text=True, check=False)
    if run.returncode:
        print(f"{' '.join(words)}: {run.stderr.strip()[:500]}")
    return run.returncode == 0


def faults(program, work, data, depth, channels, rate):
    """What does not hold of a signal."""
    source, ours, theirs, back = (f"{work}/{name}" for name in ("in.wav", "ours.flac", "theirs.flac", "back.wav"))
    with open(source, "wb") as file:
        file.write(wav(data, depth, channels, rate))
    if not passes(program, "encode", source, ours):
        return ["encoding"]
    found = []
    if not passes("flac", "-t", "--silent", ours):
        found.append("flac -t")
    rows = (
        ("flac -d", ("flac", "-d", "--silent", "-f", "-o", back, ours)),
        ("decoding its own", (program, "decode", ours, back)),
        ("flac", ("flac", "--silent", "-f", "-o", theirs, source)),
        ("decoding flac's", (program, "decode", theirs, back)),
    )
    for name, words in rows:
        if not passes(*words) or (name != "flac" and data_of(back) != data):
            found.append(name)
    return found


def main():
    parser = argparse.ArgumentParser(description=__doc__.splitlines()[0])
    parser.add_argument("prefix", nargs="?", default=f"{TOP}/out/zemirako")
    options = parser.parse_args()
    draw = random.Random(22)
    bad = 0
    with tempfile.TemporaryDirectory() as work:
        program = f"{work}/wav_flac"
        words = ["cc", "-std=c11", "-Wall", "-Wextra", "-Werror", "-g", "-O1", "-fsanitize=address,undefined"]
        words += ["-fno-sanitize-recover=all", f"-I{options.prefix}/include", "-o", program, f"{TOP}/examples/wav_flac.c"]
        subprocess.run(words + [f"{options.prefix}/lib/libzemirako.a"], check=True)
        for number in range(COUNT):
            depth, channels = DEPTHS[number % 4], number // 4 % 8 + 1
            kind, length, rate = KINDS[number % 7], draw.choice(LENGTHS), RATES[number % 9]
            data = packed(signal(kind, depth, channels, length, rate, draw), depth)
            for fault in faults(program, work, data, depth, channels, rate):
                bad += 1
                print(f"signal {number}, {kind}, {depth} bits, {channels} channels, {length} frames, {rate} Hz: {fault}")
    print(f"{COUNT} signals, {bad} faults")
    sys.exit(1 if bad else 0)


if __name__ == "__main__":
    main()
