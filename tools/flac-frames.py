#!/usr/bin/env python3
"""Makes frames for crates/flac_speed with the system's `flac`.

tools/flac-frames.py pack IN.flac OUT      the description and the frames of a file, each frame behind its size
tools/flac-frames.py cases FOLDER          104 such files of many kinds, each with the bytes that its samples must come to

The cases differ in depth (4 to 32 bits), channels (1 to 8), rate, block size, level, predictor order (to 32) and signal. Their
bytes are made from the samples that `flac` was given, so that no decoder's word is taken. Then:
    cd crates/flac_speed && rt try --cases FOLDER -- write {}
"""
import math
import os
import random
import struct
import subprocess
import sys
import tempfile


def table(width, low):
    rows = []
    for byte in range(256):
        sum_ = byte << (width - 8)
        for _ in range(8):
            sum_ = (sum_ << 1) ^ low if sum_ >> (width - 1) else sum_ << 1
            sum_ &= (1 << width) - 1
        rows.append(sum_)
    return rows


CRC8, CRC16 = table(8, 0x07), table(16, 0x8005)


def header_size(at):
    """The bytes of a header up to its sum."""
    leading = 0
    while at[4] & (0x80 >> leading):
        leading += 1
    size = 4 + max(leading, 1)
    size += {6: 1, 7: 2}.get(at[2] >> 4, 0)
    return size + {12: 1, 13: 2, 14: 2}.get(at[2] & 15, 0)


def is_header(at):
    size = header_size(at)
    if size >= len(at):
        return False
    sum_ = 0
    for byte in at[:size]:
        sum_ = CRC8[sum_ ^ byte]
    return sum_ == at[size]


def frames_of(stream):
    """Cuts a stream where a header begins and the sum of the bytes before it is 0, as that of whole frames is."""
    cuts, sum_ = [0], 0
    for i, byte in enumerate(stream):
        if sum_ == 0 and i > cuts[-1] and byte == 0xFF and stream[i + 1] & 0xFE == 0xF8:
            if is_header(stream[i : i + 20]):
                cuts.append(i)
        sum_ = ((sum_ << 8) & 0xFFFF) ^ CRC16[(sum_ >> 8) ^ byte]
    cuts.append(len(stream))
    return [stream[a:b] for a, b in zip(cuts, cuts[1:])]


def pack(path, out):
    with open(path, "rb") as it:
        file = it.read()
    at, info = 4, b""
    while True:
        kind, size = file[at], int.from_bytes(file[at + 1 : at + 4], "big")
        if kind & 127 == 0:
            info = file[at + 4 : at + 4 + size]
        at += 4 + size
        if kind & 128:
            break
    with open(out, "wb") as it:
        it.write(b"fLaC\x80\x00\x00\x22" + info)
        for frame in frames_of(file[at:]):
            it.write(len(frame).to_bytes(4, "big") + frame)


MASKS = {1: 4, 2: 3, 3: 7, 4: 0x33, 5: 0x37, 6: 0x3F, 7: 0x70F, 8: 0x63F}


def write_wave(path, samples, channels, depth, rate):
    size = (depth + 7) // 8
    up, full = 8 * size - depth, (1 << (8 * size)) - 1
    middle = 128 if size == 1 else 0
    body = b"".join((((s << up) + middle) & full).to_bytes(size, "little") for row in samples for s in row)
    form = struct.pack("<HHIIHHHHI", 0xFFFE, channels, rate, rate * size * channels, size * channels, 8 * size, 22, depth, MASKS[channels])
    form += bytes.fromhex("0100000000001000800000aa00389b71")
    parts = b"WAVEfmt " + struct.pack("<I", len(form)) + form + b"data" + struct.pack("<I", len(body)) + body + b"\0" * (len(body) % 2)
    with open(path, "wb") as it:
        it.write(b"RIFF" + struct.pack("<I", len(parts)) + parts)


def output(samples, depth):
    """The bytes that samples must come to: 16 bits each up to a depth of 16, and else 32, with zeros below the depth."""
    size = 2 if depth <= 16 else 4
    up, full = 8 * size - depth, (1 << (8 * size)) - 1
    return b"".join(((s << up) & full).to_bytes(size, "little") for row in samples for s in row)


SIGNALS = {
    "sine": lambda i, c, most: 0.7 * most * math.sin(i * 0.05 * (c + 1)),
    "noise": lambda i, c, most: random.randint(-most, most - 1),
    "sweep": lambda i, c, most: 0.7 * most * math.sin(i * i * 1e-4 + c),
    "silence": lambda i, c, most: 0,
    "mix": lambda i, c, most: most * (0.35 * math.sin(i * 0.07 + c * 0.2) + 0.14 * math.sin(i * 0.41)) + random.gauss(0, most * 0.007),
    "wasted": lambda i, c, most: (int(0.7 * most * math.sin(i * 0.03 + c)) >> 4) << 4,
    "side": lambda i, c, most: 0.7 * most * math.sin(i * 0.05) * (-1) ** c + random.randint(-2, 2),
    "extremes": lambda i, c, most: most - 1 if (i // 7 + c) % 2 else -most,
    "steps": lambda i, c, most: 0.7 * most * ((i // 50) % 5 - 2) / 3,
    "clicks": lambda i, c, most: random.randint(-most, most - 1) if i % 97 == 0 else 0,
}


def rows():
    kinds = list(SIGNALS)
    rates = [44100, 8000, 48000, 11025, 192000, 96000, 12345, 65535, 655350, 1000, 22050]
    blocks = [4096, 16, 192, 576, 1024, 65535, 333]
    shapes = [(depth, channels) for depth in (8, 12, 16, 20, 24, 32) for channels in (1, 2, 3, 6, 8)]
    for k, (depth, channels) in enumerate(shapes):
        words = [f"-{k % 9}", "-b", str(blocks[(k + 1) % 7])]
        yield kinds[k % 10], channels, depth, rates[(k + 1) % 11], words, 900 if channels > 3 else 2500
    for depth in (4, 5, 7, 9, 11, 13, 17, 19, 23, 25, 28, 31):
        for channels in (1, 2):
            yield kinds[(depth + channels) % 10], channels, depth, 44100, ["-5"], 700
    for level in range(9):
        for kind in ("mix", "side"):
            yield kind, 2, 16, 44100, [f"-{level}"], 6000
    for order in (13, 20, 26, 27, 28, 32):
        yield "sweep", 1, 16, 48000, ["-l", str(order), "-b", "4608", "-e"], 9000
        yield "mix", 2, 24, 96000, ["-l", str(order), "-b", "2048", "-q", "15"], 4096
    for kind in kinds:
        yield kind, 2, 32, 44100, ["-8", "-b", "4096"], 3000
        yield kind, 2, 24, 44100, ["-8", "-b", "1152", "-r", "8"], 3000


def cases(folder, keep=False):
    """Makes the cases, and keeps the files of `flac` beside them where that is asked for."""
    random.seed(11)
    os.makedirs(folder, exist_ok=True)
    with tempfile.TemporaryDirectory() as work:
        wave, coded = f"{work}/it.wav", f"{work}/it.flac"
        for number, (kind, channels, depth, rate, words, count) in enumerate(rows()):
            most = 1 << (depth - 1)
            at = lambda i, c: max(-most, min(most - 1, int(SIGNALS[kind](i, c, most))))
            samples = [[at(i, c) for c in range(channels)] for i in range(count)]
            write_wave(wave, samples, channels, depth, rate)
            subprocess.run(["flac", "-s", "-f", "--lax", "--no-padding", "-o", coded, *words, wave], check=True)
            name = f"{folder}/{number:03}-{kind}-{channels}-{depth}"
            pack(coded, name)
            with open(f"{name}.stdout", "wb") as it:
                it.write(output(samples, depth))
            if keep:
                os.replace(coded, f"{name}.flac")


if __name__ == "__main__":
    match sys.argv[1:]:
        case ["pack", path, out]:
            pack(path, out)
        case ["cases", folder]:
            cases(folder)
        case _:
            sys.exit(__doc__)
