#!/usr/bin/env python3
"""Compares the program's FLAC encoder with the system's `flac`, sample by sample.

    tools/flac-encodings.py [--program PATH | --replay WCRUN] [--count N] [--keep FOLDER]

Encodes 500 signals by crates/flac_encode_speed, or by scripts that wcrun replays: each depth, channel count and level, blocks of 16 to 65,535 frames and the
block size 0, silence, noise, tones, wasted bits, extreme values, lengths that are no multiple of the block, samples in each
format and brought to each depth, pushed in pieces of odd sizes. The frames go behind a native head (`fLaC` and a
STREAMINFO with the block size as the least and the greatest, and no total and no sum of the samples), which is compared with
the description that wcrun reports; `flac -t` must pass, and `flac -d` must give the samples that were made. Ends with 1
where one differs; --keep keeps the files of those.
"""
import argparse
import json
import math
import os
import random
import subprocess
import sys
import tempfile

DEPTHS = (8, 16, 24, 32)
RATES = (44100, 8000, 48000, 11025, 192000, 96000, 12345, 65535, 655350, 1, 1048575, 22050, 700001)
BLOCKS = (16, 4096, 17, 192, 1000, 0, 256, 333, 4097, 576, 65535, 31, 1024, 4608, 48, 16384, 2048, 65534, 64, 257)
PIECES = (1, 3, 7, 17, 63, 255, 999, 4097, 5001, 70001)
BITS = {"u8": 8, "s16": 16, "s32": 32}
SAMPLES = 24000


def walk(state, c, most):
    step = random.randint(-most // 50 - 1, most // 50 + 1)
    state[c] = max(-most, min(most - 1, state.get(c, 0) + step))
    return state[c]


def tones(i, c):
    return 0.5 * math.sin(i * 0.03 + c) + 0.3 * math.sin(i * 0.0071 * (c + 1)) + random.uniform(-0.002, 0.002)


# A signal gives a sample of frame `i` and channel `c`; those outside of -most to most - 1 are cut.
SIGNALS = {
    "silence": lambda i, c, most, state: 0,
    "noise": lambda i, c, most, state: random.randint(-most, most - 1),
    "tones": lambda i, c, most, state: most * tones(i, c),
    "wasted": lambda i, c, most, state: int(most * tones(i, c)) >> 3 << 3,
    "extremes": lambda i, c, most, state: most - 1 if (i // 7 + c) % 2 else -most,
    "walk": lambda i, c, most, state: walk(state, c, most),
    "side": lambda i, c, most, state: 0.7 * most * math.sin(i * 0.05) * (-1) ** c + random.randint(-2, 2),
    "lowest": lambda i, c, most, state: -most,
    "alike": lambda i, c, most, state: 0.6 * most * math.sin(i * 0.021) + c * (i % 3 == 0),
    "alternating": lambda i, c, most, state: most - 1 if (i + c) % 2 else -most,
    "clicks": lambda i, c, most, state: random.randint(-most, most - 1) if i % 97 == 0 else 0,
    "quiet": lambda i, c, most, state: random.randint(-3, 3),
    "ramp": lambda i, c, most, state: (i * (c + 1) * max(1, most // 4000)) % (2 * most) - most,
    "steps": lambda i, c, most, state: 0.7 * most * ((i // 50) % 5 - 2) / 3,
    "loud": lambda i, c, most, state: 1.2 * most * math.sin(i * 0.4 + c),
    "half": lambda i, c, most, state: 0 if i < 3000 else random.randint(-most, most - 1),
}


def case_of(number):
    """What the encoding of a number is: each depth, channel count and level, and the others in turn."""
    depth, channels, level = DEPTHS[number % 4], number // 4 % 8 + 1, number // 32 % 9
    format_ = {8: "u8", 16: "s16"}.get(depth, "s32")
    if number % 7 == 3:
        format_ = random.choice(list(BITS))
    block = BLOCKS[(number * 3 + number // 20) % len(BLOCKS)]
    frames = block or 4096
    count = frames * random.randint(0, 3) + random.randint(1, frames)
    if number % 11 != 0:
        count = min(count, max(1, SAMPLES // channels - random.randint(0, 50)))
    elif channels > 2:
        count = min(count, 70000 // channels * 3)
    if number % 13 == 5:
        count = max(1, count - count % frames)
    return {
        "kind": list(SIGNALS)[(number + number // 16) % len(SIGNALS)],
        "format": ("planar-" if number % 5 == 4 else "") + format_,
        "rate": RATES[number % len(RATES)],
        "channels": channels,
        "depth": depth,
        "level": level,
        "block": block,
        "piece": PIECES[(number * 7 + number // 10) % len(PIECES)],
        "frames": count,
    }


def samples_of(case, bits):
    """The samples in so many bits, frame by frame."""
    most, state = 1 << (bits - 1), {}
    signal = SIGNALS[case["kind"]]
    at = lambda i, c: max(-most, min(most - 1, int(signal(i, c, most, state))))
    return [[at(i, c) for c in range(case["channels"])] for i in range(case["frames"])]


def stored(samples, bits, planar, piece):
    """The bytes of samples as the encoder takes them."""
    middle, size, out = (128 if bits == 8 else 0), bits // 8, bytearray()
    full = (1 << bits) - 1
    for begin in range(0, len(samples), piece):
        rows = samples[begin : begin + piece]
        for row in zip(*rows) if planar else rows:
            for sample in row:
                out += ((sample + middle) & full).to_bytes(size, "little")
    return bytes(out)


def at_depth(samples, bits, depth):
    """The samples of so many bits, brought to a depth."""
    more = depth - bits
    return [[s << more if more >= 0 else s >> -more for s in row] for row in samples]


def raw(samples, depth):
    size, full = depth // 8, (1 << depth) - 1
    return b"".join((s & full).to_bytes(size, "little") for row in samples for s in row)


def head(case):
    """What stands before the first frame of a native file (RFC 9639, sections 6 to 8.2)."""
    frames = case["block"] or 4096
    fields = case["rate"] << 44 | (case["channels"] - 1) << 41 | (case["depth"] - 1) << 36
    info = frames.to_bytes(2, "big") * 2 + bytes(6) + fields.to_bytes(8, "big") + bytes(16)
    return b"fLaC\x80" + len(info).to_bytes(3, "big") + info


def script_of(case, samples, bits, planar):
    """A script that encodes the samples, in at most 200 pieces, and flushes."""
    size = max(case["piece"], len(samples) // 200 + 1)
    format_ = f"{case['format'].split('-')[-1]}{'-planar' if planar else ''}"
    shape = {"sampleRate": case["rate"], "numberOfChannels": case["channels"]}
    flac = {"blockSize": case["block"], "compressLevel": case["level"], "bitsPerSample": case["depth"]}
    steps = [{"do": "configure", "on": "e", "config": {"codec": "flac", **shape, "flac": flac}}]
    for begin in range(0, len(samples), size):
        rows, name = samples[begin : begin + size], f"x{begin}"
        data = stored(rows, bits, planar, size).hex()
        init = {"format": format_, **shape, "numberOfFrames": len(rows), "timestamp": begin, "data": data}
        steps += [{"do": "audio", "as": name, "init": init}, {"do": "encode", "on": "e", "data": name}]
    steps.append({"do": "flush", "on": "e", "as": "p"})
    rounds = [{"start": "e"}, {"done": "e", "at": 0}, {"turn": "e"}, {"turn": "e"}, {"turn": "e"}] * len(steps)
    codec, caller = {"name": "e", "kind": "audio-encoder"}, {"name": "a", "steps": steps}
    return json.dumps({"codecs": [codec], "callers": [caller], "order": ["a"] * len(steps) + rounds})


def replayed(case, samples, bits, planar, program, work):
    """The head and the frames that a replay reports, or what is wrong."""
    with open(f"{work}/s.json", "w") as it:
        it.write(script_of(case, samples, bits, planar))
    made = subprocess.run([program, "replay", "s.json"], cwd=work, capture_output=True, text=True)
    if made.returncode != 0 or not made.stdout.endswith("\nend\n"):
        return None, f"wcrun ends with {made.returncode} {made.stdout[-200:]!r}"
    lines = [line.split() for line in made.stdout.splitlines() if line.startswith("  ")]
    described = [line[4] for line in lines if line[0] == "config"]
    if described != [head(case).hex()] or any(line[0] == "error" for line in lines):
        return None, f"another description or an error: {described}"
    return bytes.fromhex("".join(line[5] for line in lines if line[:2] == ["output", "chunk"])), None


def encoded(case, samples, bits, planar, options, work):
    """The frames of an encoding, or what is wrong."""
    if options.replay:
        return replayed(case, samples, bits, planar, options.replay, work)
    names = ("format", "rate", "channels", "depth", "level", "block", "piece")
    words = [options.program, "write", *(str(case[name]) for name in names), f"{work}/samples"]
    made = subprocess.run(words, capture_output=True)
    if made.returncode != 0:
        return None, f"the encoder ends with {made.returncode} {made.stderr!r}"
    return made.stdout, None


def first_difference(case, wanted, found):
    size = case["depth"] // 8
    for at in range(0, max(len(wanted), len(found)), size):
        a, b = wanted[at : at + size], found[at : at + size]
        if a != b:
            frame, channel = divmod(at // size, case["channels"])
            shown = [int.from_bytes(it, "little", signed=True) if it else None for it in (a, b)]
            return f"frame {frame}, channel {channel}: {shown[0]} was given, {shown[1]} came out"
    return "nothing"


def fault_of(case, options, work):
    """What is wrong with an encoding, or None; and the size of the frames."""
    words = case["format"].split("-")
    bits, planar = BITS[words[-1]], len(words) > 1
    samples = samples_of(case, bits)
    with open(f"{work}/samples", "wb") as it:
        it.write(stored(samples, bits, planar, case["piece"]))
    frames, fault = encoded(case, samples, bits, planar, options, work)
    if frames is None:
        return fault, 0
    with open(f"{work}/it.flac", "wb") as it:
        it.write(head(case) + frames)
    tested = subprocess.run(["flac", "-s", "-t", f"{work}/it.flac"], capture_output=True, text=True)
    if tested.returncode != 0:
        return f"flac -t: {tested.stderr.strip()}", len(frames)
    form = ["--force-raw-format", "--endian=little", "--sign=signed"]
    decoded = subprocess.run(["flac", "-s", "-d", "-c", *form, f"{work}/it.flac"], capture_output=True)
    if decoded.returncode != 0:
        return f"flac -d: {decoded.stderr!r}", len(frames)
    wanted = raw(at_depth(samples, bits, case["depth"]), case["depth"])
    if decoded.stdout != wanted:
        return first_difference(case, wanted, decoded.stdout), len(frames)
    return None, len(frames)


def main():
    parser = argparse.ArgumentParser(description=__doc__.splitlines()[0])
    parser.add_argument("--program", default="crates/flac_encode_speed/out/flac_encode_speed")
    parser.add_argument("--replay", help="a wcrun, by whose replays to encode")
    parser.add_argument("--count", type=int, default=500, help="how many encodings")
    parser.add_argument("--keep", help="a folder for what differs")
    options = parser.parse_args()
    if options.replay:
        options.replay = os.path.realpath(options.replay)
    bad = samples = size = 0
    seen = {name: set() for name in ("kind", "format", "channels", "depth", "level", "block", "piece")}
    with tempfile.TemporaryDirectory() as work:
        for number in range(options.count):
            random.seed(number)
            case = case_of(number)
            fault, count = fault_of(case, options, work)
            samples += case["frames"] * case["channels"]
            size += count
            for name, values in seen.items():
                values.add(case[name])
            if fault is None:
                continue
            bad += 1
            print(f"{number}: {case}: {fault}")
            if options.keep:
                os.makedirs(options.keep, exist_ok=True)
                for name in ("samples", "it.flac"):
                    if os.path.exists(f"{work}/{name}"):
                        os.replace(f"{work}/{name}", f"{options.keep}/{number}-{name}")
    print("; ".join(f"{name} {len(values)}" for name, values in seen.items()))
    print(f"{options.count} encodings, {samples} samples, {size} bytes of frames, {bad} differ")
    sys.exit(1 if bad else 0)


if __name__ == "__main__":
    main()
