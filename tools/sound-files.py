#!/usr/bin/env python3
"""Compares what the program reads from WAV and FLAC files with the system's tools and with tools/sound_reader.py.

    tools/sound-files.py [--program PATH] [--changed N] [--seed S]

Forty files are made with `flac` and `sox`. For each, the line of `probe` is compared with that of sound_reader.py, and its
rate, channels and frames with what `metaflac` and `soxi` say. Then a script decodes the file whole, and its samples are
compared with those of `flac -d`, or with the file's own. Files with tags before or behind are refused at the right place.
Then N files with 1 to 4 changed bytes, or with their end cut, are compared with sound_reader.py: the line and the status.
Ends with 1 where anything differs. Wants flac, metaflac, sox and soxi.
"""
import argparse
import importlib.util
import json
import os
import random
import struct
import subprocess
import sys
import tempfile
from concurrent.futures import ThreadPoolExecutor

HERE = os.path.dirname(os.path.realpath(__file__))


def load(name, file):
    spec = importlib.util.spec_from_file_location(name, os.path.join(HERE, file))
    made = importlib.util.module_from_spec(spec)
    spec.loader.exec_module(made)
    return made


reader = load("sound_reader", "sound_reader.py")
flac_files = load("flac_files", "flac-files.py")


def run(*words, **more):
    return subprocess.run(words, check=True, capture_output=True, **more)


def said_by(tool, *words):
    return run(tool, *words, text=True).stdout.split()


# ---- the files

PICTURE = "iVBORw0KGgoAAAANSUhEUgAAAAEAAAABCAYAAAAfFcSJAAAADUlEQVR42mNk+M9QDwADhgGAWjR9awAAAABJRU5ErkJggg=="


def flac_rows():
    extras = [[], ["-T", "TITLE=a tone"], ["-S", "10x"], ["--picture", "picture.png"], ["-P", "4096"], ["--no-padding"]]
    for k in range(24):
        depth = (8, 16, 20, 24)[k % 4]
        yield depth, 1 + k % 3, (8000, 44100, 96000, 11025, 48000)[k % 5], k % 9, extras[k % 6], k % 7 == 6


def make_flac(work, k, depth, channels, rate, level, extra, unknown):
    """One file of `flac`; of unknown length where the samples come from a pipe."""
    name, words = "%s/%d.flac" % (work, k), ["flac", "-s", "-f", "-%d" % level, *extra, "-o"]
    samples = [[(i * (c + 3) * 37) % 251 - 125 + random.randint(-2, 2) for c in range(channels)] for i in range(3000 + 100 * k)]
    samples = [[max(-128, min(127, s)) << (depth - 8) for s in row] for row in samples]
    if unknown and depth != 20:
        size = depth // 8
        raw = b"".join((s & (1 << depth) - 1).to_bytes(size, "little") for row in samples for s in row)
        form = ["--force-raw-format", "--endian=little", "--sign=signed", "--channels=%d" % channels]
        run(*words, name, *form, "--bps=%d" % depth, "--sample-rate=%d" % rate, "-", input=raw, cwd=work)
    else:
        flac_files.flac_frames.write_wave("%s/it.wav" % work, samples, channels, depth, rate)
        run(*words, name, "it.wav", cwd=work)
    return name


def extensible(work, name, tag, bits, channels, rate, frames):
    """A WAV file whose format is WAVE_FORMAT_EXTENSIBLE."""
    size = channels * bits // 8
    form = struct.pack("<HHIIHHHHI", 0xFFFE, channels, rate, rate * size, size, bits, 22, bits, 0)
    form += struct.pack("<H", tag) + bytes.fromhex("00000000100080000000aa00389b71")[:14]
    data = random.randbytes(size * frames)
    parts = b"WAVEfmt " + struct.pack("<I", len(form)) + form + b"data" + struct.pack("<I", len(data)) + data
    with open("%s/%s" % (work, name), "wb") as it:
        it.write(b"RIFF" + struct.pack("<I", len(parts)) + parts)
    return "%s/%s" % (work, name)


def wav_files(work):
    """Sixteen files: those of `sox` in each form, extensible ones, odd sizes, and data that is cut."""
    forms = [["-e", "unsigned", "-b", "8"], ["-b", "16"], ["-b", "24"], ["-b", "32"], ["-e", "a-law"], ["-e", "mu-law"]]
    for k, form in enumerate(forms + forms[:3]):
        name = "%s/s%d.wav" % (work, k)
        run("sox", "-n", "-r", str((8000, 44100, 48000)[k % 3]), "-c", str(1 + k % 3), *form, name, "synth", "%ds" % (1501 + k), "sine", "440")
        yield name, True
    for k, (tag, bits) in enumerate(((1, 8), (1, 16), (1, 24), (7, 8))):
        yield extensible(work, "e%d.wav" % k, tag, bits, 1 + k % 2, 8000, 2001), tag != 7
    for k, name in enumerate(("s0.wav", "s1.wav", "s2.wav")):
        with open("%s/%s" % (work, name), "rb") as it:
            data = it.read()
        # a part of an odd size stands in front, and the samples are cut
        at = 12 if k != 1 else 36
        with open("%s/o%d.wav" % (work, k), "wb") as it:
            it.write((data[:at] + b"note\x03\0\0\0abc\0" + data[at:])[:-1 - k])
        yield "%s/o%d.wav" % (work, k), False


# ---- what is compared

class Tally:
    def __init__(self, program):
        self.program, self.tried, self.bad = program, 0, 0

    def probe(self, name):
        made = subprocess.run([self.program, "probe", name], capture_output=True, text=True)
        return made.stdout.strip(), made.returncode

    def check(self, what, found, wanted):
        self.tried += 1
        if found != wanted:
            self.bad += 1
            print("%s: %s, wanted %s" % (what, found, wanted))

    def same_line(self, name):
        with open(name, "rb") as it:
            line, status = reader.line_of(it.read())
        wanted = line if status == 0 else "script: chunks %s %s" % (name, line)
        self.check(name, self.probe(name), (wanted, status))
        return line.split()


def decoded(program, work, name, config, count):
    """The samples that a script gives which decodes all chunks of the file."""
    steps = [{"do": "configure", "on": "d", "config": config}]
    run_all = lambda at: [{"start": "d"}, {"done": "d", "at": at}, {"turn": "d"}, {"turn": "d"}]
    order = ["a"] + run_all(0)
    for number in range(count):
        steps.append({"do": "chunk", "as": "c%d" % number, "file": name, "index": number})
        steps.append({"do": "decode", "on": "d", "chunk": "c%d" % number})
        order += ["a", "a"] + run_all(number + 1)
    script = {"codecs": [{"name": "d", "kind": "audio-decoder"}], "callers": [{"name": "a", "steps": steps}], "order": order}
    with open("%s/script.json" % work, "w") as it:
        json.dump(script, it)
    made = subprocess.run([program, "replay", "script.json"], cwd=work, capture_output=True, text=True)
    return flac_files.shown(made.stdout)[1]


def look_at_flac(tally, work, row, name):
    depth = row[1]
    words = tally.same_line(name)
    found = said_by("metaflac", "--show-sample-rate", "--show-channels", "--show-total-samples", name)
    tally.check(name + " metaflac", words[2:4], found[:2])
    with open(name, "rb") as it:
        data = it.read()
    if found[2] != "0":
        tally.check(name + " total", words[7], found[2])
    config = {"codec": "flac", "sampleRate": 1, "numberOfChannels": 1, "description": data[:42].hex()}
    ours = decoded(tally.program, work, os.path.basename(name), config, int(words[5]))
    tally.check(name + " samples", ours == flac_files.decoded(name, "%s/out.wav" % work, depth), True)
    for head, tail in ((b"ID3\4\0\0\0\0\0\0", b""), (b"", b"TAG" + b"\0" * 125)):
        with open(name + ".tagged", "wb") as it:
            it.write(head + data + tail)
        tally.same_line(name + ".tagged")


def look_at_wav(tally, work, name, is_plain):
    words = tally.same_line(name)
    found = [said_by("soxi", it, name)[0] for it in ("-r", "-c", "-s")]
    tally.check(name + " soxi", words[2:4], found[:2])
    if is_plain:
        tally.check(name + " frames", words[7], found[2])
    with open(name, "rb") as it:
        chunks = reader.read_wav(it.read())[1]
    config = {"codec": words[1], "sampleRate": int(words[2]), "numberOfChannels": int(words[3])}
    ours = decoded(tally.program, work, os.path.basename(name), config, len(chunks))
    data = b"".join(it[2] for it in chunks)
    if words[1] == "pcm-s24":
        data = b"".join(b"\0" + data[i:i + 3] for i in range(0, len(data), 3))
    if words[1] in ("alaw", "ulaw"):
        data = run("sox", "-t", "raw", "-e", {"alaw": "a-law", "ulaw": "mu-law"}[words[1]], "-c", "1", "-r", "8000", "-", "-t", "raw", "-b", "16", "-e", "signed", "-L", "-", input=data).stdout
    tally.check(name + " samples", ours == data, True)


# ---- changed files

def small_files(work):
    """Files that are read quickly: heads of WAV files with few samples, and short FLAC files."""
    for k, (tag, bits) in enumerate(((1, 8), (1, 16), (1, 24), (1, 32), (6, 8), (7, 8))):
        with open(extensible(work, "t%d.wav" % k, tag, bits, 1 + k % 2, 8000, 9), "rb") as it:
            yield it.read()
    yield bytes.fromhex("524946462800000057415645666d74201000000001000100401f0000803e000002001000646174610400000001000200")
    for k in range(8):
        depth, channels = (8, 16, 24)[k % 3], 1 + k % 2
        samples = [[(i * 7 + c) % 50 - 25 for c in range(channels)] for i in range(24 + 8 * k)]
        flac_files.flac_frames.write_wave("%s/t.wav" % work, samples, channels, depth, 44100)
        words = [[], ["--no-padding"], ["-T", "A=b"]][k % 3]
        run("flac", "-s", "-f", "-%d" % k, "-b", "16", "--lax", *words, "-o", "t.flac", "t.wav", cwd=work)
        with open("%s/t.flac" % work, "rb") as it:
            data = it.read()
        # padding says nothing here
        yield data if len(data) < 2000 else data[:4] + data[4:42] + data[42:]
    yield b"WCC1" + b"\0" * 18 + struct.pack(">I", 2) + b"ab" + b"\1" + b"\0" * 17 + struct.pack(">I", 0)[:4]


def changed(data, draw):
    data = bytearray(data)
    if draw.random() < 0.2:
        del data[draw.randrange(len(data) + 1):]
    near = len(data) if draw.random() < 0.5 else min(len(data), 80)
    for _ in range(draw.randint(0 if len(data) == 0 else 1, 4) if near else 0):
        at = draw.randrange(near)
        data[at] = draw.choice((0, 1, 2, 16, 255, draw.randrange(256), data[at] ^ 1 << draw.randrange(8)))
    return bytes(data)


def look_at_changed(tally, work, count, seed):
    bases, draw = list(small_files(work)), random.Random(seed)
    lines = {}

    def one(job):
        number, data = job
        name = "%s/m%d" % (work, number % 64)
        with open(name, "wb") as it:
            it.write(data)
        return data, name, tally.probe(name)

    with ThreadPoolExecutor(4) as lanes:
        for first in range(0, count, 64):
            jobs = [(n, changed(draw.choice(bases), draw)) for n in range(min(64, count - first))]
            for data, name, found in lanes.map(one, jobs):
                line, status = reader.line_of(data)
                wanted = line if status == 0 else "script: chunks %s %s" % (name, line)
                tally.check("changed " + data.hex(), found, (wanted, status))
                kind = " ".join(line.split()[:2]) if status else "read"
                lines[kind] = lines.get(kind, 0) + 1
    print("changed files:", ", ".join("%s %d" % it for it in sorted(lines.items())))


def main():
    words = argparse.ArgumentParser(description=__doc__.splitlines()[0])
    words.add_argument("--program", help="the program that tools/program names, where it is left out")
    words.add_argument("--changed", type=int, default=2000, help="how many changed files")
    words.add_argument("--seed", type=int, default=1)
    options = words.parse_args()
    program = options.program or subprocess.check_output([os.path.join(HERE, "program")], text=True).strip()
    tally = Tally(os.path.realpath(program))
    random.seed(options.seed)
    with tempfile.TemporaryDirectory() as work:
        with open("%s/picture.png" % work, "wb") as it:
            it.write(__import__("base64").b64decode(PICTURE))
        files = 0
        for k, row in enumerate(flac_rows()):
            look_at_flac(tally, work, (k, *row), make_flac(work, k, *row))
            files += 1
        for name, is_plain in wav_files(work):
            look_at_wav(tally, work, name, is_plain)
            files += 1
        print("%d files" % files)
        look_at_changed(tally, work, options.changed, options.seed)
    print("%d comparisons; %d differ" % (tally.tried, tally.bad))
    sys.exit(1 if tally.bad else 0)


if __name__ == "__main__":
    main()
