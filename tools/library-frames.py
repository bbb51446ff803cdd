#!/usr/bin/env python3
"""Decodes the 100,000 broken frames of tools/library-test.sh by the program's decoder, and compares with the library.

    tools/library-frames.py [--each PATH] [--program PATH [--replayed N]] FILE

FILE is what `tools/library-test.sh FOLDER FILE` kept: each frame with its description, the library's status and its samples.
All frames are decoded by `flac_speed each` (crates/flac_speed/out/flac_speed, where PATH is left out), which calls the decoder
of the program frame by frame. With --program the first N (500 where it is left out) are replayed by `wcrun` besides, in
scripts of 100: one decoder is configured with each frame's description, decodes it and is reset. A frame has to be decoded
exactly where the library decoded it, to the same samples. Ends with 1 where the two differ. Needs python3.
"""
import argparse
import json
import os
import subprocess
import sys
import tempfile

DONE = 0
SCRIPT = 100


def frames_of(path):
    """Of each frame its description, its bytes, and the bytes of its samples where it is one."""
    with open(path, "rb") as file:
        whole = file.read()
    at = 0
    while at < len(whole):
        head, status, size = whole[at : at + 42], whole[at + 42], int.from_bytes(whole[at + 43 : at + 47], "little")
        frame, at, samples = whole[at + 47 : at + 47 + size], at + 47 + size, None
        if status == DONE:
            channels, depth = (head[20] >> 1 & 7) + 1, ((head[20] & 1) << 4 | head[21] >> 4) + 1
            count = int.from_bytes(whole[at : at + 4], "little") * channels
            samples = sound_of(whole[at + 4 : at + 4 + 4 * count], depth)
            at += 4 + 4 * count
        yield head, frame, samples


def sound_of(samples, depth):
    """Samples as a decoder's output has them: of 16 or of 32 bits, with zeros below their depth."""
    size, out = 2 if depth <= 16 else 4, bytearray()
    for i in range(0, len(samples), 4):
        value = int.from_bytes(samples[i : i + 4], "little", signed=True) << (8 * size - depth)
        out += value.to_bytes(size, "little", signed=True)
    return bytes(out)


def checksum(data):
    """FNV-1a of 64 bits, as `flac_speed each` prints it."""
    total = 0xCBF29CE484222325
    for byte in data:
        total = (total ^ byte) * 0x100000001B3 & (1 << 64) - 1
    return f"{total:016x}"


def line_of(head, samples):
    """What `flac_speed each` prints for a frame."""
    if samples is None:
        return "-"
    channels, depth = (head[20] >> 1 & 7) + 1, ((head[20] & 1) << 4 | head[21] >> 4) + 1
    return f"{len(samples) // (channels * (2 if depth <= 16 else 4))} {checksum(samples)}"


def differing(program, frames, work):
    """The numbers of the frames that `flac_speed each` decodes otherwise: those of one description are in one file."""
    parts = {}
    for number, (head, frame, samples) in enumerate(frames):
        parts.setdefault(head, []).append((number, frame, samples))
    found = []
    for place, (head, part) in enumerate(parts.items()):
        path = f"{work}/each-{place:02}"
        with open(path, "wb") as file:
            file.write(head + b"".join(len(frame).to_bytes(4, "big") + frame for _, frame, _ in part))
        lines = subprocess.run([program, "each", path], check=True, capture_output=True, text=True).stdout.splitlines()
        if len(lines) != len(part):
            sys.exit(f"{len(part)} frames, {len(lines)} answers")
        found += [number for (number, _, samples), line in zip(part, lines) if line != line_of(head, samples)]
    return found


def script_of(frames, first):
    """A script that decodes each frame by itself, and its chunk file. A frame's number is its timestamp and its moment."""
    chunks, steps, order = [b"WCC1"], [], []
    for number, (head, frame, samples) in enumerate(frames):
        name, at = f"c{number}", first + number
        chunks.append(b"\0" + at.to_bytes(8, "big") + bytes(9) + len(frame).to_bytes(4, "big") + frame)
        config = {"codec": "flac", "sampleRate": 44100, "numberOfChannels": 1, "description": head.hex()}
        steps.append({"do": "configure", "on": "d", "config": config})
        steps.append({"do": "chunk", "as": name, "file": f"f{first}", "index": number})
        steps.append({"do": "decode", "on": "d", "chunk": name})
        steps.append({"do": "reset", "on": "d"})
        # The turns of configure, and one for an event that a reset kept; where the frame is refused, none closes the codec.
        order += ["a", "a", "a", {"start": "d"}, {"done": "d", "at": 0}] + [{"turn": "d"}] * 3
        order += [{"start": "d"}, {"done": "d", "at": at + 1}] + [{"turn": "d"}] * (2 if samples is not None else 0) + ["a"]
    script = {"codecs": [{"name": "d", "kind": "audio-decoder"}], "callers": [{"name": "a", "steps": steps}], "order": order}
    return json.dumps(script, separators=(",", ":")), b"".join(chunks)


def answers_in(report):
    """The numbers of the frames that a report says were decoded and refused, and the bytes of its outputs by number."""
    decoded, refused, outputs = set(), set(), {}
    for line in report.splitlines():
        words = line.split()
        if len(words) > 4 and words[1] == "done" and words[3] != "0":
            (decoded if words[4:] == ["ran", "1"] else refused).add(int(words[3]) - 1)
        elif words[:2] == ["output", "audio"]:
            outputs[int(words[6])] = bytes.fromhex(words[8]) if words[8] != "-" else b""
    return decoded, refused, outputs


def replayed_otherwise(program, frames, work):
    """The numbers of the frames that `wcrun` decodes otherwise."""
    found = []
    for first in range(0, len(frames), SCRIPT):
        part = frames[first : first + SCRIPT]
        script, chunks = script_of(part, first)
        with open(f"{work}/frames.json", "w") as file:
            file.write(script)
        with open(f"{work}/f{first}", "wb") as file:
            file.write(chunks)
        words = [program, "replay", "frames.json"]
        report = subprocess.run(words, cwd=work, check=True, capture_output=True, text=True).stdout
        decoded, refused, outputs = answers_in(report)
        for number, (_, _, samples) in enumerate(part, first):
            said = number in decoded, number in refused, outputs.get(number)
            if said != (samples is not None, samples is None, samples):
                found.append(number)
    return found


def main():
    parser = argparse.ArgumentParser(description=__doc__.splitlines()[0])
    parser.add_argument("file")
    parser.add_argument("--each", default="crates/flac_speed/out/flac_speed")
    parser.add_argument("--program")
    parser.add_argument("--replayed", type=int, default=500)
    options = parser.parse_args()
    frames = list(frames_of(options.file))
    taken = sum(samples is not None for _, _, samples in frames)
    with tempfile.TemporaryDirectory() as work:
        found = differing(os.path.abspath(options.each), frames, work)
        print(f"{len(frames)} frames, {taken} decoded by the library; by flac_speed {len(found)} differ", flush=True)
        if options.program:
            some = frames[: options.replayed]
            more = replayed_otherwise(os.path.abspath(options.program), some, work)
            print(f"{len(some)} replayed by wcrun, {len(more)} differ")
            found += more
    for number in found[:10]:
        print(f"frame {number}: {frames[number][1].hex()}")
    sys.exit(1 if found else 0)


if __name__ == "__main__":
    main()
