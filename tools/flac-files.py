#!/usr/bin/env python3
"""Compares the program's FLAC decoder with the system's `flac -d`, on files that `flac` writes, sample by sample.

    tools/flac-files.py [--program PATH] [--most FRAMES]

Each file goes as a chunk file, one frame a chunk, with a script that decodes them all, through `wcrun replay`; the output
lines of its report are compared with the samples that `flac -d` writes. The files are those of tools/flac-frames.py: levels 0
to 8, 1 to 8 channels, 4 to 32 bits, odd rates, blocks of 16 to 65,535 samples, silence, noise, sweeps, wasted bits, `--lax`.
Ends with 1 where a file differs.
"""
import argparse
import importlib.util
import json
import os
import subprocess
import sys
import tempfile

HERE = os.path.dirname(os.path.realpath(__file__))
spec = importlib.util.spec_from_file_location("flac_frames", os.path.join(HERE, "flac-frames.py"))
flac_frames = importlib.util.module_from_spec(spec)
spec.loader.exec_module(flac_frames)


def packed(path):
    """The description and the frames of a file as flac-frames.py packs them."""
    with open(path, "rb") as it:
        file = it.read()
    at, frames = 42, []
    while at < len(file):
        size = int.from_bytes(file[at : at + 4], "big")
        frames.append(file[at + 4 : at + 4 + size])
        at += 4 + size
    return file[:42], frames


def write_script(folder, description, frames):
    """A chunk file, and a script that decodes its chunks one after another."""
    with open(f"{folder}/chunks", "wb") as it:
        it.write(b"WCC1")
        for number, frame in enumerate(frames):
            it.write(b"\0" + number.to_bytes(8, "big") + b"\0" * 9 + len(frame).to_bytes(4, "big") + frame)
    config = {"codec": "flac", "sampleRate": 1, "numberOfChannels": 1, "description": description.hex()}
    steps = [{"do": "configure", "on": "d", "config": config}]
    run = lambda at: [{"start": "d"}, {"done": "d", "at": at}, {"turn": "d"}, {"turn": "d"}]
    order = ["a"] + run(0)
    for number in range(len(frames)):
        steps.append({"do": "chunk", "as": f"c{number}", "file": "chunks", "index": number})
        steps.append({"do": "decode", "on": "d", "chunk": f"c{number}"})
        order += ["a", "a"] + run(number + 1)
    script = {"codecs": [{"name": "d", "kind": "audio-decoder"}], "callers": [{"name": "a", "steps": steps}], "order": order}
    with open(f"{folder}/script.json", "w") as it:
        json.dump(script, it)


def shown(report):
    """The shapes and the bytes of a report's outputs."""
    shapes, parts = set(), []
    for line in report.splitlines():
        words = line.split()
        if words[:2] == ["output", "audio"]:
            shapes.add(tuple(words[2:5]))
            parts.append(bytes.fromhex(words[8]))
    return shapes, b"".join(parts)


def decoded(coded, wave, depth):
    """The samples that `flac -d` writes, as 16 bits up to a depth of 16, and else 32, with zeros below the depth."""
    subprocess.run(["flac", "-s", "-d", "-f", "-o", wave, coded], check=True)
    with open(wave, "rb") as it:
        file = it.read()
    at = 12
    while file[at : at + 4] != b"data":
        size = int.from_bytes(file[at + 4 : at + 8], "little")
        at += 8 + size + size % 2
    data = file[at + 8 : at + 8 + int.from_bytes(file[at + 4 : at + 8], "little")]
    # Samples stand at the upper end of whole bytes; those of one byte have their middle at 128.
    if depth <= 8:
        return b"".join(bytes((0, byte ^ 128)) for byte in data)
    if 16 < depth <= 24:
        return b"".join(b"\0" + data[i : i + 3] for i in range(0, len(data), 3))
    return data


def main():
    parser = argparse.ArgumentParser(description=__doc__.splitlines()[0])
    parser.add_argument("--program", help="the program that tools/program names, where it is left out")
    parser.add_argument("--most", type=int, default=2000, help="the most frames of a file")
    options = parser.parse_args()
    program = options.program or subprocess.check_output([os.path.join(HERE, "program")], text=True).strip()
    files = frames_in_all = samples = bad = 0
    with tempfile.TemporaryDirectory() as work:
        flac_frames.cases(f"{work}/cases", keep=True)
        for name in sorted(it for it in os.listdir(f"{work}/cases") if it.endswith(".flac")):
            coded = f"{work}/cases/{name}"
            description, frames = packed(coded[: -len(".flac")])
            if len(frames) > options.most:
                continue
            number, kind, channels, depth = name[: -len(".flac")].split("-")
            write_script(work, description, frames)
            run = subprocess.run([os.path.realpath(program), "replay", "script.json"], cwd=work, capture_output=True, text=True)
            shapes, ours = shown(run.stdout)
            theirs = decoded(coded, f"{work}/it.wav", int(depth))
            form = "s16" if int(depth) <= 16 else "s32"
            rate = int.from_bytes(description[18:21], "big") >> 4
            files, frames_in_all, samples = files + 1, frames_in_all + len(frames), samples + len(ours) // (2 if form == "s16" else 4)
            if run.returncode != 0 or ours != theirs or shapes != {(form, str(rate), channels)}:
                bad += 1
                print(f"{name}: status {run.returncode}, {len(ours)} bytes, wanted {len(theirs)}, {shapes}")
    print(f"{files} files, {frames_in_all} frames, {samples} samples; {bad} differ")
    sys.exit(1 if bad else 0)


if __name__ == "__main__":
    main()
