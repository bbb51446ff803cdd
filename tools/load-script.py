#!/usr/bin/env python3
"""Writes the script that `wcrun load START N` runs, as the JSON of docs/FORMATS.md.

usage: load-script.py START N > SCRIPT
"""
import json
import sys

CODECS = ["ulaw", "alaw", "pcm-s16", "pcm-u8"]


def draws(state):
    while True:
        state = (state * 6364136223846793005 + 1442695040888963407) % (1 << 64)
        yield state >> 56


def steps(number, codec, chunks, drawn):
    on = f"d{number}"
    config = {"codec": codec, "sampleRate": 8000, "numberOfChannels": 1}
    made = [{"do": "configure", "on": on, "config": config}]
    for chunk in range(chunks):
        name = f"v{len(made)}"
        data = bytes(next(drawn) for _ in range(160)).hex()
        made.append({"do": "chunk", "as": name, "init": {"type": "key", "timestamp": 20000 * chunk, "data": data}})
        made.append({"do": "decode", "on": on, "chunk": name})
    name = f"v{len(made)}"
    made += [{"do": "flush", "on": on, "as": name}, {"do": "await", "promise": name}]
    for _ in range(chunks):
        made.append({"do": "take", "on": on, "as": f"v{len(made)}"})
    return made


def main():
    start, chunks = int(sys.argv[1]), int(sys.argv[2])
    drawn = draws(start)
    callers = [{"name": f"c{i}", "steps": steps(i, codec, chunks, drawn)} for i, codec in enumerate(CODECS)]
    codecs = [{"name": f"d{i}", "kind": "audio-decoder"} for i in range(4)]
    json.dump({"codecs": codecs, "callers": callers}, sys.stdout, separators=(",", ":"))


main()
