#!/usr/bin/env python3
"""Makes random sequences of calls by the engine for C, with misuse among them, and replays them by the program.

    tools/engine-calls.py [--prefix PREFIX] [--program PROGRAM] [--count N] [--seed N] [--plain]

PREFIX is that of tools/build-engine (out/zemirako_engine, if not said), and PROGRAM a wcrun (that of tools/program). Each
sequence has two decoders and 10 to 40 calls: configures, decodes, flushes, resets, closes, work, turns, looks, and work that
leaves and comes back. Misuse is calls where no decoder was opened or one was ended, a saturation out of range, an item of the
other decoder, and items that come back before they were performed; calls that have nothing to do come by themselves.
tools/engine-calls.c makes them, under the address and undefined-behaviour sanitizers (with --plain, without), and looks at
each status. The calls become scripts, 32 sequences in each, where misuse has no step. The entries of both, with outputs,
exceptions and ends of promises, and each look at a decoder's state, are compared. Not compared is what C does not tell: how
many outputs an item gave or that it was refused, and the durations of outputs. Needs cc and python3."""
import argparse
import collections
import json
import os
import random
import re
import subprocess
import sys
import tempfile

TOP = os.path.dirname(os.path.dirname(os.path.abspath(__file__)))
SEQUENCES = 32  # of a script, which has at most 64 codecs
MANY = 32 * SEQUENCES  # of one run of the C part


def crc(bits, polynomial, data):
    value, top = 0, 1 << (bits - 1)
    for byte in data:
        value ^= byte << (bits - 8)
        for _ in range(8):
            value = (value << 1 ^ (polynomial if value & top else 0)) & ((1 << bits) - 1)
    return value.to_bytes(bits // 8, "big")


def flac_frame(number, samples, value):
    """One channel of 16 bits whose samples are all one, at 8 kHz."""
    head = bytes([0xFF, 0xF8, 0x64, 0x08, number, samples - 1])
    frame = head + crc(8, 0x07, head) + b"\0" + value.to_bytes(2, "big")
    return frame + crc(16, 0x8005, frame)


DESCRIPTION = "664c6143800000221000100000000000000001f400f0" + "00" * 20
# codec, rate, channels, description, bytes of a frame
CONFIGS = [("pcm-u8", 8000, 1, "-", 1), ("pcm-s16", 8000, 1, "-", 2), ("pcm-s16", 44100, 2, "-", 4), ("pcm-s24", 8000, 1, "-", 3),
           ("pcm-s32", 8000, 1, "-", 4), ("alaw", 8000, 1, "-", 1), ("ulaw", 8000, 2, "-", 2), ("flac", 8000, 1, DESCRIPTION, 0)]
BAD_CONFIGS = [("nope", 8000, 1, "-", 1), ("_", 8000, 1, "-", 1), ("alaw", 0, 1, "-", 1), ("alaw", 8000, 0, "-", 1),
               ("pcm-s16", 8000, 33, "-", 66), ("flac", 8000, 1, "-", 0), ("flac", 8000, 1, "00", 0)]
WORDS = "eeeeeeeetttttwwwwssspppdddffcrxlllmmgbEDDDDDDBBBB"


class Decoder:
    def __init__(self):
        self.config, self.full, self.begun = CONFIGS[1], False, False


def chunk(draw, config):
    if config[0] == "flac":
        data = flac_frame(draw.randrange(100), draw.randint(1, 8), draw.randrange(65536))
        if draw.random() < 0.1:
            at = draw.randrange(len(data))
            data = data[:at] + bytes([data[at] ^ 1 << draw.randrange(8)]) + data[at + 1:]
    else:
        data = draw.randbytes(config[4] * draw.choice((0, 1, 1, 2, 2, 3, 5)) + (draw.random() < 0.04))
    return f"{int(draw.random() < 0.9)} {draw.randint(-9000, 9000)} {data.hex() or '-'}"


def sequence(draw):
    """Calls of one sequence. A room of work is filled by s, and emptied by d and m, whatever lies there."""
    calls, decoders = [f"S {draw.choice((1, 1, 2, 4, 64))} {draw.choice((1, 2, 4))}"], (Decoder(), Decoder())
    for number in range(draw.randint(10, 40)):
        d = int(draw.random() < 0.3)
        it, other = decoders[d], decoders[1 - d]
        word = draw.choice(WORDS)
        if not it.begun and draw.random() < 0.8:
            word, it.begun = "c", True
        elif word in "crx" and draw.random() < 0.5:
            continue
        if word == "c":
            it.config = draw.choice(BAD_CONFIGS if draw.random() < 0.12 else CONFIGS)
            codec, rate, channels, description, _ = it.config
            calls.append(f"c {d} {rate} {channels} {codec} {description}")
        elif word == "e":
            calls.append(f"e {d} {chunk(draw, it.config)}")
        elif word == "D":  # an item, and its turns
            calls += [f"w {d} {number}"] + [f"t {d}"] * draw.randint(1, 4)
        elif word == "B" and not it.full:  # the same, and the item leaves
            calls += [f"s {d}", f"p {d}"][:draw.randint(1, 2)] + [f"d {d} {number}"] + [f"t {d}"] * draw.randint(1, 4)
        elif word in "frxtl" or word == "s" and not it.full or word == "p" and it.full:
            calls.append(f"{word} {d}")
            it.full |= word == "s"
        elif word == "w" or word == "d" and it.full:
            calls.append(f"{word} {d} {number}")
            it.full &= word != "d"
        elif word == "m" and other.full:
            calls.append(f"m {d} {1 - d} {number}")
            other.full = False
        elif word == "g":
            calls.append(f"g {draw.randrange(10)}")
        elif word == "b":
            calls.append(f"b {draw.choice((0, 65, 66, 4294967295))}")
        elif word == "E" and draw.random() < 0.3:
            calls.append(f"E {d}")
    return calls + ["Z"]


def script_of(sequences):
    """The script of what was made, and for each look the number of its step."""
    codecs, steps, order, looks = [], [], [], []

    def step(do, on, **more):
        steps.append({"do": do, "on": on, **more})
        order.append("a")

    for at, made in enumerate(sequences):
        for words, status in made:
            word = words[0]
            if word == "S":
                codecs += [{"name": f"d{2 * at + d}", "kind": "audio-decoder", "saturation": int(words[1 + d])} for d in (0, 1)]
                continue
            if word == "Z":  # behind what is compared: boxes of coders go back
                for d in (0, 1):
                    step("close", f"d{2 * at + d}")
                    order.append({"done": f"d{2 * at + d}", "at": 0})
                continue
            if word in "pgbE" or word == "m" or status == 6:
                continue
            on = f"d{2 * at + int(words[1])}"
            if word == "c":
                config = {"codec": "" if words[4] == "_" else words[4], "sampleRate": int(words[2]), "numberOfChannels": int(words[3])}
                step("configure", on, config={**config, **({} if words[5] == "-" else {"description": words[5]})})
            elif word == "e":
                name = f"v{len(steps)}"
                init = {"type": "key" if words[2] == "1" else "delta", "timestamp": int(words[3]), "data": words[4].strip("-")}
                steps.append({"do": "chunk", "as": name, "init": init})
                order.append("a")
                step("decode", on, chunk=name)
            elif word == "f":
                step("flush", on, **{"as": f"v{len(steps)}"})
            elif word in "rx":
                step("reset" if word == "r" else "close", on)
            elif word == "l":
                looks.append(len(steps))
                step("state", on)
            elif word == "t":
                order.append({"turn": on})
            elif word in "ws":
                order.append({"start": on})
            if word in "wd" and status == 0:
                order.append({"done": on, "at": int(words[2])})
    return {"codecs": codecs, "callers": [{"name": "a", "steps": steps}], "order": order}, looks


def entries_of(report):
    """The lines of each codec's entries, and the answers of all steps, with what C does not tell left out."""
    codecs, answers, lines = {}, {}, None
    for line in report.split("\n"):
        if line.startswith("codec "):
            lines = codecs.setdefault(line.split()[1], [])
        elif line == "caller a":
            lines = None
        elif line == "pool":
            break
        elif lines is None:
            step, _, answer = line.partition(" ")
            answers[step] = answer
        elif line.startswith("  output"):
            words = line.split(" ")
            lines.append(" ".join(words[:9] + words[10:]))
        else:
            line = re.sub(r"^(\d+) a\.\d+ ", r"\1 ", line)
            lines.append(re.sub(r"^(\d+ done \S+ \d+) .*", r"\1", line))
    return codecs, answers


def compare(seen, report, looks):
    """The first difference, or None."""
    codecs, answers = entries_of(report)
    for at, lines in enumerate(seen):
        for d in (0, 1):
            name, mine = f"d{2 * at + d}", lines[d]
            whole = codecs[name]
            if whole[:len(mine)] != mine:
                first = next((i for i, it in enumerate(mine) if whole[i:i + 1] != [it]), len(mine))
                return at, f"decoder {d}: C {mine[first:first + 1]}, replay {whole[first:first + 1]}"
            rest = whole[len(mine):]
            if not rest or " close = " not in rest[0]:
                return at, f"decoder {d}: behind all of C, replay has {rest[:1]}"
    wanted = [f"d{2 * at + d}:{line}" for at, it in enumerate(seen) for d, line in it[2]]
    for step, line in zip(looks, wanted, strict=True):
        if answers[str(step)] != line:
            return int(line[1:line.index(":")]) // 2, f"a look: C {line}, replay {answers[str(step)]}"
    return None


def read(calls, said):
    """What tools/engine-calls.c said to each sequence: statuses, and lines of both decoders and of looks."""
    made, seen, lines = [], [], iter(said.split("\n"))
    for it in calls:
        done, told = [], ([], [], [])
        for call in it:
            words = call.split(" ")
            for line in lines:
                if line.startswith("= "):
                    break
                if words[0] == "l":
                    told[2].append((int(line[0]), line[2:]))
                else:
                    told[int(line[0])].append(line[2:])
            done.append((words, int(line[2:])))
        made.append(done)
        seen.append(told)
    return made, seen


def build(work, prefix, is_plain):
    flags = ["-std=c11", "-Wall", "-Wextra", "-Werror", "-g", "-O1", f"-I{prefix}/include", "-o", f"{work}/calls"]
    if not is_plain:
        flags += ["-fsanitize=address,undefined", "-fno-sanitize-recover=all"]
    subprocess.run(["cc", *flags, f"{TOP}/tools/engine-calls.c", f"{prefix}/lib/libzemirako_engine.a"], check=True)


def replayed(work, program, script):
    with open(f"{work}/script.json", "w") as out:
        json.dump(script, out)
    ran = subprocess.run([program, "replay", f"{work}/script.json"], stdout=subprocess.PIPE, stderr=subprocess.DEVNULL, text=True)
    if ran.returncode:
        sys.exit(f"the program ended with {ran.returncode}: {ran.stdout[:200]}")
    return ran.stdout


def kind_of(line):
    """What a line of entries is of."""
    words = line.split(" ")
    if not words[0]:
        return words[2]
    return " ".join(words[1:3]) if words[1] == "turn" else words[1]


def try_many(work, program, many, first):
    """Makes the calls of these sequences, of which the first has this number, and counts what came of them."""
    said = subprocess.run([f"{work}/calls"], input="".join(call + "\n" for it in many for call in it), stdout=subprocess.PIPE, text=True)
    if said.returncode:
        sys.exit(f"tools/engine-calls.c ended with {said.returncode}, in sequences from {first} on")
    statuses, kinds = collections.Counter(), collections.Counter()
    made, seen = read(many, said.stdout)
    for at in range(0, len(many), SEQUENCES):
        part, told = made[at:at + SEQUENCES], seen[at:at + SEQUENCES]
        script, looks = script_of(part)
        found = compare(told, replayed(work, program, script), looks)
        if found:
            print(f"sequence {first + at + found[0]}: {found[1]}")
            print("\n".join(f"{' '.join(words)} = {status}" for words, status in part[found[0]]))
            sys.exit(1)
        for calls, (lines, more, _) in zip(part, told):
            statuses.update((words[0], status) for words, status in calls)
            kinds.update(map(kind_of, lines + more))
    return statuses, kinds


def main():
    parser = argparse.ArgumentParser(description=__doc__.splitlines()[0])
    parser.add_argument("--prefix", default=f"{TOP}/out/zemirako_engine")
    parser.add_argument("--program")
    parser.add_argument("--count", type=int, default=100000)
    parser.add_argument("--seed", type=int, default=1)
    parser.add_argument("--plain", action="store_true")
    options = parser.parse_args()
    program = options.program
    if not program:
        program = subprocess.run([f"{TOP}/tools/program"], stdout=subprocess.PIPE, text=True, check=True).stdout.strip()
    draw, statuses, kinds = random.Random(options.seed), collections.Counter(), collections.Counter()
    with tempfile.TemporaryDirectory() as work:
        build(work, options.prefix, options.plain)
        for first in range(0, options.count, MANY):
            many = [sequence(draw) for _ in range(min(MANY, options.count - first))]
            for counts, more in zip((statuses, kinds), try_many(work, os.path.abspath(program), many, first)):
                counts.update(more)
    print(f"{options.count} sequences, {sum(statuses.values())} calls, {sum(kinds.values())} lines of entries: the same")
    print("calls with their statuses:", ", ".join(f"{word} {status}: {count}" for (word, status), count in sorted(statuses.items())))
    print("lines:", ", ".join(f"{kind}: {count}" for kind, count in sorted(kinds.items())))


if __name__ == "__main__":
    main()
