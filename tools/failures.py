#!/usr/bin/env python3
"""Runs the built program on failing files and outputs and on hostile input, case by case, and compares what it answers.

    tools/failures.py [PROGRAM]

Prints one row for each case: how many runs it took, the statuses, and whether each answer was the one that is stated. A library
that is loaded before the program makes its writes and its openings of a file fail; needs gcc. Ends with 1 where an answer
differs. tools/fail-allocations.sh does the same for memory that is refused.
"""
import collections
import json
import os
import re
import struct
import subprocess
import sys
import tempfile

TOP = os.path.dirname(os.path.dirname(os.path.realpath(__file__)))

FAIL = r"""
#define _GNU_SOURCE
#include <dlfcn.h>
#include <errno.h>
#include <fcntl.h>
#include <stdarg.h>
#include <stdlib.h>
#include <string.h>
#include <unistd.h>
/* The write to the standard output whose number is in FAIL_WRITE, counted from 0, writes half of its bytes, and then all fail. */
ssize_t write(int fd, const void *bytes, size_t count) {
  static ssize_t (*real)(int, const void *, size_t);
  static long calls;
  const char *n = getenv("FAIL_WRITE");
  if (!real) real = dlsym(RTLD_NEXT, "write");
  if (fd != 1 || !n) return real(fd, bytes, count);
  long call = calls++;
  if (call < atol(n)) return real(fd, bytes, count);
  if (call == atol(n) && count >= 2) return real(fd, bytes, count / 2);
  errno = EIO;
  return -1;
}
/* A file of the name in FAIL_OPEN cannot be opened. */
static int fails(const char *path) {
  const char *name = getenv("FAIL_OPEN"), *last = strrchr(path, '/');
  if (!name || strcmp(last ? last + 1 : path, name)) return 0;
  errno = EIO;
  return 1;
}
#define OPENS(name) \
  int name(const char *path, int flags, ...) { \
    static int (*real)(const char *, int, ...); \
    va_list more; va_start(more, flags); int mode = va_arg(more, int); va_end(more); \
    if (!real) real = dlsym(RTLD_NEXT, #name); \
    return fails(path) ? -1 : real(path, flags, mode); \
  }
#define OPENS_AT(name) \
  int name(int at, const char *path, int flags, ...) { \
    static int (*real)(int, const char *, int, ...); \
    va_list more; va_start(more, flags); int mode = va_arg(more, int); va_end(more); \
    if (!real) real = dlsym(RTLD_NEXT, #name); \
    return fails(path) ? -1 : real(at, path, flags, mode); \
  }
OPENS(open) OPENS(open64) OPENS_AT(openat) OPENS_AT(openat64)
"""


class Place:
    """A folder in which the program is run on files."""

    def __init__(self, folder, program, library):
        self.folder, self.program, self.library = folder, program, library

    def put(self, name, content):
        if not isinstance(content, bytes):
            content = (content if isinstance(content, str) else json.dumps(content)).encode()
        with open(os.path.join(self.folder, name), "wb") as out:
            out.write(content)

    def replay(self, script, **fails):
        """The status and the output for a script, where these things fail."""
        self.put("s.json", script)
        more = {"LD_PRELOAD": self.library, **fails} if fails else {}
        done = subprocess.run([self.program, "replay", "s.json"], cwd=self.folder, capture_output=True, timeout=120,
                              env={**os.environ, **{k: str(v) for k, v in more.items()}})
        return done.returncode, done.stdout


def script(codecs, callers, order):
    return {"codecs": codecs, "callers": [{"name": n, "steps": s} for n, s in callers], "order": order}


def work(codec, end):
    return [{"start": codec}, {"done": codec, "at": end}]


def turns(codec, count):
    return [{"turn": codec}] * count


def chunk(name, data, timestamp=0):
    return {"do": "chunk", "as": name, "init": {"type": "key", "timestamp": timestamp, "data": data}}


def configure(on, codec, rate=8000, channels=1, **more):
    return {"do": "configure", "on": on, "config": {"codec": codec, "sampleRate": rate, "numberOfChannels": channels, **more}}


def decode(on, name):
    return {"do": "decode", "on": on, "chunk": name}


def chunk_file(*contents):
    """A chunk file (docs/FORMATS.md) of key chunks at 0."""
    return b"WCC1" + b"".join(b"\0" + bytes(8) + b"\0" + bytes(8) + struct.pack(">I", len(c)) + c for c in contents)


# ---- the cases: each gives pairs of what came and whether it is right


def failing_writes(place):
    with open(os.path.join(TOP, "demo", "ordinary.json")) as file:
        ordinary = file.read()
    with open(os.path.join(TOP, "demo", "ordinary.report"), "rb") as file:
        lines = file.read().splitlines(keepends=True)
    for i, line in enumerate(lines):
        status, text = place.replay(ordinary, FAIL_WRITE=i)
        yield status, (status, text) == (5, b"".join(lines[:i]) + line[:len(line) // 2])


WHOLE = script([{"name": "d", "kind": "audio-decoder"}], [("a", [{"do": "chunk", "as": "c", "file": "f", "index": 0}])], ["a"])


def failing_reads(place):
    place.put("f", chunk_file(b"\1\0"))
    for name in ("s.json", "f"):
        answer = place.replay(WHOLE, FAIL_OPEN=name)
        yield answer[0], answer == (4, b"read fault: " + name.encode() + b"\n")


def failing_reads_and_writes(place):
    place.put("f", chunk_file(b"\1\0"))
    for name in ("s.json", "f"):
        line = b"read fault: " + name.encode() + b"\n"
        answer = place.replay(WHOLE, FAIL_OPEN=name, FAIL_WRITE=0)
        yield answer[0], answer == (5, line[:len(line) // 2])


FLAC = "664c6143800000221000100000000f00000f0ac442f0000000013e84b41807dc690307586a3dad1a2e0f"
FRAME = bytes.fromhex("fff869180000bf0358fd03128baa9a")


def broken_frames(place):
    cut = [FRAME[:n] for n in range(len(FRAME))]
    bits = [FRAME[:-2] + bytes(b ^ (1 << n - 8 * (1 - i) if 0 <= n - 8 * (1 - i) < 8 else 0) for i, b in enumerate(FRAME[-2:]))
            for n in range(16)]
    for frame in cut + bits:
        steps = [configure("d", "flac", 44100, 2, description=FLAC), chunk("c", frame.hex()), decode("d", "c"),
                 {"do": "state", "on": "d"}]
        order = ["a"] * 3 + work("d", 1) + turns("d", 2) + work("d", 2) + turns("d", 2) + ["a"]
        status, text = place.replay(script([{"name": "d", "kind": "audio-decoder"}], [("a", steps)], order))
        yield status, status == 0 and b"turn close EncodingError\n" in text and b"  error EncodingError\n" in text \
            and re.search(rb"^3 d:\d+ closed 0$", text, re.M) is not None and b"  output" not in text


def with_reset(steps, order, codecs, on):
    """The script with one reset of a second caller, before each item of the order and after the last."""
    for i in range(len(order) + 1):
        yield script(codecs, [("a", steps), ("b", [{"do": "reset", "on": on}])], order[:i] + ["b"] + order[i:])


def reset_place(text):
    found = re.search(rb"^(\d+) b\.0 reset = ok$", text, re.M)
    return int(found.group(1)) if found else None


def resets_of_a_decoder(place):
    steps = [configure("d", "pcm-s16")] + [x for i in range(3) for x in (chunk(f"c{i}", f"0{i + 1}00"), decode("d", f"c{i}"))]
    order = ["a"] * 7 + work("d", 1) + turns("d", 2) + (work("d", 2) + work("d", 3)) + turns("d", 5) + work("d", 4) + turns("d", 1)
    for reset in with_reset(steps, order, [{"name": "d", "kind": "audio-decoder", "saturation": 2}], "d"):
        status, text = place.replay(reset)
        at = reset_place(text)
        if at is None:
            yield status, False
            continue
        calls = {m[1]: int(m[0]) for m in re.findall(rb"^(\d+) (a\.\d+) decode = ok$", text, re.M)}
        # each decode has a chunk of its own, by which its output is known
        given = {b"0%d00" % (i + 1): calls.get(b"a.%d" % (2 * i + 2), -1) for i in range(3)}
        place_now, old = 0, False
        for line in text.splitlines():
            entry = re.match(rb"(\d+) (?:turn|start|done|[ab]\.)", line)
            place_now = int(entry.group(1)) if entry else place_now
            shown = re.match(rb"  output audio .* ([0-9a-f]+)$", line)
            old |= bool(shown) and place_now > at and given[shown.group(1)] < at
        yield status, status == 0 and not old


def resets_of_an_encoder(place):
    steps = [{"do": "audio", "as": "x", "init": {"format": "s16", "sampleRate": 8000, "numberOfFrames": 1,
                                                 "numberOfChannels": 1, "timestamp": 0, "data": "0100"}},
             configure("e", "pcm-s16")] + [{"do": "encode", "on": "e", "data": "x"}] * 2
    order = ["a"] * 4 + work("e", 1) + turns("e", 2) + work("e", 2) + work("e", 3) + turns("e", 3)
    for reset in with_reset(steps, order, [{"name": "e", "kind": "audio-encoder"}], "e"):
        status, text = place.replay(reset)
        at = reset_place(text)
        if at is None:
            yield status, False
            continue
        clones = re.findall(rb"^\d+ e\.(\d+) clone 0 (\d+)$", text, re.M)
        ends = collections.Counter(re.findall(rb"^\d+ \S+ end 0 (\d+) ", text, re.M))
        yield status, status == 0 and b"\nheld 1\n" in text and all(ends[f] == 1 for p, f in clones if int(p) < at)


def counts_above_their_limits(place):
    codecs = [{"name": f"d{i}", "kind": "audio-decoder"} for i in range(65)]
    states = [{"do": "state", "on": "d"}] * 100001
    for hostile, line in (({"codecs": codecs, "callers": [], "order": []}, b"limit: codecs 65\n"),
                          (script([{"name": "d", "kind": "audio-decoder"}], [("a", states)], []), b"limit: steps 100001\n"),
                          ({"codecs": [], "callers": [], "order": [0] * 1000001}, b"limit: order 1000001\n")):
        answer = place.replay(hostile)
        yield answer[0], answer == (7, line)


def chunks_at_their_limit(place):
    for count, wanted, beginning in ((16777217, 7, b"limit: chunk 16777217\n"), (16777216, 0, b"wcrun report 1\n")):
        place.put("f", chunk_file(bytes(count)))
        status, text = place.replay(WHOLE)
        yield status, status == wanted and text.startswith(beginning)


def no_json(place):
    for hostile in (b"[" * 200 + b"]" * 200, b"\xff"):
        answer = place.replay(hostile)
        yield answer[0], answer == (3, b"script: not json\n")


def numbers_outside_their_types(place):
    codecs = [{"name": "d", "kind": "audio-decoder"}]
    status, text = place.replay(script(codecs, [("a", [configure("d", "pcm-s16", -1)])], ["a"]))
    yield status, status == 0 and b"0 a.0 configure = TypeError\n" in text
    status, text = place.replay(script(codecs, [("a", [chunk("c", "0100", 9007199254740992)])], ["a"]))
    yield status, status == 0 and b"\n0 TypeError\n" in text and b" a.0 " not in text


CASES = (
    ("the ordinary run, each write failing in turn", failing_writes),
    ("a script with a chunk file, the opening of each failing", failing_reads),
    ("the same, and the first write fails as well", failing_reads_and_writes),
    ("a FLAC frame cut to 0 to 14 bytes, and each of its last 16 bits changed", broken_frames),
    ("a saturated decoder, reset at each place of the order", resets_of_a_decoder),
    ("an encoder with clones, reset at each place of the order", resets_of_an_encoder),
    ("65 codecs; 100,001 steps; 1,000,001 items of the order", counts_above_their_limits),
    ("a chunk of 16,777,217 bytes; one of 16,777,216 that no step decodes", chunks_at_their_limit),
    ("200 brackets; a byte FF", no_json),
    ("a rate of -1; a timestamp of 2^53", numbers_outside_their_types),
)


def main():
    program = os.path.realpath(sys.argv[1] if len(sys.argv) > 1 else os.path.join(TOP, "crates/wcrun/out/wcrun"))
    bad = 0
    with tempfile.TemporaryDirectory() as folder:
        source, library = os.path.join(folder, "fail.c"), os.path.join(folder, "fail.so")
        with open(source, "w") as out:
            out.write(FAIL)
        subprocess.run(["gcc", "-shared", "-fPIC", "-O1", "-o", library, source, "-ldl"], check=True)
        place = Place(folder, program, library)
        print("| case | runs | statuses | as stated |\n|---|---|---|---|")
        for name, case in CASES:
            answers = list(case(place))
            statuses = sorted(collections.Counter(s for s, _ in answers).items())
            right = sum(is_right for _, is_right in answers)
            bad += len(answers) - right
            print(f"| {name} | {len(answers)} | {', '.join(f'{s} ({n})' for s, n in statuses)} | {right} of {len(answers)} |", flush=True)
    return 1 if bad else 0


if __name__ == "__main__":
    sys.exit(main())
