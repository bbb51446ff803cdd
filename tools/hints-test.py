#!/usr/bin/env python3
"""Replays scripts that are wrong in one place each, and compares the line on standard output and the hint on standard
error with what is written here; and says of scripts with changed bytes whether each refusal has a hint on the same place.

    tools/hints-test.py [--table] [--changes N] [PROGRAM]

PROGRAM is the one that tools/program names, where it is left out. With --table the scripts' faults and both lines are
printed as a table. N scripts (2,000 where it is left out) have one byte of demo's scripts changed. Ends with 1 where a
line differs. Wants python3.
"""
import json
import os
import random
import re
import struct
import subprocess
import sys
import tempfile

TOP = os.path.dirname(os.path.dirname(os.path.realpath(__file__)))
USAGE = "usage: wcrun replay FILE | run FILE --workers N | load START N | check SCRIPT REPORT | probe FILE\n"

# Each line of this script is one item, so that the lines of hints are easy to see.
SCRIPT = """{"codecs":[
  {"name":"d","kind":"audio-decoder"},
  {"name":"e","kind":"audio-encoder"}],
"callers":[{"name":"a","steps":[
  {"do":"configure","on":"d","config":{"codec":"pcm-s16","sampleRate":8000,"numberOfChannels":1}},
  {"do":"chunk","as":"c","init":{"type":"key","timestamp":0,"data":"01000200"}},
  {"do":"decode","on":"d","chunk":"c"},
  {"do":"flush","on":"d","as":"p"},
  {"do":"await","promise":"p"}]}],
"order":["a","a","a","a",{"start":"d"},{"done":"d","at":1},
  "a"]}
"""
WORDS = "one of configure, chunk, decode, audio, frame, encode, flush, poll, await, reset, close, take, state, ground, clone, transfer, close-data, copy, size, buffer, post, receive is wanted"
NAME = "and a name has 1 to 32 of a to z, 0 to 9, _ and -"

# What is changed in the script, from what to what; the line; the hint.
ROWS = [
    ("a misspelled step", '"do":"decode"', '"do":"decod"', "script: shape at step 0 2",
     's.json:7:9: step 2 of caller a: "do" is "decod"; ' + WORDS),
    ("a step with no word", '{"do":"await",', '{', "script: shape at step 0 4",
     's.json:9:3: step 4 of caller a: "do" is missing; ' + WORDS),
    ("a name with a capital", '"on":"d","chunk"', '"on":"D","chunk"', "script: shape at step 0 2",
     's.json:7:23: step 2 of caller a: "on" is "D", ' + NAME + "; the name of a decoder is wanted"),
    ("an encoder that is to decode", '"on":"d","chunk"', '"on":"e","chunk"', "script: shape at step 0 2",
     's.json:7:23: step 2 of caller a: "on" is "e", a codec of kind audio-encoder; the name of a decoder is wanted'),
    ("a codec that is not there", '"on":"d","chunk"', '"on":"dd","chunk"', "script: unknown name at step 0 2",
     's.json:7:23: step 2 of caller a: "on" is "dd", and no codec has this name; the codecs are d, e'),
    ("a variable that is not there", '"chunk":"c"', '"chunk":"c2"', "script: unknown name at step 0 2",
     's.json:7:35: step 2 of caller a: "chunk" is "c2", and no earlier step of this caller names it by "as"'),
    ("a chunk in the place of a promise", '"promise":"p"', '"promise":"c"', "script: shape at step 0 4",
     's.json:9:27: step 4 of caller a: "promise" is "c", which step 1 names in "chunk"; the name of a promise is wanted'),
    ("a variable twice", '"as":"p"', '"as":"c"', "script: twice at step 0 3",
     's.json:8:31: step 3 of caller a: "as" is "c", which step 1 names already, in "chunk"; a new name is wanted'),
    ("a config that is missing", ',"config":{"codec":"pcm-s16","sampleRate":8000,"numberOfChannels":1}', "", "script: shape at step 0 0",
     's.json:5:3: step 0 of caller a: "config" is missing; an object is wanted'),
    ("a rate as a text", '"sampleRate":8000', '"sampleRate":"8000"', "script: shape at step 0 0",
     's.json:5:71: step 0 of caller a: "sampleRate" is "8000"; a number with no point or exponent is wanted'),
    ("a rate with a point", '"sampleRate":8000', '"sampleRate":8000.0', "script: shape at step 0 0",
     's.json:5:71: step 0 of caller a: "sampleRate" is 8000.0; a number with no point or exponent is wanted'),
    ("half a byte of data", '"01000200"', '"0100020"', "script: shape at step 0 1",
     's.json:6:68: step 1 of caller a: "data" is "0100020"; a text of pairs of hexadecimal digits, or an object that names a buffer by "buffer" is wanted'),
    ("a chunk of a file with no number", '"init":{"type":"key","timestamp":0,"data":"01000200"}', '"file":"speech"', "script: shape at step 0 1",
     's.json:6:3: step 1 of caller a: it has "file"; either "init" or both "file" and "index" is wanted'),
    ("a kind that is none", '"kind":"audio-decoder"', '"kind":"audiodecoder"', "script: shape at codec 0",
     's.json:2:22: codec 0: "kind" is "audiodecoder"; audio-decoder, audio-encoder, video-decoder or video-encoder is wanted'),
    ("a saturation of 0", '"kind":"audio-decoder"', '"kind":"audio-decoder","saturation":0', "script: shape at codec 0",
     's.json:2:51: codec 0: "saturation" is 0; a number from 1 to 64 is wanted'),
    ("a codec's name twice", '"name":"e"', '"name":"d"', "script: twice at codec 1",
     's.json:3:11: codec 1: "name" is "d", as that of codec 0; codecs, callers and ports all have names of their own'),
    ("a caller named like a codec", '"name":"a"', '"name":"d"', "script: twice at caller 0",
     's.json:4:20: caller 0: "name" is "d", as that of codec 0; codecs, callers and ports all have names of their own'),
    ("a caller once too often", '\n  "a"]', '\n  "a","a"]', "script: shape at top",
     's.json:11:7: caller a stands in "order" 6 times, and has 5 steps; as many of both are wanted'),
    ("a caller too seldom", '\n  "a"]', '\n  {"turn":"d"}]', "script: shape at top",
     's.json:10:9: caller a stands in "order" 4 times, and has 5 steps; as many of both are wanted'),
    ("a caller that is not there", '\n  "a"]', '\n  "b"]', "script: unknown name at order 6",
     's.json:11:3: item 6 of the order: it is "b", and no caller has this name; the callers are a'),
    ("an end with no moment", '{"done":"d","at":1}', '{"done":"d"}', "script: shape at order 5",
     's.json:10:40: item 5 of the order: "at" is missing; the moment in microseconds is wanted'),
    ("two words in one item", '{"start":"d"}', '{"start":"d","turn":"d"}', "script: shape at order 4",
     's.json:10:26: item 4 of the order: it has 2 of "start", "done", "turn" and "reclaim"; just one is wanted'),
    ("an order that is absent", '"order":["a","a","a","a",{"start":"d"},{"done":"d","at":1},\n  "a"]', '"orders":[]', "script: shape at top",
     's.json:1:1: "order" is missing; an array is wanted\ns.json:10:1: warning: "orders" is no member that is looked at here'),
    ("a port named like a codec", '\n  "a"]', '\n  "a"],"ports":[{"name":"d","of":"audio"}]', "script: twice at top",
     's.json:11:25: "name" is "d", as that of codec 0; codecs, callers and ports all have names of their own'),
    ("a port's name twice", '\n  "a"]', '\n  "a"],"ports":[{"name":"q","of":"audio"},{"name":"q","of":"frame"}]', "script: twice at top",
     's.json:11:51: "name" is "q", as that of port 0; codecs, callers and ports all have names of their own'),
    ("a port of another kind", '\n  "a"]', '\n  "a"],"ports":[{"name":"q","of":"chunk"}]', "script: shape at top",
     's.json:11:34: "of" is "chunk"; audio or frame is wanted'),
    ("65 ports", '\n  "a"]', '\n  "a"],"ports":[' + ",".join(['{"name":"q","of":"audio"}'] * 65) + "]", "script: shape at top",
     's.json:11:16: "ports" has 65 items; at most 64 are wanted'),
    ("a port that is not there", '{"do":"decode","on":"d","chunk":"c"}', '{"do":"receive","from":"q","as":"x"}', "script: unknown name at step 0 2",
     's.json:7:26: step 2 of caller a: "from" is "q", and the script has no "ports"'),
    ("a buffer that is not there", '"data":"01000200"', '"data":{"buffer":"b"}', "script: unknown name at step 0 1",
     's.json:6:78: step 1 of caller a: "buffer" is "b", and no earlier step of this caller names it by "as"'),
    ("a list with the name of a chunk", '{"do":"decode","on":"d","chunk":"c"}', '{"do":"frame","as":"f","init":{"data":"00","transfer":["c"]}}', "script: shape at step 0 2",
     's.json:7:58: step 2 of caller a: "transfer" is "c", which step 1 names in "chunk"; the name of a buffer is wanted'),
    ("a comma too many", '"chunk":"c"}', '"chunk":"c",}', "script: not json",
     's.json:7:39: no JSON goes on with } here'),
    ("a comma too few", '"on":"d","chunk"', '"on":"d" "chunk"', "script: not json",
     's.json:7:27: no JSON goes on with " here'),
    ("a bracket too few", '\n  "a"]}', '\n  "a"]', "script: not json",
     "s.json:12:1: the text ends here; a value, a comma or a closing bracket is wanted"),
    ("a number beyond doubles", '"timestamp":0', '"timestamp":1e999', "script: not json",
     "s.json:6:59: the number here is too great for a double"),
    ("a chunk file that is not there", '"init":{"type":"key","timestamp":0,"data":"01000200"}', '"file":"nothing","index":0', "read fault: nothing",
     "nothing: No such file or directory (os error 2)"),
    ("a chunk that its file lacks", '"init":{"type":"key","timestamp":0,"data":"01000200"}', '"file":"speech","index":7', "script: chunks speech no index at step 0 1",
     's.json:6:50: step 1 of caller a: "index" is 7, and the chunk file speech has 2 chunks, numbered from 0'),
    ("a chunk file that is none", '"init":{"type":"key","timestamp":0,"data":"01000200"}', '"file":"s.json","index":0', "script: chunks s.json bad mark at 0",
     "s.json: a chunk file begins with WCC1, and the first 0 bytes of this one agree with that"),
    ("a WAV file of another format", '"init":{"type":"key","timestamp":0,"data":"01000200"}', '"file":"float.wav","index":0', "script: chunks float.wav wav tag 3 bits 32",
     "float.wav: its format has the tag 3 and 32 bits; 1 with 8, 16, 24 or 32, or 6 or 7 with 8 is wanted"),
    ("a FLAC file that is cut", '"init":{"type":"key","timestamp":0,"data":"01000200"}', '"file":"cut.flac","index":0', "script: chunks cut.flac bad flac at 0",
     "cut.flac: a FLAC file is fLaC, its blocks and then frames to its end; at byte 0 stands no description, or a block that is cut, or no frame of the stream"),
    ("a member that no rule knows", '"kind":"audio-decoder"', '"kind":"audio-decoder","sturation":2', None,
     's.json:2:38: warning: "sturation" is no member that is looked at here'),
    ("a member of another step", '"do":"decode",', '"do":"decode","as":"x",', None,
     's.json:7:18: warning: "as" is no member that "decode" looks at'),
    ("a member of a config that is ignored", '"sampleRate"', '"sampelRate":1,"sampleRate"', None,
     's.json:5:58: warning: "sampelRate" is no member that is looked at here'),
]


def replay(program, folder, script):
    with open(os.path.join(folder, "s.json"), "w", encoding="utf-8") as it:
        it.write(script)
    done = subprocess.run([program, "replay", "s.json"], cwd=folder, capture_output=True, text=True, timeout=60)
    return done.returncode, done.stdout, done.stderr


def check_rows(program, folder, table):
    bad = 0
    for what, old, new, line, hint in ROWS:
        if SCRIPT.count(old) < 1:
            raise SystemExit("hints-test: %s: the script has no %s" % (what, old))
        status, out, err = replay(program, folder, SCRIPT.replace(old, new, 1))
        is_right = (status == 0 and out.endswith("\nend\n")) if line is None else out == line + "\n"
        if not is_right or err != hint + "\n":
            print("%s: status %d\n  %s  %s  wanted: %s" % (what, status, out[:200], err, hint))
            bad += 1
        elif table:
            print("| %s | %s | `%s` |" % (what, "a report" if line is None else "`%s`" % line, hint.replace("|", "\\|")))
    print("%d broken scripts: %s" % (len(ROWS), "both lines of each as they should be" if not bad else "%d wrong" % bad))
    return bad


def check_words(program):
    """Words that are no command: the usage line, status 2, and help with the version of the header."""
    with open(os.path.join(TOP, "include", "zemirako.h"), encoding="utf-8") as it:
        version = re.search(r'^#define ZEMIRAKO_VERSION "(.*)"$', it.read(), re.M)[1]
    bad = 0
    for words in ([], ["--help"], ["--version"], ["replay"], ["replay", "--help"], ["run", "s.json", "--workers", "17"], ["check", "s.json"]):
        done = subprocess.run([program, *words], capture_output=True, text=True, timeout=60)
        if (done.returncode, done.stdout) != (2, USAGE) or not done.stderr.startswith("wcrun %s\n" % version) or "wcrun replay FILE" not in done.stderr:
            print("%s: status %d, %s%s" % (words, done.returncode, done.stdout, done.stderr[:100]))
            bad += 1
    with open("/dev/full", "w") as full:
        done = subprocess.run([program, "replay", os.path.join(TOP, "demo", "ordinary.json")], stdout=full, stderr=subprocess.PIPE, text=True)
    if done.returncode != 5 or not done.stderr.startswith("wcrun: standard output did not take"):
        print("a full device: status %d, %s" % (done.returncode, done.stderr))
        bad += 1
    print("words that are no command, and a full device: %s" % ("as they should be" if not bad else "%d wrong" % bad))
    return bad


# The place that a line names, as a hint names it.
def place_in(line, script):
    found = re.fullmatch(r"script: (?:shape|twice|unknown name) at (top|codec \d+|caller \d+|step \d+ \d+|order \d+)\n", line)
    if not found:
        return None
    words = found[1].split()
    if words[0] == "step":
        names = [it.get("name") for it in json.loads(script).get("callers")]
        return "step %s of caller %s: " % (words[2], names[int(words[1])])
    return {"top": "", "codec": "codec %s: ", "caller": "caller %s: ", "order": "item %s of the order: "}[words[0]] % tuple(words[1:])


def check_changes(program, folder, count):
    """Scripts with one byte changed: each that is refused has one hint, on the place that the line names."""
    draw = random.Random(36)
    scripts = []
    for name in sorted(os.listdir(os.path.join(TOP, "demo"))):
        if name.endswith(".json"):
            with open(os.path.join(TOP, "demo", name), encoding="ascii") as it:
                scripts.append(it.read())
    refused = without = wrong = 0
    for _ in range(count):
        script = draw.choice(scripts)
        at = draw.randrange(len(script))
        changed = script[:at] + chr(draw.randrange(32, 127)) + script[at + 1:]
        status, out, err = replay(program, folder, changed)
        if status == 0:
            continue
        refused += 1
        hints = [it for it in err.splitlines() if ": warning: " not in it]
        if len(hints) != 1:
            without += 1
            if without < 6:
                print("  %d hints for %s%s" % (len(hints), out, changed))
            continue
        place = place_in(out, changed)
        found = re.match(r"s\.json:(\d+):(\d+): (.*)", hints[0])
        if place is not None and (not found or not found[3].startswith(place)):
            wrong += 1
            print("  %s  %s" % (out, hints[0]))
        if out == "script: not json\n" and found:
            try:
                json.loads(changed)
            except ValueError as fault:
                # Python names a place near the same one: a hint stands within a token of it
                lines = changed.split("\n")
                mine = sum(len(it) + 1 for it in lines[:int(found[1]) - 1]) + int(found[2]) - 1
                # (a hint on a broken text stands where the text begins)
                in_text = changed[mine:mine + 1] == '"' and mine < fault.pos and not re.search(r'(?<!\\)"', changed[mine + 1:fault.pos])
                if abs(mine - fault.pos) > 24 and not in_text:
                    wrong += 1
                    print("  not json: %s, and Python at %d, not %d" % (hints[0], fault.pos, mine))
    print("%d scripts with a changed byte, %d refused: %d without one hint, %d with a hint on another place" % (count, refused, without, wrong))
    return without + wrong


def main():
    words, table, count = sys.argv[1:], False, 2000
    while words and words[0].startswith("--"):
        word = words.pop(0)
        if word == "--table":
            table = True
        elif word == "--changes" and words:
            count = int(words.pop(0))
        else:
            print(__doc__, file=sys.stderr)
            return 2
    program = os.path.realpath(words[0]) if words else subprocess.check_output([os.path.join(TOP, "tools", "program")], text=True).strip()
    with tempfile.TemporaryDirectory() as folder:
        with open(os.path.join(TOP, "demo", "speech"), "rb") as it, open(os.path.join(folder, "speech"), "wb") as to:
            to.write(it.read())
        with open(os.path.join(folder, "float.wav"), "wb") as to:
            to.write(b"RIFF$\0\0\0WAVEfmt \x10\0\0\0" + struct.pack("<HHIIHH", 3, 1, 8000, 32000, 4, 32) + b"data\0\0\0\0")
        with open(os.path.join(folder, "cut.flac"), "wb") as to:
            to.write(b"fLaC\x80")
        bad = check_rows(program, folder, table) + check_words(program) + check_changes(program, folder, count)
    return 1 if bad else 0


if __name__ == "__main__":
    sys.exit(main())
