#!/usr/bin/env python3
"""Runs the built program on broken scripts and chunk files: every prefix of a valid script and of a valid chunk file, and
10,000 changes of one byte in each, drawn from a fixed seed.

    tools/hostile.py [PROGRAM] [CHANGES]

Each run has to end within 20 seconds with one of the statuses that the program states, and with a text that is told for it.
Ends with 1 where one does not.
"""
import concurrent.futures
import os
import random
import subprocess
import sys
import tempfile

TOP = os.path.dirname(os.path.dirname(os.path.realpath(__file__)))
SCRIPT = os.path.join(TOP, "demo", "chunks.json")
CHUNKS = os.path.join(TOP, "demo", "speech")

# how the text of each status begins
TEXTS = {0: b"wcrun report 1\n", 3: b"script: ", 4: b"read fault: ", 7: b"limit: "}


def run(program, folder, script, chunks):
    """The status and the output for these bytes, or None where the run does not end."""
    with tempfile.TemporaryDirectory(dir=folder) as place:
        with open(os.path.join(place, "s.json"), "wb") as out:
            out.write(script)
        with open(os.path.join(place, "speech"), "wb") as out:
            out.write(chunks)
        try:
            done = subprocess.run([program, "replay", "s.json"], cwd=place, capture_output=True, timeout=20)
        except subprocess.TimeoutExpired:
            return None
        return done.returncode, done.stdout


def is_told(answer):
    return answer is not None and answer[0] in TEXTS and answer[1].startswith(TEXTS[answer[0]]) and answer[1].endswith(b"\n")


def changes(content, count, seed):
    draw = random.Random(seed)
    for _ in range(count):
        at = draw.randrange(len(content))
        other = (content[at] + draw.randrange(1, 256)) % 256
        yield content[:at] + bytes([other]) + content[at + 1:]


def main():
    program = os.path.realpath(sys.argv[1]) if len(sys.argv) > 1 else subprocess.check_output([os.path.join(TOP, "tools", "program")], text=True).strip()
    count = int(sys.argv[2]) if len(sys.argv) > 2 else 10000
    script = open(SCRIPT, "rb").read()
    chunks = open(CHUNKS, "rb").read()
    suites = {
        "prefixes of the script": [(script[:n], chunks) for n in range(len(script))],
        "prefixes of the chunk file": [(script, chunks[:n]) for n in range(len(chunks))],
        "changes of the script": [(s, chunks) for s in changes(script, count, 1)],
        "changes of the chunk file": [(script, c) for c in changes(chunks, count, 2)],
    }
    bad = 0
    with tempfile.TemporaryDirectory() as folder:
        with concurrent.futures.ThreadPoolExecutor(os.cpu_count()) as pool:
            for name, inputs in suites.items():
                answers = list(pool.map(lambda pair: run(program, folder, *pair), inputs))
                wrong = [n for n, answer in enumerate(answers) if not is_told(answer)]
                by_status = {}
                for answer in answers:
                    status = answer[0] if answer else "none"
                    by_status[status] = by_status.get(status, 0) + 1
                print("%s: %d runs, by status %s, %d wrong" % (name, len(inputs), dict(sorted(by_status.items(), key=str)), len(wrong)))
                for n in wrong[:5]:
                    print("  run %d: %r" % (n, answers[n]))
                bad += len(wrong)
    return 1 if bad else 0


if __name__ == "__main__":
    sys.exit(main())
